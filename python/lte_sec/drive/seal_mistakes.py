"""Why a protected message of a driven actor is not the wanted one, or is refused where it is right: those of
`common.mistakes` that concern MACs and ciphers."""
from __future__ import annotations

import dataclasses

from lte_sec.drive import frames, protection as protected
from ..common import pdu_mistakes as pdu_reasons, mistakes as reasons
from lte_sec.drive.network import Network, Told
from lte_sec.drive.peers import Peer
from lte_sec.drive.protection import BearerHistory
from ..common.pdu_mistakes import PartsWrong
from lte_sec.runs.run_report import LadderRow
from lte_sec.runs.scenarios import Scenario
from lte_sec.common.terms import RRC_ENCRYPTION, RRC_INTEGRITY, Calls

MAC_FAILS = next(number for number, (name, _) in frames.ANSWERS.items() if name == "MacFails")
SECONDS = 60  # that an actor of the program itself may take


class StepReached(Exception):
    """The step is reached."""


def body_at(program: str, scenario: Scenario, place: int, actor: str) -> bytes | None:
    """What an actor is told at a step, in a run over served actors of the program."""
    network, peers, found = Network(scenario), dict[str, Peer](), list[bytes]()

    def tell(step: int, told: Told, _: object) -> frames.Reply:
        if step == place and told.actor == actor:
            found.append(told.body)
            raise StepReached
        if told.actor not in peers:
            peer = peers[told.actor] = Peer([program], told.actor, SECONDS)
            peer.connect()
            peer.send(network.setup_of(told.actor))
            peer.reply()
        peers[told.actor].send(told.body)
        return frames.read_reply(frames.unframed(peers[told.actor].reply()))

    try:
        network.run(tell)
    except StepReached:
        pass
    finally:
        for peer in peers.values():
            peer.end()
    return found[0] if found else None


@dataclasses.dataclass(frozen=True)
class ActorStep:
    """A step of a scenario at an actor, and the rows of the scenario's run by the program."""

    program: str
    rows: dict[int, LadderRow]
    scenario: Scenario
    place: int
    actor: str

    @property
    def role(self) -> str:
        return self.actor.split()[0]

    def body(self) -> bytes | None:
        """What the actor is told."""
        return body_at(self.program, self.scenario, self.place, self.actor)

    def course(self, direction: int, bearer: str) -> BearerHistory:
        return BearerHistory(self.rows, self.scenario.steps[: self.place + 1], direction, bearer)


def mistakes(calls: Calls, step: ActorStep, wanted: frames.Reply, got: frames.Reply) -> list[PartsWrong]:
    """The mistake by which a message that was sent is another, or one that came is refused or opened to another
    text."""
    if not is_protected(wanted, got):
        return []
    if got.answer == MAC_FAILS and (got.answer, got.values) != (wanted.answer, wanted.values):
        return refused(calls, step, got.values[4:8], got.values[8:12])
    if wanted.record is not None and got.record is not None and wanted.record != got.record:
        return sent(calls, step, wanted, got.record)
    return opened(calls, step, wanted.text or b"", got.text or b"")


def is_protected(wanted: frames.Reply, got: frames.Reply) -> bool:
    """Whether two replies differ in a message over NAS or the air, or in what became of one."""
    if got.answer == MAC_FAILS and (got.answer, got.values) != (wanted.answer, wanted.values):
        return True
    if wanted.record is not None and got.record is not None and wanted.record != got.record:
        return bearer_of(wanted) != "" and wanted.to[0] == got.to[0]
    return None not in (wanted.text, got.text) and wanted.text != got.text


def bearer_of(reply: frames.Reply) -> str:
    """The bearer that a record goes over; nothing where it is none of NAS or the air."""
    words = frames.address_text(reply.to).split()
    return "nas" if words[1] == "nas" else words[-1].removeprefix("bearer=") if "bearer=" in words[-1] else ""


def sent(calls: Calls, step: ActorStep, wanted: frames.Reply, record: bytes) -> list[PartsWrong]:
    """Of a record that an actor sent in place of the wanted one."""
    bearer, direction = bearer_of(wanted), int(step.role != "phone")
    assert wanted.record is not None
    if bearer == "nas":
        return sent_nas(calls, protected.nas(calls, step.course(direction, bearer), wanted.record), record)
    if bearer.startswith("srb"):
        it = protected.srb(calls, step.course(direction, bearer), wanted.record)
        found = (
            pdu_reasons.pdu(calls, dataclasses.replace(it, octets=record), it.opened(calls)[:-4])
            if it
            else PartsWrong()
        )
        return [found] if found.why else []
    return sent_packet(calls, step, direction, bearer, wanted.record, record) if bearer else []


def sent_nas(calls: Calls, it: reasons.ProtectedNas | None, record: bytes) -> list[PartsWrong]:
    if it is None or len(record) < 6:
        return []
    plain, own = reasons.deciphered(calls, it), dataclasses.replace(it, pdu=record)
    of_text = (
        reasons.ciphering(calls, own.ciphered(), 8, lambda text: text == plain) if record[6:] != it.pdu[6:] else ()
    )
    of_mac = reasons.mac(calls, own)
    return [
        PartsWrong((name,), why)
        for name, why in (("text", of_text if reasons.is_sure(of_text, plain) else ()), ("MAC", of_mac))
        if why
    ]


def sent_packet(
    calls: Calls, step: ActorStep, direction: int, bearer: str, wanted: bytes, record: bytes
) -> list[PartsWrong]:
    act = step.scenario.steps[step.place]
    packet = bytes.fromhex(act["text"]) if act["do"] == "user" else b""
    it = protected.drb(calls, step.course(direction, bearer), wanted, packet)
    why = (
        reasons.ciphering(calls, dataclasses.replace(it, body=record[2:]), 12, lambda plain: plain == packet)
        if it
        else ()
    )
    return [PartsWrong(("packet",), why)] if reasons.is_sure(why, packet) else []


def came(step: ActorStep) -> tuple[str, bytes]:
    """The bearer and the octets of the message that came to the actor; nothing where none did over NAS or the air."""
    body = step.body()
    given = frames.read_input(step.role, False, body) if body else None
    if given is None or given.name not in ("Nas", "Air"):
        return "", b""
    octets = given.fields["pdu"]
    assert isinstance(octets, bytes)
    return frames.BEARERS[int(str(given.fields["bearer"]))] if given.name == "Air" else "nas", octets


def opened(calls: Calls, step: ActorStep, wanted: bytes, got: bytes) -> list[PartsWrong]:
    """Of a packet that is right, and that an actor deciphers otherwise."""
    bearer, octets = came(step)
    it = (
        protected.drb(calls, step.course(int(step.role == "phone"), bearer), octets, wanted)
        if bearer.startswith("drb")
        else None
    )
    why = reasons.ciphering(calls, it, 12, lambda plain: plain == got, "deciphered") if it else ()
    return [PartsWrong(("text",), why)] if reasons.is_sure(why, got) else []


def refused(calls: Calls, step: ActorStep, computed: bytes, received: bytes) -> list[PartsWrong]:
    """Of a message that is right, and whose MAC an actor computes or deciphers otherwise."""
    (bearer, octets), direction = came(step), int(step.role == "phone")
    if bearer == "nas":
        nas = protected.nas(calls, step.course(direction, bearer), octets)
        why = reasons.mac(calls, dataclasses.replace(nas, pdu=octets[:1] + computed + octets[5:])) if nas else ()
        return [PartsWrong(("the MAC that it wants",), why)] if why else []
    it = protected.srb(calls, step.course(direction, bearer), octets) if bearer.startswith("srb") else None
    return refused_srb(calls, it, computed, received) if it else []


def refused_srb(calls: Calls, it: pdu_reasons.Pdu, computed: bytes, received: bytes) -> list[PartsWrong]:
    plain = it.opened(calls)
    if plain[-4:] != received:
        why = reasons.ciphering(calls, it.ciphered(), 5, lambda other: other[-4:] == received, "deciphered")
        return [PartsWrong(("text",), why)] if why else []
    whole, key = (
        calls.algorithm_key(it.above, type, identity)
        for type, identity in ((RRC_INTEGRITY, it.eia), (RRC_ENCRYPTION, it.eea))
    )
    why = pdu_reasons.srb(
        calls,
        computed,
        pdu_reasons.Srb(whole, key, it.eia, it.direction, it.count, it.bearer, it.octets[:1] + plain[:-4], it.eea),
    )
    return [PartsWrong(("the MAC-I that it wants",), why)] if why else []
