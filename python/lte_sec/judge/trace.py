"""A trace message by message: which connection of which phone each belongs to, and how it is judged."""
from __future__ import annotations

from array import array
from collections.abc import Callable, Iterable, Iterator

from ..captures.decoding import Message, title
from ..captures.layers import UNREADABLE
from ..captures.link_types import ALONE, CUT
from ..captures.stations import FROM_STATION, station_end
from ..common.causes import Cause, Why
from ..common.escaped import shown
from ..common.progress import told
from ..common.report import DIFFERS, KEYS, RIGHT, UNKNOWN, Line, NasPart, Verdict, note_line, unknown_line, withdrawn
from ..common.terms import DOWN, UP
from ..nas.contexts import PLAIN, NasSeen
from ..nas.service import ServiceBook
from .account import Account, Membership, Use, account
from .attempts import Leg
from .choices import Choices, Tape
from .connections import Connections
from .ended import ToldConnection, told_of
from .grounds import Grounds, Places
from .key_judge import KeyJudge
from .line_store import LinesInOrder
from .state import Connection

FROM_PHONE = ("InitialUEMessage", "UplinkNASTransport")
SERVED = (  # only the station that serves the phone has these
    "UplinkNASTransport",
    "HandoverRequired",
    "PathSwitchRequestAcknowledge",
    "UEContextSuspendRequest",
    "UEContextSuspendResponse",
    "UEContextResumeRequest",
    "UEContextResumeResponse",
)
RESTARTS = ("S1SetupRequest", "S1SetupResponse", "Reset", "ResetAcknowledge")
JUDGED = (*KEYS, "command", "agreement")  # by histories
TRIES = 16  # keys or MACs that are tried weigh as much as a message that is read

Handler = Callable[["Trace", Connection, Message, str, Leg], None]


class Trace(Connections):
    """A reading: the messages of a trace in their order, and what became of each connection, by some choices."""

    def __init__(self, grounds: Grounds, taken: Tape = frozenset()):
        super().__init__()
        self.grounds, self.choices = grounds, Choices(taken)
        self.messages, self.stations, self.gummeis, self.coverage = (
            grounds.messages,
            grounds.stations,
            grounds.stations.gummeis,
            grounds.coverage,
        )
        self.cells, self.derivations = grounds.cells, grounds.derivations
        self.book = ServiceBook(self.derivations, 10 * grounds.budget)
        self.judge = KeyJudge(self.book, self.cells, grounds.search, grounds.firsts, self.coverage)
        self.judge.reply, self.judge.gaps = grounds.reply, grounds.index.gaps.found
        self.by_frame: LinesInOrder | None = None  # the lines, once they are told
        self.legs = {}
        self.mmes = {}
        self.connections, self.order = {}, array("i")
        self.owners, self.handovers = Places(len(self.messages)), Places(len(self.messages))
        self.forgets = not grounds.links["GTPv2"]  # a context between cores names any connection, by its KASME
        self.restarts, self.ended = {}, {}
        self.steps = 0  # that the reading took: messages, and what was tried beside them
        self.seen = Account(())

    # -- reading

    def read(self, notes: list[Line]) -> None:
        """Reads all messages."""
        self.judge.lines.extend(notes)
        self.read_at(told(range(len(self.messages)), "judged", len(self.messages)))

    def read_at(self, places: Iterable[int], most: int | None = None) -> None:
        """Reads the messages at these places, until more lines differ than this."""
        differing, tried = 0, self.tried
        for place in places:
            message = self.messages[place]
            before, self.at, self.cells.now, self.owner = len(self.judge.lines), place, place, None
            self.one(message, place)
            self.left_over(message, before)
            if len(self.judge.lines) > before:
                differing += self.told_of(message, place, before)
            self.steps += 1
            if most is None:
                self.judge.lines.settle(self.grounds.first.get)
            if most is not None and differing > most:
                break
        self.steps += (self.tried - tried) // TRIES

    def told_of(self, message: Message, place: int, before: int) -> int:
        """Gives the lines of a message their place, and weighs them; how many differ."""
        self.weigh(place, before)
        lines = self.judge.lines.since(before)
        for line in lines:
            line.place = place if line.frame == message.frame else self.grounds.first.get(line.frame)
        if self.owner is not None and any(line.verdict == RIGHT for line in lines):
            self.owner.proved = place
        return sum(line.verdict == DIFFERS for line in lines)

    @property
    def tried(self) -> int:
        """The keys and MACs that searches made so far."""
        return self.book.tried + self.grounds.search.tried

    def other(self, places: set[int], taken: Tape, most: int) -> Trace:
        """The messages at these places read with other choices, until more lines differ than this."""
        other = Trace(self.grounds, taken)
        other.read_at(sorted(places), most)
        return other

    def goes_on_from(self, other: Trace, places: set[int]) -> None:
        """What another reading found of these messages takes the place of what this one found."""
        gone = {number for place, number in self.owners.items() if place in places}
        self.judge.lines.put(
            [
                *(line for line in self.lines if line.place not in places),
                *(line for line in other.lines if line.place in places),
            ]
        )
        self.order = array("i", [*(one for one in self.order if one not in gone), *other.order])
        self.connections = {
            **{number: one for number, one in self.connections.items() if number not in gone},
            **other.connections,
        }
        self.owners.takes(other.owners, places)
        self.handovers.takes(other.handovers, places)

    def tell(self, head: list[str]) -> None:
        """Makes the list of what was seen."""
        self.by_frame, by_place = self.judge.lines.sort(self.grounds.first.get)
        names, head = self.stations.cores | self.cells.addresses, [*self.coverage.head(), *head]
        self.seen = account(
            self.messages, by_place, self.membership, names, FROM_STATION, head, self.derivations, self.uses
        )

    @property
    def lines(self) -> list[Line]:
        """The lines so far, in the end in the order of the frames."""
        return list(self.judge.lines) if self.by_frame is None else list(self.by_frame)

    def count(self, verdict: Verdict) -> int:
        """How many lines have a verdict."""
        return self.judge.lines.count(verdict)

    def membership(self) -> Membership:
        """The numbers of the connection and the handover of each message."""
        numbers = {number: place for place, number in enumerate(self.order)}
        attempts: dict[int, int] = {}
        handovers = {place: attempts.setdefault(number, len(attempts)) for place, number in self.handovers.items()}
        tmsis = {place: one.tmsi for place, one in enumerate(self.told_connections()) if one.tmsi is not None}
        return Membership({place: numbers[number] for place, number in self.owners.items()}, handovers, tmsis)

    def told_connections(self) -> Iterator[ToldConnection]:
        """What the report tells of each connection, in their order."""
        ended = self.grounds.ended.all()
        return (ended[one] if one in ended else told_of(self.connections[one]) for one in self.order)

    def uses(self) -> Iterator[Use]:
        """The keys that stations had in use."""
        for number, connection in enumerate(self.told_connections(), 1):
            eea, eia = connection.algorithms or (None, None)
            for frame, station, key in connection.keys:
                yield Use(number, shown(frame), shown(station), shown(self.derivations.shown(key)), key.value, eea, eia)

    def weigh(self, place: int, before: int) -> None:
        """Decides of the lines of a message whether what no history gives is blamed: the only place that does, for
        keys, commands and agreement. Where not all was kept, a history that was not tried may give it."""
        cut = self.owner.cut if self.owner is not None else ()
        for line in self.judge.lines.since(before):
            if cut and line.verdict == DIFFERS and line.what in JUDGED:
                withdrawn(line, cut)

    def one(self, message: Message, place: int) -> None:
        if message.link == "S1":
            self.s1(message, place)
        elif message.link == "X2":
            self.x2ap(message)
        elif message.mm is not None:
            self.mm_context(message)
        elif message.link == ALONE:
            self.nas_alone(message, place)
        elif message.link == UNREADABLE:
            self.judge.lines.append(
                unknown_line(message.frame, "message", "of this frame", Cause.UNREADABLE.because(said=message.name))
            )
        elif message.link == CUT:
            self.judge.lines.append(
                unknown_line(message.frame, "capture", "behind this frame", Cause.UNREADABLE.because(said=message.name))
            )
        elif message.command is not None:
            self.rrc(message, message.command)

    def nas_alone(self, message: Message, place: int) -> None:
        """A NAS message that came without S1: all are of one phone."""
        connection = next(iter(self.connections.values()), None) or self.new("the core", None)
        self.belongs(connection)
        self.nas(connection, message, place)

    def left_over(self, message: Message, before: int) -> None:
        """Lines for keys that no rule here judges."""
        for name, _ in message.secrets:
            self.judge.lines.append(
                unknown_line(message.frame, title(message), name, Cause.SECONDARY_STATION.because())
            )
        if (
            message.link in ("S1", "X2")
            and (message.key or message.nh)
            and not any(line.what in KEYS for line in self.judge.lines.since(before))
        ):
            self.judge.lines.append(unknown_line(message.frame, title(message), "key", Cause.NO_RULE.because()))

    def later(self, message: Message, place: int) -> Iterator[tuple[int, bytes] | bytes]:
        """What comes after a message in the same connection at the same station: NAS messages and KeNBs."""
        following = self.grounds.index.next
        after = following[place] if message.link == "S1" else 0
        while after:
            one, after = self.messages[after], following[after]
            if one.name == "InitialUEMessage":
                return
            if one.key is not None:
                yield one.key
            for pdu in one.nas:
                yield (UP if one.name in FROM_PHONE else DOWN), pdu

    # -- S1

    def s1(self, message: Message, place: int) -> None:
        end = station_end(message)
        core = message.target if end == message.source else message.source
        station = self.stations.at(place, message)
        if message.name in RESTARTS:
            self.restarts[end] = place
        if message.name == "Reset":
            return self.reset(end, core)
        if message.name == "HandoverRequest":
            return self.handover_request(message, core, end)
        leg, at_core = (end, message.enb_id), (core, message.mme_id)
        connection = self.connection(message, station, leg, at_core)
        if connection is None:
            return
        self.belongs(connection)
        connection.last = place
        self.binds(connection, leg, at_core)
        if message.name in SERVED and not self.is_late(connection, message, station):
            self.arrived(connection, station, message.frame)
        if message.name == "UplinkNASTransport" and station == connection.station:
            connection.told_eci = message.eci
        handler = HANDLERS.get(message.name)
        if handler is not None:
            handler(self, connection, message, station, at_core)
        self.nas(connection, message, place)

    def nas(self, connection: Connection, message: Message, place: int) -> None:
        direction = UP if message.name in FROM_PHONE else DOWN
        connection.side.away |= bool(connection.away)
        connection.side.hidden = self.judge.licensed(connection)
        for pdu in message.nas:
            seen = self.book.judge(connection.side, direction, pdu, lambda: self.later(message, place))
            if seen is not None:
                if seen.verdict == RIGHT and seen.kasme is not None:  # the context in use is certain again
                    connection.side.away = bool(connection.away)
                self.judge.lines.append(self.nas_line(message, seen))
                if seen.warning:
                    self.judge.lines.append(note_line(message.frame, seen.warning))

    def nas_line(self, message: Message, seen: NasSeen) -> Line:
        subject = (
            f"NAS {'up' if seen.direction == UP else 'down'}"
            + (f" COUNT {seen.count}" if seen.count is not None else "")
            + f" header {seen.header}"
        )
        kasme = "" if seen.kasme is None else self.derivations.name(seen.kasme)
        behind = " ".join(
            filter(None, [seen.name, f"of {kasme}" if kasme and len(self.derivations.kasmes) > 1 else ""])
        )
        context = self.book.contexts.get(seen.kasme) if seen.kasme is not None else None
        part = NasPart(
            seen.direction == UP,
            seen.header,
            seen.name,
            *((context.ksi, context.eea, context.eia) if context else (None, None, None)),
            -1 if seen.kasme is None else seen.kasme,
        )
        return Line(
            message.frame,
            "NAS",
            "MAC",
            seen.verdict,
            of_mac(seen),
            tuple(seen.faults),
            seen.note,
            subject=subject,
            behind=behind,
            found=seen.mac,
            wanted=seen.wanted,
            hex=seen.mac,
            wanted_hex=seen.wanted,
            kasme=kasme,
            count=seen.count,
            plain=seen.plain,
            nas=part,
        )


def of_mac(seen: NasSeen) -> Why:
    """What is said of the MAC of a NAS message."""
    if seen.header == PLAIN:
        return (Cause.NAS_NOT_JUDGED if seen.verdict == UNKNOWN else Cause.NAS_DIFFERS).because()
    if seen.verdict == UNKNOWN:
        return Cause.MAC_NOT_JUDGED.because()
    if seen.verdict == DIFFERS and seen.count is None:
        return Cause.NAS_DIFFERS.because()
    if seen.verdict == DIFFERS and seen.wanted and seen.wanted != seen.mac:
        return Cause.MAC_WRONG.because(found=seen.mac, wanted=seen.wanted)
    if seen.count is None:
        return Cause.MAC_NOT_JUDGED.because()
    return (Cause.MAC_AND_TEXT_RIGHT if seen.text_right else Cause.MAC_RIGHT).because()


HANDLERS: dict[str, Handler] = {
    "InitialContextSetupRequest": Trace.context_setup,
    "InitialContextSetupResponse": Trace.set_up,
    "InitialContextSetupFailure": Trace.setup_failed,
    "UEContextModificationRequest": Trace.context_changed,
    "UEContextModificationResponse": Trace.change_done,
    "UEContextModificationFailure": Trace.change_failed,
    "UEContextReleaseCommand": Trace.releasing,
    "UEContextReleaseComplete": Trace.released,
    "HandoverRequired": Trace.handover_required,
    "HandoverRequestAcknowledge": Trace.handover_answered,
    "HandoverCommand": Trace.handover_command,
    "HandoverNotify": Trace.handover_notify,
    "HandoverFailure": Trace.handover_failure,
    "HandoverCancel": Trace.handover_cancelled,
    "HandoverCancelAcknowledge": Trace.refused,
    "HandoverPreparationFailure": Trace.refused,
    "PathSwitchRequestFailure": Trace.refused,
    "PathSwitchRequest": Trace.path_switch,
    "PathSwitchRequestAcknowledge": Trace.switched,
    "UEContextSuspendRequest": Trace.suspend,
    "UEContextSuspendResponse": Trace.given,
    "UEContextResumeRequest": Trace.resume,
    "UEContextResumeResponse": Trace.resumed,
}
