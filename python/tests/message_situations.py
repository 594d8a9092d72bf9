"""Situations of messages of NAS, S1 and X2, for `test_situations`: worlds as the standard has them, and broken at one
place."""
from __future__ import annotations

from collections.abc import Callable

from lte_sec.captures.decoding import Command, Message

from .rarer import ATTACH_REQUEST, RarerWorld
from .simulated import ENDS, Phone, World
from .situations import ENB1, ENB2, ENB3, ENB3_SECOND, KASMES, Made, attached


# -- nothing passed in silence: NAS


def with_message(add: Callable[[RarerWorld, Phone], Message | None], broken: bool = True, first: bool = False) -> Made:
    """A phone that is attached, or that begins, and one message more."""

    def made() -> World:
        world, phone = (RarerWorld(), Phone("phone", KASMES[0])) if first else attached()
        if first:
            phone.eci, phone.enb_id, phone.mme_id, phone.tmsi = ENB1, 901, 902, 0xC0000001
            world.up(phone, "InitialUEMessage", nas=[ATTACH_REQUEST])
        message = add(world, phone)
        if broken and message is not None:
            world.fault(message)
        if not first:
            world.nas_up(phone)
            world.nas_down(phone)
        return world

    return made


def sound() -> World:
    return with_message(lambda world, phone: world.nas_down(phone), False)()


def begun(text: str) -> Callable[[RarerWorld, Phone], Message | None]:
    return lambda world, phone: world.plain_down(phone, text)


def turned(message: Message, header: int) -> Message:
    message.nas = [bytes([header << 4 | 7]) + message.nas[0][1:]]
    return message


def replays(capabilities: str, broken: bool) -> Made:
    """A Security Mode Command that replays these capabilities."""

    def made() -> World:
        world, phone = RarerWorld(), Phone("phone", KASMES[0])
        phone.eci, phone.enb_id, phone.mme_id = ENB1, 901, 902
        world.up(phone, "InitialUEMessage", nas=[ATTACH_REQUEST])
        message = world.nas_down(phone, bytes([7, 0x5D, 0x22, 0, 2]) + bytes.fromhex(capabilities), 3)
        if broken:
            world.fault(message)
        phone.trigger = 0
        world.nas_up(phone, b"\x07\x5e", 4)
        world.setup(phone, None)
        return world

    return made


def null_integrity(emergency: bool, broken: bool) -> Made:
    """EIA0: MACs of zeros, for an emergency call."""

    def made() -> World:
        world, phone = RarerWorld(), Phone("phone", KASMES[4])
        phone.eci, phone.enb_id, phone.mme_id = ENB1, 901, 902
        attach = bytearray(ATTACH_REQUEST)
        attach[2] = 0x76 if emergency else 0x71
        world.up(phone, "InitialUEMessage", nas=[bytes(attach)], cause=0 if emergency else 3)
        world.down(phone, "DownlinkNASTransport", nas=[bytes.fromhex("37000000000007" + "5d000002f070")])
        world.up(phone, "UplinkNASTransport", mme_id=902, nas=[bytes.fromhex("470000000000075e")])
        message = world.down(
            phone,
            "DownlinkNASTransport",
            nas=[bytes.fromhex("270000000" + ("1" if broken else "0") + "01" + "07610102")],
        )
        if broken:
            world.fault(message)
        return world

    return made


# -- nothing passed in silence: S1 and X2


def able(change: str = "") -> Made:
    """Capabilities in S1 and X2; `change` is the message whose capabilities are fewer."""

    def made() -> World:
        world, phone = attached()
        world.x2(phone, ENB2)
        world.x2(phone, ENB1)
        world.s1(phone, ENB3)
        world.able()
        for message in [one for one in world.messages if f"{one.link} {one.name}" == change][:1]:
            message.capabilities = (7, 3)
            world.fault(message)
            later = [
                one
                for one in world.messages[world.messages.index(message) :]
                if one.capabilities and one.source != world.core
            ]
            if (
                change == "S1 InitialContextSetupRequest" or change == "X2 HandoverRequest"
            ):  # what a station was given it hands on
                for one in later[:1] if change == "X2 HandoverRequest" else later:
                    one.capabilities = (7, 3)
            if change == "X2 HandoverRequest":
                next(one for one in later if one.name == "PathSwitchRequest").capabilities = (7, 3)
        return world

    return made


def prepared(key: bytes | None = None, mac: bytes | None = None) -> Made:
    """Cells for re-establishment in a Handover Request."""

    def made() -> World:
        world, phone = attached()
        world.x2(phone, ENB2)
        side = phone.stations["enb2"]
        assert side.pair is not None
        has, base = side.key, side.pair[0]
        asked = world.x2(phone, ENB3)
        world.prepares(asked, has, base, [ENB3_SECOND, ENB3], key, mac)
        if key or mac:
            world.fault(asked)
        return world

    return made


def command_without_ncc(broken: bool) -> Made:
    def made() -> World:
        world, phone = attached()
        world.x2(phone, ENB2)
        world.x2(phone, ENB1)
        answer = [one for one in world.messages if one.name == "HandoverRequestAcknowledge"][0]
        if broken:
            assert answer.command is not None
            answer.command = Command(5, answer.command.pci, answer.command.earfcn, False, b"")
            world.fault(answer)
            world.apart.append(str(int(answer.frame) - 1))
        else:
            world.undecodable(answer)
        return world

    return made


def secondary_keys(broken: bool) -> Made:
    def made() -> World:
        world, phone = attached()
        world.add("X2", "SgNBAdditionRequest", ENDS["enb1"], ENDS["enb2"], secrets=[("S-KgNB", bytes(32))])
        world.add("X2", "SeNBAdditionRequest", ENDS["enb1"], ENDS["enb2"], secrets=[("S-KeNB", bytes(32))])
        world.x2(phone, ENB2, key=bytes(32) if broken else None)
        return world

    return made
