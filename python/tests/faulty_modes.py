"""Worlds with one fault each in an authentication or a Security Mode exchange, or with what follows one."""
from __future__ import annotations

from lte_sec.captures.decoding import Message

from .faulty import Made, down
from .rarer import RarerWorld
from .simulated import Phone, World, nas_mac
from .situations import ENB1, ENB2, KASMES, attached


def command(
    world: World, phone: Phone, eea: int = 2, eia: int = 2, ksi: int | None = None, caps: bytes = b"\xf0\x70"
) -> Message:
    """A Security Mode Command under the phone's KASME, whose COUNTs are as they are."""
    text = bytes([7, 0x5D, eea << 4 | eia, phone.ksi if ksi is None else ksi, 2]) + caps
    if eia == 0:
        return world.down(phone, "DownlinkNASTransport", nas=[b"\x37" + bytes(4) + b"\0" + text])
    return down(world, phone, text, 3)


def authenticated(world: World, phone: Phone, ksi: int) -> None:
    """An Authentication Request and its Response, before security or protected behind it."""
    phone_text = bytes.fromhex("0753080102030405060708")
    world.nas_down(phone, bytes([7, 0x52, ksi]) + bytes(16) + b"\x10" + bytes(16))
    world.nas_up(phone, phone_text)


def renewed(fault: str) -> Made:
    """An authentication in a secured connection; the Command or what follows has the fault."""

    def made() -> World:
        world, phone = attached()
        old = phone.kasme
        ksi = (phone.ksi + 1) % 7
        authenticated(world, phone, ksi)
        up_before, down_before = phone.up, phone.down
        phone.kasme, phone.ksi, phone.up, phone.down = KASMES[1], ksi, 0, 0
        if fault == "down not reset":
            phone.down = down_before + 5
        told = command(world, phone, ksi={"KSI 7": 7, "another KSI": (ksi + 2) % 7}.get(fault, ksi))
        if fault in ("KSI 7", "another KSI", "down not reset"):
            world.fault(told)
        phone.trigger = 0
        if fault == "Complete under the old KASME":
            phone.up, phone.kasme = up_before, old
            world.fault(world.nas_up(phone, b"\x07\x5e", 4))
            return world
        if fault == "up not reset":
            phone.up = up_before + 3
        complete = world.nas_up(phone, b"\x07\x5e", 4)
        if fault == "up not reset":
            world.fault(complete)
        world.nas_down(phone)
        world.nas_up(phone)
        return world

    return made


def resealed(message: Message, phone: Phone, direction: int, count: int, eia: int) -> Message:
    """The message with its MAC under another algorithm."""
    body = message.nas[0][5:]
    message.nas = [message.nas[0][:1] + nas_mac(phone.kasme, eia, count, direction, body) + body]
    return message


def other_algorithm(told: bool) -> Made:
    """A Command for the KASME in use brings EIA1; the Complete stands under it, or under EIA2 as before."""

    def made() -> World:
        world, phone = attached()
        resealed(command(world, phone, 2, 1), phone, 1, phone.down - 1, 1)
        complete = world.nas_up(phone, b"\x07\x5e", 4)
        if told:
            resealed(complete, phone, 0, phone.up - 1, 1)
        else:
            world.fault(complete)
        return world

    return made


def lacking(eea: int, eia: int) -> Made:
    """The phone has EEA0 to EEA2 and EIA1, EIA2 only; the Command takes others."""

    def made() -> World:
        world, phone = RarerWorld(), Phone("phone", KASMES[0], eea=eea)
        phone.eci, phone.enb_id, phone.mme_id, phone.tmsi = ENB1, 901, 902, 0xC0000001
        world.up(phone, "InitialUEMessage", nas=[bytes.fromhex("07417108091010000000001002e0600004")])
        told = command(world, phone, eea, eia, caps=b"\xe0\x60")
        if (eea, eia) != (2, 2):
            resealed(told, phone, 1, 0, eia)
            world.fault(told)
        return world

    return made


def null_integrity(emergency: bool) -> Made:
    def made() -> World:
        world, phone = attached()
        world.release(phone)
        world.service(phone, ENB2)
        if emergency:
            world.messages[-3].cause = 0
        world.nas_down(phone)
        told = command(world, phone, 0, 0)
        if not emergency:
            world.fault(told)
        return world

    return made


def behind_a_reject(goes_on: bool) -> Made:
    def made() -> World:
        world, phone = attached()
        authenticated(world, phone, 1)
        old = phone.kasme, phone.up, phone.down
        phone.kasme, phone.up, phone.down = KASMES[1], 0, 0
        command(world, phone, ksi=1)
        refused = phone.down
        phone.kasme, phone.up, phone.down = old
        world.nas_up(phone, bytes.fromhex("075f17"))
        if goes_on:
            phone.kasme, phone.down = KASMES[1], refused
            world.fault(world.nas_down(phone))
        else:
            world.nas_down(phone)
        return world

    return made


def commanded_again(used: bool) -> Made:
    """The phone refuses a Command for EEA1, and the core sends another for EEA2: at the next COUNT, or at the one that
    is used."""

    def made() -> World:
        world, phone = attached()
        authenticated(world, phone, 1)
        old = phone.kasme, phone.up, phone.down
        phone.kasme, phone.up, phone.down = KASMES[1], 0, 0
        command(world, phone, 1, ksi=1)
        phone.kasme, phone.up, phone.down = old
        world.nas_up(phone, bytes.fromhex("075f17"))
        phone.kasme, phone.up, phone.down, phone.ksi = KASMES[1], 0, 0 if used else 1, 1
        again = command(world, phone)
        if used:
            world.fault(again)
        phone.trigger, phone.down = phone.up, 2
        world.nas_up(phone, b"\x07\x5e", 4)
        world.change_key(phone)
        world.nas_down(phone)
        return world

    return made
