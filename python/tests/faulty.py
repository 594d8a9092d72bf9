"""Worlds with one fault each that a product may have, in NAS and in KeNB: what is planted is told, by name."""
from __future__ import annotations

import hmac
from collections.abc import Callable

from lte_sec.captures.decoding import Message

from .simulated import CALLS, Phone, World, cell_of
from .situations import ENB1, ENB2, attached

Made = Callable[[], World]
TEXT = bytes.fromhex("07610102")
LONG = TEXT + bytes(12)  # long enough that no wrong keystream gives it by chance


def keys(kasme: bytes, eea: int = 2) -> tuple[bytes, bytes]:
    return CALLS.algorithm_key(kasme, 1, eea), CALLS.algorithm_key(kasme, 2, 2)


def sealed(phone: Phone, direction: int, text: bytes, header: int = 2, kasme: bytes | None = None) -> bytes:
    """A message at the next COUNT whose text is as it is given, with the right MAC."""
    count = phone.down if direction else phone.up
    phone.down, phone.up = phone.down + direction, phone.up + 1 - direction
    body = bytes([count & 255]) + text
    return bytes([header << 4 | 7]) + CALLS.eia2(keys(kasme or phone.kasme)[1][16:], count, 0, direction, body) + body


def down(world: World, phone: Phone, text: bytes, header: int = 2) -> Message:
    return world.down(phone, "DownlinkNASTransport", nas=[sealed(phone, 1, text, header)])


def up(world: World, phone: Phone, text: bytes, header: int = 2, kasme: bytes | None = None) -> Message:
    return world.up(phone, "UplinkNASTransport", mme_id=phone.mme_id, nas=[sealed(phone, 0, text, header, kasme)])


def text_by(cipher: Callable[[Phone], bytes]) -> Made:
    """A message down whose text is made otherwise than it must be."""

    def made() -> World:
        world, phone = attached()
        for _ in range(20):
            world.nas_down(phone)
        world.fault(down(world, phone, cipher(phone)))
        world.nas_down(phone)
        world.nas_up(phone)
        return world

    return made


def eea2(
    phone: Phone, count: int | None = None, bearer: int = 0, direction: int = 1, key: bytes | None = None
) -> bytes:
    return CALLS.eea2(key or keys(phone.kasme)[0][16:], phone.down if count is None else count, bearer, direction, LONG)


def header_1_up() -> World:
    world, phone = attached()
    world.nas_up(phone)
    world.fault(up(world, phone, bytes.fromhex("0756080910"), 1))
    world.nas_up(phone)
    return world


def tracking_ciphered() -> World:
    world, phone = attached()
    world.release(phone)
    phone.eci, phone.enb_id, phone.mme_id = ENB2, world.fresh(), world.fresh()
    text = bytes([7, 0x48, phone.ksi << 4]) + bytes.fromhex("0bf600f110800101") + phone.tmsi.to_bytes(4, "big")
    sent = world.up(
        phone,
        "InitialUEMessage",
        nas=[sealed(phone, 0, CALLS.eea2(keys(phone.kasme)[0][16:], phone.up, 0, 0, text))],
        tmsi=phone.tmsi,
    )
    world.fault(sent)
    world.nas_down(phone, bytes.fromhex("07490049") + bytes(4))
    return world


def mac_without_overflow(eea: int) -> Made:
    """A message up at COUNT 258, ciphered at that, whose MAC is that of COUNT 2."""

    def made() -> World:
        world, phone = attached(eea=eea)
        while phone.up < 258:
            world.nas_up(phone)
        text = CALLS.eea2(keys(phone.kasme)[0][16:], 258, 0, 0, LONG) if eea else LONG
        mac = CALLS.eia2(keys(phone.kasme)[1][16:], 2, 0, 0, b"\2" + text)
        phone.up += 1
        world.fault(world.up(phone, "UplinkNASTransport", mme_id=phone.mme_id, nas=[b"\x27" + mac + b"\2" + text]))
        world.nas_up(phone)
        return world

    return made


def tracked(mac_count: int, key_count: int) -> Made:
    """A phone comes with a Tracking Area Update Request at COUNT 258 and wants a context; its MAC and KeNB are of these
    COUNTs."""

    def made() -> World:
        world, phone = attached()
        while phone.up < 258:
            world.nas_up(phone)
        world.release(phone)
        phone.eci, phone.enb_id, phone.mme_id = ENB2, world.fresh(), world.fresh()
        text = bytes([7, 0x48, phone.ksi << 4 | 8]) + bytes.fromhex("0bf600f110800101") + phone.tmsi.to_bytes(4, "big")
        mac = CALLS.eia2(keys(phone.kasme)[1][16:], mac_count, 0, 0, b"\2" + text)
        sent = world.up(phone, "InitialUEMessage", nas=[b"\x17" + mac + b"\2" + text], tmsi=phone.tmsi)
        if mac_count != 258:
            world.fault(sent)
        phone.trigger, phone.up = 258, 259
        world.setup(phone, CALLS.kenb(phone.kasme, key_count))
        world.x2(phone, ENB1)
        return world

    return made


def replayed(where: str) -> Made:
    """Octets that come again: the newest at once, or late ones."""

    def made() -> World:
        world, phone = attached()
        first = world.nas_up(phone)
        if where != "at once":
            for _ in range(20 if where == "late" else 1):
                world.nas_up(phone)
        if where == "in another connection":
            world.again(phone, ENB2)
        again = world.up(phone, "UplinkNASTransport", mme_id=phone.mme_id, nas=list(first.nas))
        if where != "at once":
            world.fault(again)
        world.nas_up(phone)
        return world

    return made


def service_at(count: int, key_count: int) -> Made:
    """A Service Request at a COUNT, and KeNB of another."""

    def made() -> World:
        world, phone = attached()
        while phone.up < count:
            world.nas_up(phone)
        world.release(phone)
        world.service(phone, ENB2, CALLS.kenb(phone.kasme, key_count))
        return world

    return made


def short_mac_at(count: int, key: bool = True) -> Made:
    """A Service Request at COUNT 42 whose short MAC is that of another COUNT; KeNB is right, or the core refuses the
    request."""

    def made() -> World:
        world, phone = attached()
        while phone.up < 42:
            world.nas_up(phone)
        world.release(phone)
        world.service(phone, ENB2)
        place = max(place for place, one in enumerate(world.messages) if one.name == "InitialUEMessage")
        asked = world.messages[place]
        head = asked.nas[0][:2]
        asked.nas = [head + CALLS.eia2(keys(phone.kasme)[1][16:], count, 0, 0, head)[2:4]]
        if count != 42:
            world.fault(asked)
        if not key:
            del world.messages[place + 1 :]
            world.down(phone, "DownlinkNASTransport", nas=[b"\x07\x4e\x09"])
        return world

    return made


def begins_there(world: Made) -> Made:
    """The same in a trace that begins with its last connection, of a phone that came from a station without
    messages."""

    def made() -> World:
        found = world()
        begin = next(
            place for place, one in reversed(list(enumerate(found.messages))) if one.name == "InitialUEMessage"
        )
        del found.messages[:begin]
        return found

    return made


def accepted_again(later: int) -> Made:
    """The octets of a Service Request come again, and the core sends its KeNB again, which was in use."""

    def made() -> World:
        world, phone = attached()
        world.release(phone)
        setup = world.service(phone, ENB2)
        asked = next(one for one in reversed(world.messages) if one.name == "InitialUEMessage")
        for _ in range(later):
            world.again(phone, ENB2)
        world.release(phone)
        phone.enb_id, phone.mme_id = world.fresh(), world.fresh()
        world.up(phone, "InitialUEMessage", nas=list(asked.nas), tmsi=phone.tmsi)
        world.fault(world.down(phone, "InitialContextSetupRequest", key=setup.key))
        return world

    return made


def setup_again(same: bool) -> Made:
    """A setup fails, and a second one follows in the same connection."""

    def made() -> World:
        world, phone = attached()
        world.release(phone)
        setup = world.service(phone, ENB2)
        del world.messages[-1]
        world.up(phone, "InitialContextSetupFailure", mme_id=phone.mme_id, eci=None)
        again = world.down(
            phone, "InitialContextSetupRequest", key=setup.key if same else CALLS.kenb(phone.kasme, phone.trigger + 1)
        )
        if not same:
            world.fault(again)
            world.apart.append(again.frame)
        world.up(phone, "InitialContextSetupResponse", mme_id=phone.mme_id, eci=None)
        return world

    return made


def mac_by(make: Callable[[bytes, int, bytes], bytes]) -> Made:
    """A message up whose MAC is made otherwise, from KNASint (32 octets), COUNT and the message from its sequence
    number on."""

    def made() -> World:
        world, phone = attached()
        count = phone.up
        pdu = sealed(phone, 0, CALLS.eea2(keys(phone.kasme)[0][16:], count, 0, 0, LONG))
        world.fault(
            world.up(
                phone,
                "UplinkNASTransport",
                mme_id=phone.mme_id,
                nas=[pdu[:1] + make(keys(phone.kasme)[1], count, pdu[5:]) + pdu[5:]],
            )
        )
        world.nas_up(phone)
        world.nas_down(phone)
        return world

    return made


def key_by(make: Callable[[bytes, int, int], bytes]) -> Made:
    """KeNB* for the second handover, from NH, PCI and EARFCN, as no station may make it."""

    def made() -> World:
        world, phone = attached()
        world.x2(phone, ENB2)
        pair = phone.stations["enb2"].pair
        assert pair is not None
        site = cell_of(ENB1)
        world.x2(phone, ENB1, key=make(pair[0], site.pci, site.earfcn))
        world.x2(phone, ENB2)
        return world

    return made


def kdf(key: bytes, text: bytes) -> bytes:
    return hmac.digest(key, text, "sha256")
