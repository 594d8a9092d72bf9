"""Phones, stations and a core that keep TS 33.401, or break it where they are told to, and the messages that a trace of
them has.

This is a second reading of the standard: it shares no line with the package but the form of a message.
"""
from __future__ import annotations

from collections.abc import Callable
from dataclasses import dataclass, field

from lte_sec.captures.decoding import Command, Message
from lte_sec.captures.cells import Site

from .standin import StandIn

CALLS = StandIn()
CELLS = [
    Site(0x0010101, 10, 100, 18100, "enb1"),
    Site(0x0010201, 301, 6300, 24300, "enb2"),
    Site(0x0010202, 302, 1575, 19575, "enb2"),
    Site(0x0010301, 77, 66436, 131972, "enb3"),
    Site(0x0010302, 78, 100, 18100, "enb3"),
]
ENDS = {"enb1": "10.0.0.11:36412", "enb2": "10.0.0.12:36412", "enb3": "10.0.0.13:36412"}


Algorithm = Callable[[bytes, int, int, int, bytes], bytes]
CIPHERS: dict[int, Algorithm] = {1: CALLS.eea1, 2: CALLS.eea2, 3: CALLS.eea3}
MACS: dict[int, Algorithm] = {1: CALLS.eia1, 2: CALLS.eia2, 3: CALLS.eia3}


def nas_mac(kasme: bytes, eia: int, count: int, direction: int, body: bytes) -> bytes:
    """The MAC of a NAS message, over its octets from the sequence number on."""
    return MACS[eia](CALLS.algorithm_key(kasme, 2, eia)[16:], count, 0, direction, body)


def cell_of(eci: int) -> Site:
    return next(site for site in CELLS if site.eci == eci)


@dataclass
class Side:
    """What one end of an access stratum has: key, NCC, and a stored pair (stations) or a chain (phone)."""

    key: bytes = b""
    ncc: int = 0
    pair: tuple[bytes, int] | None = None
    sync: bytes = b""
    number: int = 0


@dataclass
class Phone:
    name: str
    kasme: bytes
    ksi: int = 0
    up: int = 0
    down: int = 0
    eea: int = 2
    eia: int = 2
    tmsi: int = 0
    as_kasme: bytes = b""
    mme_id: int = 0
    enb_id: int = 0
    eci: int = 0
    own: Side = field(default_factory=Side)
    stations: dict[str, Side] = field(default_factory=dict)
    core_sync: bytes = b""
    core_number: int = 0
    trigger: int = 0


class World:
    """Makes messages. `faults` are the frames in which something was planted; `apart` those of handovers whose keys
    differ."""

    def __init__(self, first: int = 2, core: str = "10.0.0.1:36412"):
        self.first, self.core = first, core
        self.messages: list[Message] = []
        self.faults: list[str] = []
        self.apart: list[str] = []
        self.ids = 100
        self.x2_ids = 0

    # -- messages

    def add(self, link: str, name: str, source: str, target: str, **fields: object) -> Message:
        number = len(self.messages) + 1
        message = Message(str(number), float(number), link, name, source, target, **fields)  # type: ignore[arg-type]
        self.messages.append(message)
        return message

    def up(self, phone: Phone, name: str, **fields: object) -> Message:
        fields.setdefault("eci", phone.eci)
        return self.add("S1", name, ENDS[cell_of(phone.eci).station], self.core, enb_id=phone.enb_id, **fields)

    def down(self, phone: Phone, name: str, **fields: object) -> Message:
        return self.add(
            "S1", name, self.core, ENDS[cell_of(phone.eci).station], enb_id=phone.enb_id, mme_id=phone.mme_id, **fields
        )

    def fault(self, message: Message) -> Message:
        self.faults.append(message.frame)
        return message

    def fresh(self) -> int:
        self.ids += 1
        return self.ids

    # -- NAS

    def seal(
        self,
        phone: Phone,
        direction: int,
        header: int,
        text: bytes,
        kasme: bytes | None = None,
        count: int | None = None,
    ) -> bytes:
        kasme = kasme or phone.kasme
        if count is None:
            count = phone.down if direction else phone.up
            if direction:
                phone.down += 1
            else:
                phone.up += 1
        if header in (2, 4) and phone.eea:
            text = CIPHERS[phone.eea](CALLS.algorithm_key(kasme, 1, phone.eea)[16:], count, 0, direction, text)
        body = bytes([count & 255]) + text
        return bytes([header << 4 | 7]) + nas_mac(kasme, phone.eia, count, direction, body) + body

    def nas_down(
        self, phone: Phone, text: bytes = bytes.fromhex("07610102"), header: int = 2, **how: object
    ) -> Message:
        return self.down(phone, "DownlinkNASTransport", nas=[self.seal(phone, 1, header, text, **how)])  # type: ignore[arg-type]

    def nas_up(self, phone: Phone, text: bytes = bytes.fromhex("0755aabb"), header: int = 2, **how: object) -> Message:
        return self.up(phone, "UplinkNASTransport", mme_id=phone.mme_id, nas=[self.seal(phone, 0, header, text, **how)])  # type: ignore[arg-type]

    def security_mode(self, phone: Phone, kasme: bytes, ksi: int) -> None:
        phone.kasme, phone.ksi, phone.up, phone.down = kasme, ksi, 0, 0
        self.nas_down(phone, bytes([7, 0x5D, phone.eea << 4 | phone.eia, ksi, 2, 0xF0, 0x70]), 3)
        phone.trigger = phone.up
        self.nas_up(phone, b"\x07\x5e", 4)

    def attach(self, phone: Phone, eci: int, key: bytes | None = None) -> Message:
        """Attach with a fresh KASME, to the end of the initial context."""
        phone.eci, phone.enb_id, phone.mme_id = eci, self.fresh(), self.fresh()
        phone.tmsi = phone.tmsi or 0xC0000000 + self.fresh()
        self.up(phone, "InitialUEMessage", nas=[bytes.fromhex("07417108091010000000001002f0700004")])
        self.security_mode(phone, phone.kasme, phone.ksi)
        accept = bytes.fromhex("0742014900500bf600f110800101") + phone.tmsi.to_bytes(4, "big")
        sealed = self.seal(phone, 1, 2, accept)
        message = self.setup(phone, key, [sealed])
        self.nas_up(phone, bytes.fromhex("074300035200c2"))
        return message

    def service(self, phone: Phone, eci: int, key: bytes | None = None) -> Message:
        phone.eci, phone.enb_id, phone.mme_id = eci, self.fresh(), self.fresh()
        head = bytes([0xC7, phone.ksi << 5 | phone.up & 31])
        short = nas_mac(phone.kasme, phone.eia, phone.up, 0, head)[2:4]
        phone.trigger = phone.up
        phone.up += 1
        self.up(phone, "InitialUEMessage", nas=[head + short], tmsi=phone.tmsi)
        return self.setup(phone, key)

    def setup(self, phone: Phone, key: bytes | None, nas: list[bytes] | None = None) -> Message:
        right = CALLS.kenb(phone.kasme, phone.trigger)
        sent = key or right
        phone.as_kasme = phone.kasme
        phone.own = Side(right, 0, None, right)
        phone.stations = {cell_of(phone.eci).station: Side(sent)}
        phone.core_sync, phone.core_number = sent, 0
        message = self.down(phone, "InitialContextSetupRequest", key=sent, nas=nas or [])
        self.up(phone, "InitialContextSetupResponse", mme_id=phone.mme_id, eci=None)
        if sent != right:
            self.fault(message)
            self.apart.append(message.frame)
        return message

    def release(self, phone: Phone) -> None:
        self.down(phone, "UEContextReleaseCommand")
        self.up(phone, "UEContextReleaseComplete", mme_id=phone.mme_id, eci=None)

    def again(self, phone: Phone, eci: int) -> None:
        """A connection is released, and the phone comes back."""
        self.release(phone)
        self.service(phone, eci)

    def reauthenticate(self, phone: Phone, kasme: bytes) -> None:
        self.security_mode(phone, kasme, (phone.ksi + 1) % 7)

    def change_key(self, phone: Phone, key: bytes | None = None) -> Message:
        right = CALLS.kenb(phone.kasme, phone.trigger)
        sent, site = key or right, cell_of(phone.eci)
        phone.as_kasme = phone.kasme
        phone.stations[site.station] = Side(CALLS.kenb_star(sent, site.pci, site.earfcn))
        phone.core_sync, phone.core_number = sent, 0
        phone.own = Side(CALLS.kenb_star(right, site.pci, site.earfcn), 0, None, right)
        message = self.down(phone, "UEContextModificationRequest", key=sent)
        self.up(phone, "UEContextModificationResponse", mme_id=phone.mme_id, eci=None)
        if sent != right:
            self.fault(message)
            self.apart.append(message.frame)
        return message

    # -- the chain

    def step(self, phone: Phone, steps: int = 0) -> tuple[bytes, int]:
        for _ in range(steps or (self.first if phone.core_number == 0 else 1)):
            phone.core_sync = CALLS.nh(phone.as_kasme, phone.core_sync)
            phone.core_number += 1
        return phone.core_sync, phone.core_number % 8

    def command(self, phone: Phone, ncc: int, pci: int, earfcn: int) -> Side:
        """What the phone makes of a command."""
        own = phone.own
        if ncc == own.ncc:
            return Side(CALLS.kenb_star(own.key, pci, earfcn), ncc, None, own.sync, own.number)
        sync, number = own.sync, own.number
        while True:
            sync, number = CALLS.nh(phone.as_kasme, sync), number + 1
            if number % 8 == ncc:
                return Side(CALLS.kenb_star(sync, pci, earfcn), ncc, None, sync, number)

    def x2(
        self,
        phone: Phone,
        eci: int,
        key: bytes | None = None,
        ncc: int | None = None,
        told: Command | None = None,
        ack: bool = True,
        switch: bool = True,
        **answer: object,
    ) -> Message:
        """A handover over X2. `key`, `ncc` and `told` are planted; `ack` and `switch` say how far it gets."""
        source, target = cell_of(phone.eci), cell_of(eci)
        side = phone.stations[source.station]
        base, number = side.pair or (side.key, side.ncc)
        right = CALLS.kenb_star(base, target.pci, target.earfcn)
        sent, sent_ncc = key or right, number if ncc is None else ncc
        self.x2_ids += 1
        old = self.x2_ids
        ends = ENDS[source.station], ENDS[target.station]
        request = self.add(
            "X2",
            "HandoverRequest",
            *ends,
            old_x2=old,
            mme_id=phone.mme_id,
            key=sent,
            ncc=sent_ncc,
            eci=eci,
            source_eci=phone.eci,
            algorithms=(2, 2),
        )
        if sent != right or sent_ncc != number:
            self.fault(request)
        if not ack:
            self.add("X2", "HandoverPreparationFailure", ends[1], ends[0], old_x2=old)
            return request
        command = told or Command(sent_ncc, target.pci, target.earfcn, False, bytes([old & 255, 7]))
        answered = self.add(
            "X2", "HandoverRequestAcknowledge", ends[1], ends[0], old_x2=old, new_x2=old, command=command
        )
        if told is not None:
            self.fault(answered)
        own = self.command(phone, command.ncc or 0, command.pci or 0, command.earfcn or 0)
        if own.key != sent:
            self.apart.append(request.frame)
        if not switch:
            self.add("X2", "HandoverCancel", *ends, old_x2=old, new_x2=old)
            return request
        phone.own, phone.eci, phone.enb_id = own, eci, self.fresh()
        phone.stations[target.station] = Side(sent, sent_ncc)
        self.switch(phone, **answer)  # type: ignore[arg-type]
        self.add("X2", "UEContextRelease", ends[1], ends[0], old_x2=old, new_x2=old)
        return request

    def switch(
        self, phone: Phone, answered: bool = True, nh: bytes | None = None, nh_ncc: int | None = None, steps: int = 0
    ) -> Message | None:
        """Path switch: the core steps the chain and answers, unless the answer is lost or comes later."""
        self.up(phone, "PathSwitchRequest", mme_id=phone.mme_id)
        before = phone.core_sync, phone.core_number
        sent, number = self.step(phone, steps)
        if not answered:
            return None
        message = self.down(
            phone, "PathSwitchRequestAcknowledge", nh=nh or sent, ncc=number if nh_ncc is None else nh_ncc
        )
        phone.stations[cell_of(phone.eci).station].pair = (nh or sent, number if nh_ncc is None else nh_ncc)
        if nh is not None:
            phone.core_sync = nh
        if nh is not None or nh_ncc is not None or steps and steps != (self.first if before[1] == 0 else 1):
            self.fault(message)
        return message

    def s1(
        self,
        phone: Phone,
        eci: int,
        nh: bytes | None = None,
        ncc: int | None = None,
        cancel: str = "",
        told: Command | None = None,
        container: bool = True,
    ) -> Message:
        """A handover over S1; `cancel` is empty, `early` (before the command) or `late`."""
        target = cell_of(eci)
        box = f"box {len(self.messages)}".encode() if container else None
        self.up(phone, "HandoverRequired", mme_id=phone.mme_id, container=box, eci=eci, source_eci=phone.eci)
        right, number = self.step(phone)
        sent, sent_ncc = nh or right, number if ncc is None else ncc
        if nh is not None:
            phone.core_sync = nh
        new_mme, new_enb = self.fresh(), self.fresh()
        request = self.add(
            "S1",
            "HandoverRequest",
            self.core,
            ENDS[target.station],
            mme_id=new_mme,
            container=box,
            nh=sent,
            ncc=sent_ncc,
            eci=eci,
            source_eci=phone.eci,
        )
        if nh is not None or ncc is not None:
            self.fault(request)
        if cancel == "early":
            self.up(phone, "HandoverCancel", mme_id=phone.mme_id, eci=None)
            return request
        back = f"back {len(self.messages)}".encode()
        self.add(
            "S1",
            "HandoverRequestAcknowledge",
            ENDS[target.station],
            self.core,
            mme_id=new_mme,
            enb_id=new_enb,
            container=back,
        )
        command = told or Command(sent_ncc, target.pci, target.earfcn, False, back)
        answered = self.down(phone, "HandoverCommand", container=back, command=command)
        if told is not None:
            self.fault(answered)
        own = self.command(phone, command.ncc or 0, command.pci or 0, command.earfcn or 0)
        key = CALLS.kenb_star(sent, target.pci, target.earfcn)
        if own.key != key:
            self.apart.append(request.frame)
        if cancel:
            self.up(phone, "HandoverCancel", mme_id=phone.mme_id, eci=None)
            return request
        old = Phone("", b"", eci=phone.eci, enb_id=phone.enb_id, mme_id=phone.mme_id)
        phone.own, phone.eci, phone.enb_id, phone.mme_id = own, eci, new_enb, new_mme
        phone.stations[target.station] = Side(key, sent_ncc)
        self.up(phone, "HandoverNotify", mme_id=new_mme)
        self.release(old)
        return request

    def within(self, phone: Phone, eci: int, ncc: int | None = None) -> Message:
        """A handover within a station, which only RRC shows."""
        site = cell_of(eci)
        side = phone.stations[site.station]
        base, number = side.pair or (side.key, side.ncc)
        told = Command(number if ncc is None else ncc, site.pci, site.earfcn, False, b"within")
        message = self.add("RRC", "RrcConnectionReconfiguration", "", "", command=told)
        if ncc is not None:
            self.fault(message)
        key = CALLS.kenb_star(base, site.pci, site.earfcn)
        phone.own, phone.eci = self.command(phone, told.ncc or 0, site.pci, site.earfcn), eci
        phone.stations[site.station] = Side(key, number)
        if phone.own.key != key:
            self.apart.append(message.frame)
        return message
