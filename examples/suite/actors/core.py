#!/usr/bin/env python3
"""A core that answers all inputs as the written machine does (docs/MACHINE.md), in plain Python.

    ./lte_sec drive --suite --core 'python3 examples/suite/actors/core.py'
"""
from __future__ import annotations

import dataclasses
from typing import Any

import texts
from texts import CALLS, NAS_LIMIT, Refused, Security, estimate, octets, place_of

import serving
from calls import DOWN, UP
from lte_sec.drive import records
from lte_sec.drive.frames import Input, Note, Reply, spelled_cell

INITIAL, CHAINED = 0, 5
NUMBERS = 1 << 32
TAKEN = (0x22, 0x24, 0x26, 0x28, 0x29)


@dataclasses.dataclass
class Partial:
    """What an authentication left: KSI, KASME, the phone's capabilities, and the next downlink COUNT."""

    ksi: int
    root: bytes
    caps: bytes
    send: int = 0


@dataclasses.dataclass
class CoreLink:
    """A connection: its number, the chain of NH, and the station where the phone is."""

    number: int
    root: bytes
    ncc: int
    sync: bytes
    station: int


class Core:
    """What the core has of the phone."""

    def __init__(self, setup: Input):
        self.sites = {pair: station for station, pair in setup.fields["cells"]}  # type: ignore[attr-defined]
        self.priority: list[int] = setup.fields["priority"]  # type: ignore[assignment]
        self.next: int = setup.fields["first"]  # type: ignore[assignment]
        self.is_ahead = "first_ncc" in setup.fields
        self.latest = bytes(2)
        self.partial: Partial | None = None
        self.procedure: Security | None = None
        self.context: Security | None = None
        self.caps = bytes(2)  # of the context in use
        self.trigger: int | None = None
        self.link: CoreLink | None = None
        self.requests, self.attempts = [0] * 8, [0] * 8

    def __call__(self, told: Input) -> Reply:
        try:
            reply: Reply = getattr(self, told.name)(**told.fields)
        except Refused as why:
            reply = why.reply()
        return reply

    def in_use(self) -> Security:
        if self.context is None:
            raise Refused("NoContext")
        return self.context

    def Auth(self, ksi: int, kasme: bytes, caps: bytes) -> Reply:
        self.partial, self.procedure, self.latest = Partial(ksi, kasme, caps), None, caps
        return Reply()

    def StartSmc(self) -> Reply:
        """A Security Mode Command (TS 24.301 5.4.3.2)."""
        if self.partial is None:
            raise Refused("NoContext")
        if self.procedure is not None:
            raise Refused("SmcOpen")
        caps = self.partial.caps
        fitting = [eea for eea in self.priority if caps[0] & 0x80 >> eea and caps[1] & 0x20]
        if not fitting:
            raise Refused("NoAlgorithm")
        if self.partial.send >= NAS_LIMIT:
            raise Refused("CountSpent")
        self.procedure = Security(self.partial.root, fitting[0])
        text = bytes([1, self.partial.ksi, fitting[0] << 4 | 2]) + caps
        command = self.procedure.sealed(3, DOWN, text, self.partial.send)
        self.partial.send += 1
        return Reply(to=b"\1", record=command, derived=(self.procedure.enc, self.procedure.int))

    # NAS (TS 24.301 4.4, 5.4.3, 5.6.1)

    def Nas(self, pdu: bytes) -> Reply:
        if not pdu:
            raise Refused("Short")
        if pdu[0] not in (0x07, 0x17, 0x27, 0x47):
            raise Refused("BadHeader", pdu[:1])
        if pdu[0] == 0x07:
            return self.plain(pdu)
        if len(pdu) < 6:
            raise Refused("Short")
        return self.completed(pdu) if pdu[0] == 0x47 else self.protected(pdu)

    def plain(self, pdu: bytes) -> Reply:
        """A plain message: a Reject, of a phone with no context."""
        if self.procedure is None:
            raise Refused("NoSmc")
        if self.context is not None:
            raise Refused("BadHeader", pdu[:1])
        text = texts.fields_of(records.NAS, pdu[1:])
        if text["kind"] != 3:
            raise Refused("WrongKind", bytes([text["kind"]]))
        self.procedure = None
        return Reply()

    def completed(self, pdu: bytes) -> Reply:
        """A Security Mode Complete: the new context is in use, and the key of a connection that stands changes."""
        if self.procedure is None or self.partial is None:
            raise Refused("NoSmc")
        count = pdu[5]
        text = texts.fields_of(records.NAS, self.procedure.opened(pdu, UP, count))
        if text["kind"] != 2:
            raise Refused("WrongKind", bytes([text["kind"]]))
        self.context, self.caps = self.procedure, self.partial.caps
        self.context.send, self.context.receive = self.partial.send, count + 1
        self.partial = self.procedure = None
        if self.link is None or self.next >= NUMBERS:
            self.trigger = count
            return Reply()
        return self.changed(self.link, self.context.root, count)

    def changed(self, link: CoreLink, root: bytes, count: int) -> Reply:
        """A new KeNB, a new number and a new chain (TS 33.401 7.2.9.2)."""
        kenb = CALLS.kenb(root, count)
        record = b"\x34" + octets(link.number) + octets(self.next) + kenb
        self.trigger = None
        return self.begun(record, root, kenb, link.station)

    def begun(self, record: bytes, root: bytes, kenb: bytes, station: int) -> Reply:
        """A chain begins, at NCC 0 or one step on (TS 33.401 7.2.8.1.1)."""
        sync = CALLS.nh(root, kenb) if self.is_ahead else kenb
        self.link = CoreLink(self.next, root, 1 if self.is_ahead else 0, sync, station)
        self.next += 1
        return Reply(
            to=bytes([5, station]),
            record=record,
            derived=(kenb, sync) if self.is_ahead else (kenb,),
            note=Note(0, INITIAL, kenb),
        )

    def protected(self, pdu: bytes) -> Reply:
        context = self.in_use()
        count = estimate(context.receive, pdu[5], 256, NAS_LIMIT)
        text = texts.fields_of(records.NAS, context.opened(pdu, UP, count))
        if text["kind"] not in (3, 4, 5):
            raise Refused("WrongKind", bytes([text["kind"]]))
        if text["kind"] == 3 and self.procedure is None:
            raise Refused("NoSmc")
        context.receive = count + 1
        if text["kind"] == 4:
            self.trigger = count
        elif text["kind"] == 3:
            self.procedure = None
        return Reply(text=text.get("text"))

    def SendNas(self, text: bytes) -> Reply:
        return Reply(to=b"\1", record=self.in_use().sent(2, DOWN, b"\5" + text))

    def Skip(self, bearer: int, n: int) -> Reply:
        self.in_use().skip(n)
        return Reply()

    # Connections and S1 (TS 36.413 8.3, 8.4, TS 33.401 7.2.8)

    def Connect(self, cell: tuple[int, int]) -> Reply:
        if cell not in self.sites:
            raise Refused("UnknownCell")
        context = self.in_use()
        if self.trigger is None:
            raise Refused("NoTrigger")
        if self.next >= NUMBERS:
            raise Refused("NumberSpent")
        kenb = CALLS.kenb(context.root, self.trigger)
        self.trigger = None
        return self.begun(
            b"\x20" + octets(self.next) + spelled_cell(cell) + self.caps + kenb, context.root, kenb, self.sites[cell]
        )

    def Release(self) -> Reply:
        if self.link is None:
            raise Refused("NoUe")
        link, self.link = self.link, None
        return Reply(to=bytes([5, link.station]), record=b"\x21" + octets(link.number))

    def S1(self, pdu: bytes) -> Reply:
        told = texts.fields_of(records.S1, pdu)
        if told["kind"] not in TAKEN:
            raise Refused("WrongKind", pdu[:1])
        if self.link is None or self.link.number != told["connection"]:
            raise Refused("OldConnection", octets(self.link.number if self.link else 0), octets(told["connection"]))
        reply: Reply = {
            0x22: self.switched,
            0x24: self.required,
            0x26: self.ordered,
            0x28: self.notified,
            0x29: self.cancelled,
        }[told["kind"]](self.link, told)
        return reply

    def stepped(self, link: CoreLink) -> Note:
        """The next pair of the chain (A.4)."""
        link.sync, link.ncc = CALLS.nh(link.root, link.sync), (link.ncc + 1) % 8
        return Note(link.ncc, CHAINED, link.sync)

    def rising(self, seen: list[int], station: int, number: int) -> None:
        """A number of a station is taken once, and they rise."""
        if number <= seen[station]:
            raise Refused("Repeated", octets(seen[station]), octets(number))

    def target(self, cell: bytes) -> int:
        place = place_of(cell)
        if place not in self.sites:
            raise Refused("UnknownCell")
        station: int = self.sites[place]
        return station

    def switched(self, link: CoreLink, told: dict[str, Any]) -> Reply:
        """A Path Switch Request (7.2.8.4.2); capabilities that differ raise an alarm (7.2.4.2.2)."""
        self.rising(self.requests, told["station"], told["number"])
        self.requests[told["station"]] = told["number"]
        note = self.stepped(link)
        link.station = told["station"]
        record = b"\x23" + octets(link.number) + octets(told["number"]) + bytes([note.ncc]) + note.key
        return Reply(
            to=bytes([5, link.station]),
            record=record,
            derived=(note.key,),
            note=note,
            alarm=told["capabilities"] != self.latest,
        )

    def required(self, link: CoreLink, told: dict[str, Any]) -> Reply:
        """A Handover Required goes on to the target with the next pair (7.2.8.4.3)."""
        self.rising(self.attempts, told["station"], told["attempt"])
        target = self.target(told["cell"])
        self.attempts[told["station"]] = told["attempt"]
        note = self.stepped(link)
        record = (
            b"\x25"
            + octets(link.number)
            + bytes([told["station"]])
            + octets(told["attempt"])
            + told["cell"]
            + self.caps
            + bytes([note.ncc])
            + note.key
        )
        return Reply(to=bytes([5, target]), record=record, derived=(note.key,), note=note)

    def ordered(self, link: CoreLink, told: dict[str, Any]) -> Reply:
        """An acknowledgement goes on to the source as a Handover Command."""
        record = (
            b"\x27"
            + octets(told["connection"])
            + octets(told["attempt"])
            + told["cell"]
            + bytes([told["NCC"], told["algorithms"]])
            + octets(told["air"])
        )
        return Reply(to=bytes([5, told["source"]]), record=record)

    def notified(self, link: CoreLink, told: dict[str, Any]) -> Reply:
        link.station = told["station"]
        return Reply()

    def cancelled(self, link: CoreLink, told: dict[str, Any]) -> Reply:
        """A Handover Cancel goes on to the target."""
        record = b"\x29" + octets(told["connection"]) + bytes([told["source"]]) + octets(told["attempt"]) + told["cell"]
        return Reply(to=bytes([5, self.target(told["cell"])]), record=record)


if __name__ == "__main__":
    serving.main("core", Core)
