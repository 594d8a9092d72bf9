#!/usr/bin/env python3
"""A station that answers all inputs as the written machine does (docs/MACHINE.md), in plain Python.

    ./lte_sec drive --suite --station 'python3 examples/suite/actors/station.py'
"""
from __future__ import annotations

import dataclasses
import sys
from typing import Any

import texts
from radio import SRB1
from station_state import Attempt, Context, Preparation, Radio, StationState
from texts import BEARER_LIMIT, Refused, octets

import serving
from lte_sec.common import tables
from lte_sec.drive import records
from lte_sec.drive.frames import DRBS, Input, Note, Reply, spelled_cell

HORIZONTAL, VERTICAL, GIVEN, COMPLETED = 1, 2, 3, 4
MOST_PREPARATIONS = 8


class Station(StationState):
    """A station: what it answers to records, PDUs and acts."""

    def __call__(self, told: Input) -> Reply:
        try:
            reply: Reply = getattr(self, told.name)(**told.fields)
        except Refused as why:
            reply = why.reply()
        return reply

    # Records (TS 36.413, TS 36.423)

    def S1(self, pdu: bytes) -> Reply:
        return self.record(
            {
                0x20: self.initial,
                0x21: self.released,
                0x23: self.answered,
                0x25: self.prepared,
                0x27: self.acknowledged,
                0x29: self.cancelled,
                0x34: self.modified,
            },
            records.S1,
            pdu,
        )

    def X2(self, pdu: bytes) -> Reply:
        return self.record(
            {0x30: self.prepared, 0x31: self.acknowledged, 0x32: self.cancelled, 0x33: self.source_released},
            records.X2,
            pdu,
        )

    def record(self, taken: dict[int, Any], forms: dict[int, tables.Form], pdu: bytes) -> Reply:
        if pdu[:1] in (b"\x30", b"\x31", b"\x32", b"\x33") or pdu[:1] and pdu[0] in records.S1:
            forms = records.S1 | records.X2
        told = texts.fields_of(forms, pdu)
        if told["kind"] not in taken:
            raise Refused("WrongKind", pdu[:1])
        reply: Reply = taken[told["kind"]](told)
        return reply

    def initial(self, told: dict[str, Any]) -> Reply:
        """Initial Context Setup Request: the context, and the RRC Security Mode Command, which is not ciphered."""
        conn = told["connection"]
        if conn <= self.last:
            raise Refused("OldConnection", octets(self.last), octets(conn))
        if self.sites.get(told["cell"]) != self.id:
            raise Refused("UnknownCell")
        eea = self.chosen(told["capabilities"])
        radio = Radio(self.id, self.draw(), eea, told["KeNB"])
        self.last, self.preparations = conn, []
        self.context = Context(conn, told["cell"], told["capabilities"], radio, starting=True)
        command = bytes([1, eea << 4 | 2, self.id]) + octets(radio.air)
        return dataclasses.replace(
            radio.signalled(SRB1, command, 0), derived=radio.derived, note=Note(0, GIVEN, radio.kenb)
        )

    def released(self, told: dict[str, Any]) -> Reply:
        context = self.ue()
        if context.conn != told["connection"]:
            raise Refused("OldConnection", octets(context.conn), octets(told["connection"]))
        self.context, self.preparations = None, []
        return Reply()

    def answered(self, told: dict[str, Any]) -> Reply:
        """Path Switch Request Acknowledge: the pair is kept, and the X2 source is released."""
        context = self.ue()
        if context.outstanding != told["number"]:
            raise Refused("Stale", octets(context.outstanding or 0), octets(told["number"]))
        context.pair, context.outstanding = (told["NCC"], told["NH"]), None
        if context.origin is None:
            return Reply()
        source, attempt = context.origin
        return Reply(to=bytes([6, source]), record=b"\x33" + octets(context.conn) + octets(attempt))

    def prepared(self, told: dict[str, Any]) -> Reply:
        """Handover Request on S1 or X2: a preparation, and its acknowledgement."""
        conn, source, attempt, cell = told["connection"], told["source"], told["attempt"], told["cell"]
        if conn < self.last:
            raise Refused("OldConnection", octets(self.last), octets(conn))
        if self.sites.get(cell) != self.id:
            raise Refused("UnknownCell")
        if attempt <= self.seen[source]:
            raise Refused("Repeated", octets(self.seen[source]), octets(attempt))
        if conn == self.last and len(self.preparations) >= MOST_PREPARATIONS:
            raise Refused("PrepFull")
        eea, air, over_x2 = self.chosen(told["capabilities"]), self.draw(), told["kind"] == 0x30
        star = told["KeNB*"] if over_x2 else self.star(told["NH"], cell)
        radio = Radio(self.id, air, eea, star)
        self.last, self.seen[source] = conn, attempt
        self.preparations = [each for each in self.preparations if each.conn >= conn]
        self.preparations.append(
            Preparation(
                conn, source, attempt, "X2" if over_x2 else "S1", cell, told["capabilities"], radio, told["NCC"]
            )
        )
        algorithms = bytes([eea << 4 | 2])
        if over_x2:
            record = b"\x31" + octets(conn) + octets(attempt) + cell + algorithms + octets(air)
            return Reply(
                to=bytes([6, source]), record=record, derived=radio.derived, note=Note(told["NCC"], GIVEN, star)
            )
        record = (
            b"\x26"
            + octets(conn)
            + bytes([source])
            + octets(attempt)
            + cell
            + bytes([told["NCC"]])
            + algorithms
            + octets(air)
        )
        return Reply(to=b"\3", record=record, derived=(star, *radio.derived), note=Note(told["NCC"], VERTICAL, star))

    def acknowledged(self, told: dict[str, Any]) -> Reply:
        """Handover Command on S1, or the acknowledgement on X2: the attempt is ready."""
        attempt = self.ue().attempt
        if (
            attempt is None
            or attempt.kind != ("S1" if told["kind"] == 0x27 else "X2")
            or attempt.number != told["attempt"]
        ):
            raise Refused("NoAttempt")
        if attempt.stage != "open":
            raise Refused("Repeated", octets(attempt.number), octets(attempt.number))
        attempt.stage, attempt.eea, attempt.air = "ready", told["algorithms"] >> 4, told["air"]
        attempt.ncc = told.get("NCC", attempt.ncc)
        return Reply()

    def cancelled(self, told: dict[str, Any]) -> Reply:
        left = [each for each in self.preparations if (each.source, each.attempt) != (told["source"], told["attempt"])]
        if len(left) == len(self.preparations):
            raise Refused("NoAttempt")
        self.preparations = left
        return Reply()

    def source_released(self, told: dict[str, Any]) -> Reply:
        attempt = self.ue().attempt
        if attempt is None or (attempt.kind, attempt.stage, attempt.number) != ("X2", "commanded", told["attempt"]):
            raise Refused("NoAttempt")
        self.context = None
        return Reply()

    def modified(self, told: dict[str, Any]) -> Reply:
        """UE Context Modification Request: KeNB* of the new KeNB for the same cell, and the order to the phone (TS
        33.401 7.2.9.2)."""
        context = self.ue()
        if context.conn != told["connection"]:
            raise Refused("OldConnection", octets(context.conn), octets(told["connection"]))
        if told["next connection"] <= self.last:
            raise Refused("OldConnection", octets(self.last), octets(told["next connection"]))
        self.active()
        if context.attempt:
            raise Refused("AttemptOpen", octets(context.attempt.number))
        self.needs(2)
        if context.radio.counts[SRB1].send >= BEARER_LIMIT:
            raise Refused("CountSpent")
        number, air = self.draw(), self.draw()
        star = self.star(told["KeNB"], context.cell)
        radio = Radio(self.id, air, context.radio.eea, star)
        self.last = told["next connection"]
        self.preparations = [
            Preparation(self.last, self.id, number, "within", context.cell, context.caps, radio, 0, context.origin)
        ]
        context.attempt = Attempt("key change", number, self.id, context.cell, "commanded", eea=radio.eea, air=air)
        return dataclasses.replace(
            self.ordered(context, context.attempt), derived=(star, *radio.derived), note=Note(0, GIVEN, star)
        )

    # The radio (TS 36.331, TS 36.323)

    def Air(self, air: int, bearer: int, pdu: bytes) -> Reply:
        if self.context is not None and self.context.radio.air == air:
            return (
                self.starting(self.context, bearer, pdu)
                if self.context.starting
                else self.connected(self.context.radio, bearer, pdu)
            )
        found = [each for each in self.preparations if each.radio.air == air]
        if not found:
            raise Refused("NotAddressed")
        return self.arrived(found[0], bearer, pdu)

    def starting(self, context: Context, bearer: int, pdu: bytes) -> Reply:
        """Before the Security Mode Complete, which is not ciphered, a station takes SRB1 alone."""
        if bearer != SRB1:
            raise Refused("NotActive")
        plain, count = context.radio.opened(bearer, pdu, 0)
        text = texts.fields_of(records.RRC, plain)
        if text["kind"] != 2:
            raise Refused("WrongKind", bytes([text["kind"]]))
        context.radio.counts[bearer].receive, context.starting = count + 1, False
        return Reply()

    def connected(self, radio: Radio, bearer: int, pdu: bytes) -> Reply:
        if bearer in DRBS:
            return Reply(text=radio.unpacked(bearer, pdu)[:1500])
        plain, count = radio.opened(bearer, pdu, radio.eea)
        text = texts.fields_of(records.RRC, plain)
        if text["kind"] not in (4, 5):
            raise Refused("WrongKind", bytes([text["kind"]]))
        radio.counts[bearer].receive = count + 1
        return Reply(text=text.get("text"))

    def arrived(self, prep: Preparation, bearer: int, pdu: bytes) -> Reply:
        """The Reconfiguration Complete: the phone is here, and all that was before is dropped."""
        if bearer != SRB1:
            raise Refused("NotActive")
        plain, count = prep.radio.opened(bearer, pdu, prep.radio.eea)
        if texts.fields_of(records.RRC, plain)["kind"] != 4:
            raise Refused("NotActive")
        context = Context(prep.conn, prep.cell, prep.caps, prep.radio, prep.ncc, origin=prep.origin)
        sent: dict[str, bytes] = {}
        if prep.by == "X2":
            context.outstanding, context.origin = self.draw(), (prep.source, prep.attempt)
            sent = {"to": b"\3", "record": self.request(context)}
        elif prep.by == "S1":
            sent = {"to": b"\3", "record": b"\x28" + octets(prep.conn) + bytes([self.id]) + prep.cell}
        prep.radio.counts[bearer].receive = count + 1
        self.context, self.preparations = context, []
        return Reply(**sent, note=Note(prep.ncc, COMPLETED, prep.radio.kenb))  # type: ignore[arg-type]

    def request(self, context: Context) -> bytes:
        """A Path Switch Request under the number that is outstanding."""
        return (
            b"\x22"
            + octets(context.conn)
            + bytes([self.id])
            + octets(context.outstanding or 0)
            + context.cell
            + context.caps
        )

    # Acts

    def Start(self, way: int, cell: tuple[int, int]) -> Reply:
        context, place = self.active(), spelled_cell(cell)
        target = self.sites.get(place)
        if target is None or (target == self.id) != (way == 2):
            raise Refused("UnknownCell")
        if context.attempt:
            raise Refused("AttemptOpen", octets(context.attempt.number))
        return (self.over_x2, self.over_s1, self.within)[way](context, target, place)

    def over_x2(self, context: Context, target: int, cell: bytes) -> Reply:
        number = self.draw()
        star, note = self.begun(context, Attempt("X2", number, target, cell))
        record = (
            b"\x30"
            + octets(context.conn)
            + bytes([self.id])
            + octets(number)
            + cell
            + context.caps
            + bytes([note.ncc])
            + star
        )
        return Reply(to=bytes([6, target]), record=record, derived=(star,), note=note)

    def begun(self, context: Context, attempt: Attempt) -> tuple[bytes, Note]:
        """KeNB* of the unused pair, which moves into the attempt, or else of the KeNB in use (TS 33.401 7.2.8.4.1,
        7.2.8.4.2)."""
        pair, context.pair = context.pair, None
        attempt.ncc, base = pair if pair else (context.ncc, context.radio.kenb)
        attempt.spent, context.attempt = pair, attempt
        star = self.star(base, attempt.cell)
        return star, Note(attempt.ncc, VERTICAL if pair else HORIZONTAL, star)

    def over_s1(self, context: Context, target: int, cell: bytes) -> Reply:
        number = self.draw()
        context.attempt = Attempt("S1", number, target, cell)
        return Reply(to=b"\3", record=b"\x24" + octets(context.conn) + bytes([self.id]) + octets(number) + cell)

    def within(self, context: Context, target: int, cell: bytes) -> Reply:
        if len(self.preparations) >= MOST_PREPARATIONS:
            raise Refused("PrepFull")
        self.needs(2)
        number, air = self.draw(), self.draw()
        attempt = Attempt("within", number, target, cell, "ready", eea=context.radio.eea, air=air)
        star, note = self.begun(context, attempt)
        radio = Radio(self.id, air, attempt.eea, star)
        self.preparations.append(
            Preparation(context.conn, self.id, number, "within", cell, context.caps, radio, note.ncc, context.origin)
        )
        return Reply(derived=(star, *radio.derived), note=note)

    def ordered(self, context: Context, attempt: Attempt) -> Reply:
        """The command of an attempt on SRB1: a Reconfiguration, or the order of a key change."""
        ncc = b"" if attempt.kind == "key change" else bytes([attempt.ncc])
        text = (
            (b"\3" if ncc else b"\6")
            + attempt.cell
            + ncc
            + bytes([attempt.eea << 4 | 2, attempt.target])
            + octets(attempt.air)
        )
        return context.radio.signalled(SRB1, text, context.radio.eea)

    def Command(self) -> Reply:
        context = self.ue()
        if context.attempt is None:
            raise Refused("NoAttempt")
        if context.attempt.stage == "open":
            raise Refused("NotReady")
        reply = self.ordered(context, context.attempt)
        context.attempt.stage = "commanded"
        return reply

    def Cancel(self) -> Reply:
        """An attempt is given up, until its command is sent; its pair goes back, unless another is there by now."""
        context = self.ue()
        attempt = context.attempt
        if attempt is None:
            raise Refused("NoAttempt")
        if attempt.stage == "commanded":
            raise Refused("CommandSent")
        context.attempt, context.pair = None, context.pair or attempt.spent
        if attempt.kind == "X2":
            return Reply(
                to=bytes([6, attempt.target]),
                record=b"\x32" + octets(context.conn) + bytes([self.id]) + octets(attempt.number),
            )
        if attempt.kind == "S1":
            return Reply(
                to=b"\3",
                record=b"\x29" + octets(context.conn) + bytes([self.id]) + octets(attempt.number) + attempt.cell,
            )
        self.preparations = [
            each for each in self.preparations if (each.source, each.attempt) != (self.id, attempt.number)
        ]
        return Reply()

    def Ask(self) -> Reply:
        """A Path Switch Request again."""
        context = self.active()
        if context.origin is None:
            raise Refused("NoPathSwitch")
        context.outstanding = self.draw()
        return Reply(to=b"\3", record=self.request(context))

    def SendUser(self, bearer: int, text: bytes) -> Reply:
        return self.active().radio.packed(bearer, text)

    def SendRrc(self, bearer: int, text: bytes) -> Reply:
        radio = self.active().radio
        return radio.signalled(bearer, b"\5" + text, radio.eea)

    def Skip(self, bearer: int, n: int) -> Reply:
        counts = self.active().radio.counts[bearer]
        counts.send = min(counts.send + n, BEARER_LIMIT)
        return Reply()


def main() -> None:
    """The program: its words are `serve station` and the station's number."""
    if sys.argv[1:3] != ["serve", "station"] or len(sys.argv) != 4 or sys.argv[3] not in "01234567":
        sys.exit(f"usage: {sys.argv[0]} serve station N")
    serving.serve("station", lambda setup: Station(setup, int(sys.argv[3])))


if __name__ == "__main__":
    main()
