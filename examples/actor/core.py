#!/usr/bin/env python3
"""A core that answers the ordinary scenario and keeps TS 33.401 7.2.8.1.1: it derives the NH of NCC 1 as it sets up a
connection and keeps it, so the first pair that it sends has NCC 2. The scenario says so by `first_ncc = 2` in [core]:

    ./lte_sec drive --core 'python3 examples/actor/core.py' examples/run/standard-core.toml

What a core does in other scenarios is left to be written: it ends with a line that says what came.
"""
from __future__ import annotations

from collections.abc import Callable
from typing import Any

import serving
from calls import DOWN, UP, calls
from lte_sec.drive.frames import Input, Note, Reply, spelled_cell

CALLS = calls()
MAC_FAILS, NO_CONTEXT, NO_TRIGGER = 5, 1, 43
INITIAL, CHAINED = 0, 5
EIA2 = 2


def number(count: int, octets: int) -> bytes:
    return count.to_bytes(octets, "big")


class Core:
    """What the core has: cells, the last authentication, NAS keys, the connection, and the present pair of its
    chain."""

    def __init__(self, setup: Input):
        fields: dict[str, Any] = setup.fields
        self.sites: dict[tuple[int, int], int] = {pair: station for station, pair in fields["cells"]}
        self.eea: int = fields["priority"][0]
        self.conn: int = fields["first"]
        self.auth: tuple[int, bytes, bytes] | None = None
        self.nas: tuple[bytes, bytes] | None = None  # the keys of 16 octets, encryption and integrity
        self.trigger: int | None = None
        self.ncc, self.sync = 0, b""  # the NCC of the present pair, and the SYNC-input of the next NH (A.4)

    def __call__(self, told: Input) -> Reply:
        answer: Callable[..., Reply] | None = getattr(self, told.name, None)
        if answer is None:
            raise NotImplementedError(f"not written yet: {told}")
        return answer(**told.fields)

    def Auth(self, ksi: int, kasme: bytes, caps: bytes) -> Reply:
        self.auth = ksi, kasme, caps
        return Reply()

    def StartSmc(self) -> Reply:
        """A NAS Security Mode Command, the first of its context: header 37, MAC, COUNT 0 (TS 24.301 5.4.3.2)."""
        if self.auth is None:
            return Reply(NO_CONTEXT)
        ksi, kasme, caps = self.auth
        enc, integrity = CALLS.algorithm_key(kasme, 1, self.eea), CALLS.algorithm_key(kasme, 2, EIA2)
        self.nas = enc[16:], integrity[16:]
        covered = b"\0" + bytes([1, ksi, self.eea << 4 | EIA2]) + caps
        command = b"\x37" + CALLS.eia2(self.nas[1], 0, 0, DOWN, covered) + covered
        return Reply(to=b"\1", record=command, derived=(enc, integrity))

    def Nas(self, pdu: bytes) -> Reply:
        """The Complete, of COUNT 0: it triggers a connection (TS 33.401 7.2.6.2)."""
        if self.nas is None or pdu[:1] != b"\x47" or pdu[5:6] != b"\0":
            raise NotImplementedError(f"not written yet: a NAS message, {pdu.hex()}")
        wanted = CALLS.eia2(self.nas[1], 0, 0, UP, pdu[5:])
        if wanted != pdu[1:5]:
            return Reply(MAC_FAILS, number(0, 4) + wanted + pdu[1:5])
        self.trigger = 0
        return Reply()

    def Connect(self, cell: tuple[int, int]) -> Reply:
        """Initial Context Setup: KeNB, and the NH of NCC 1, which is kept (TS 33.401 7.2.8.1.1)."""
        if self.auth is None or self.trigger is None:
            return Reply(NO_CONTEXT if self.auth is None else NO_TRIGGER)
        _, kasme, caps = self.auth
        kenb = CALLS.kenb(kasme, self.trigger)
        self.trigger, self.ncc, self.sync = None, 1, CALLS.nh(kasme, kenb)
        record = b"\x20" + number(self.conn, 4) + spelled_cell(cell) + caps + kenb
        return Reply(
            to=bytes([5, self.sites[cell]]), record=record, derived=(kenb, self.sync), note=Note(0, INITIAL, kenb)
        )

    def S1(self, pdu: bytes) -> Reply:
        """A Path Switch Request: the chain goes one step on, and the station gets that pair (TS 33.401 7.2.8.4.2)."""
        if self.auth is None or pdu[:5] != b"\x22" + number(self.conn, 4):
            raise NotImplementedError(f"not written yet: a record on S1, {pdu.hex()}")
        self.ncc, self.sync = (self.ncc + 1) % 8, CALLS.nh(self.auth[1], self.sync)
        record = b"\x23" + pdu[1:5] + pdu[6:10] + bytes([self.ncc]) + self.sync
        return Reply(
            to=bytes([5, pdu[5]]), record=record, derived=(self.sync,), note=Note(self.ncc, CHAINED, self.sync)
        )


if __name__ == "__main__":
    serving.main("core", Core)
