"""What a station keeps (docs/MACHINE.md): the numbers that it draws, the context of the phone with its attempt, and
preparations."""
from __future__ import annotations

import dataclasses

from radio import RadioLink
from texts import CALLS, Refused, octets, place_of

from calls import DOWN, UP
from lte_sec.drive.frames import Input, spelled_cell

NUMBERS = 1 << 32
Pair = tuple[int, bytes]  # NCC and NH


class Radio(RadioLink):
    """The keys and COUNTs of an air address; a station sends down."""

    sends, takes = DOWN, UP

    def __init__(self, station: int, air: int, eea: int, kenb: bytes):
        super().__init__(station, air, eea, kenb, b"", (0, b""), False)

    def to(self, bearer: int) -> bytes:
        return bytes([0, self.station]) + octets(self.air) + bytes([bearer])


@dataclasses.dataclass
class Attempt:
    """A handover, or a key change: over X2, S1 or within; its number, target, how far it is, and what its command
    says."""

    kind: str
    number: int
    target: int
    cell: bytes
    stage: str = "open"
    ncc: int = 0
    spent: Pair | None = None
    eea: int = 0
    air: int = 0


@dataclasses.dataclass
class Context:
    """The context of the phone; `ncc` is that of its KeNB, `pair` one that was not used yet."""

    conn: int
    cell: bytes
    caps: bytes
    radio: Radio
    ncc: int = 0
    starting: bool = False
    pair: Pair | None = None
    attempt: Attempt | None = None
    outstanding: int | None = None
    origin: tuple[int, int] | None = None


@dataclasses.dataclass
class Preparation:
    """What is kept for a phone that may come."""

    conn: int
    source: int
    attempt: int
    by: str
    cell: bytes
    caps: bytes
    radio: Radio
    ncc: int
    origin: tuple[int, int] | None = None


class StationState:
    """A station: its cells, the numbers that it draws, the context of the phone, and preparations."""

    def __init__(self, setup: Input, id: int):
        self.id = id
        self.sites: dict[bytes, int] = {spelled_cell(pair): station for station, pair in setup.fields["cells"]}  # type: ignore[attr-defined]
        self.priority: list[int] = setup.fields["priority"]  # type: ignore[assignment]
        self.next: int = setup.fields["first"]  # type: ignore[assignment]
        self.last, self.seen = 0, [0] * 8
        self.context: Context | None = None
        self.preparations: list[Preparation] = []

    def draw(self) -> int:
        """The next number."""
        self.needs(1)
        self.next += 1
        return self.next - 1

    def needs(self, count: int) -> None:
        if self.next + count > NUMBERS:
            raise Refused("NumberSpent")

    def ue(self) -> Context:
        if self.context is None:
            raise Refused("NoUe")
        return self.context

    def active(self) -> Context:
        context = self.ue()
        if context.starting:
            raise Refused("NotActive")
        return context

    def chosen(self, caps: bytes) -> int:
        """The first algorithm of its list that the phone has."""
        fitting = [eea for eea in self.priority if caps[0] & 0x80 >> eea and caps[1] & 0x20]
        if not fitting:
            raise Refused("NoAlgorithm")
        return fitting[0]

    def star(self, key: bytes, cell: bytes) -> bytes:
        """KeNB* (A.5)."""
        return CALLS.kenb_star(key, *place_of(cell))
