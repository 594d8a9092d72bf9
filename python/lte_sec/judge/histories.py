"""Lawful histories of a connection: what core, station and phone have, crossed, and how each step of the standard
changes them. They are the judge's own, tested and not proved: it blames by them, and `lawful` asks the proved ones.

A history is one way in which TS 33.401 7.2.8 and 7.2.9 let things come to what a trace has shown so far. Mostly there
is one. After a key that differs there are those that go on from what was sent and those that go on from what was
wanted. Each key that comes keeps the histories that give it.
"""
from __future__ import annotations

from collections.abc import Iterable
from dataclasses import dataclass, field, replace
from typing import TypeVar

from ..captures.cells import Cell
from ..common.terms import NONE, Derivations, Key

CHAIN = 8  # NCC has three bits
MOST = 24  # histories of a connection
UNKNOWN_KEY = Key(b"", NONE)
Thing = TypeVar("Thing")


@dataclass(frozen=True)
class Numbered:
    """A key, or an NH, and its NCC."""

    key: Key
    ncc: int


@dataclass(frozen=True)
class Chain:
    """The core's chain: its KASME, the last NH that was sent (the KeNB before that), and its number."""

    kasme: int
    sync: Key
    number: int = 0

    def step(self, derivations: Derivations, steps: int = 1) -> Chain:
        chain = self
        for _ in range(steps):
            chain = Chain(chain.kasme, derivations.next_nh(chain.kasme, chain.sync), chain.number + 1)
        return chain

    @property
    def ncc(self) -> int:
        return self.number % CHAIN


@dataclass(frozen=True)
class PhoneKeys:
    """The phone's key in use with its NCC, and its own chain. A key without octets is not known."""

    key: Key
    ncc: int
    chain: Chain
    lost: bool = False  # a handover was not seen, so that NCC and key may be others

    def takes(self, derivations: Derivations, ncc: int, cell: Cell) -> PhoneKeys:
        """What the phone makes of a command with this NCC and cell (TS 33.401 7.2.8.4.4, TS 36.331 5.3.5.4)."""
        if ncc == self.ncc:
            return replace(self, key=derivations.star(self.key, *cell)) if self.key.value else self
        chain = self.chain.step(derivations)
        while chain.ncc != ncc % CHAIN:
            chain = chain.step(derivations)
        return PhoneKeys(derivations.star(chain.sync, *cell), ncc, chain, self.lost)

    def away(self) -> PhoneKeys:
        """The phone where the trace shows nothing of it: its key is not known."""
        return replace(self, key=UNKNOWN_KEY, lost=True)


@dataclass(frozen=True)
class Held:
    """What the serving station has: its key in use with its NCC, and the pair of NH and NCC that it has stored and not
    used."""

    key: Key = UNKNOWN_KEY
    ncc: int = 0
    pair: Numbered | None = None

    def base(self) -> Numbered:
        """What the next KeNB* is made from: the stored NH, or else the key in use (TS 33.401 7.2.8.4)."""
        return self.pair or Numbered(self.key, self.ncc)

    @property
    def known(self) -> bool:
        return bool(self.base().key.value)


@dataclass(frozen=True)
class History:
    """What core, serving station and phone have. Without a core it is not known where the chain begins, without a phone
    not what it has."""

    core: Chain | None = None
    held: Held = field(default_factory=Held)
    phone: PhoneKeys | None = None
    is_old: bool = False  # it goes on from before a key change that has no answer yet

    def refreshed(self, derivations: Derivations, cell: Cell) -> History:
        """A step of station and phone to a cell of the station: a handover within it, a re-establishment, a
        resumption."""
        base = self.held.base()
        return replace(
            self,
            held=Held(derivations.star(base.key, *cell), base.ncc),
            phone=self.phone and self.phone.takes(derivations, base.ncc, cell),
        )

    def stores(self, pair: Numbered) -> History:
        """The station stores NH and NCC for the next handover (7.2.8.4.1)."""
        return replace(self, held=replace(self.held, pair=pair))

    def away(self) -> History:
        """The phone is where its key is not known."""
        return History(self.core, Held(), self.phone and self.phone.away())


def once(found: Iterable[Thing]) -> list[Thing]:
    """Things without those that are equal to one before. Mostly there is one, whose hash is not asked for."""
    found = list(found)
    return found if len(found) < 2 else list(dict.fromkeys(found))


def merged(found: Iterable[History]) -> list[History]:
    """Histories without those that are equal to one before, as many as are kept; one of which nothing is known if there
    are none."""
    return once(found)[:MOST] or [History()]


def renewed(derivations: Derivations, kenb: Key, cell: Cell | None = None) -> PhoneKeys:
    """The phone that took a KeNB from its KASME: at a connection, or with a cell at a key change (TS 33.401
    7.2.9.2)."""
    return PhoneKeys(derivations.star(kenb, *cell) if cell else kenb, 0, Chain(kenb.kasme, kenb))
