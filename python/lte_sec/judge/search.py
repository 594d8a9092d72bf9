"""The search for a derivation that gives a key: what it is where it is not what was wanted.

The search goes from the likely to the far: from keys at hand (in use, stored, sent before), their chains and their
KeNB*s, then from all KeNBs up to a COUNT. Cells are those known, and each PCI with each EARFCN (a mixed cell), at most
once in a key.
"""
from __future__ import annotations

import itertools
from collections.abc import Iterable, Iterator
from dataclasses import dataclass

from ..captures.cells import Cell, Cells
from ..common.quick import ready
from ..common.terms import Derivations, Key

PCIS, EARFCNS = 504, 65536
KEPT = 4096  # chains that are kept
FEW = 6  # of the keys at hand, so many are taken further

MadeStar = tuple[
    bytes, Key, tuple[Cell, ...]
]  # octets, and of which key and for which cells, one after the other, they are KeNB*; of none the key itself


def star_text(pci: int, earfcn: int) -> bytes:
    """What KeNB* for a cell is made over (TS 33.401 A.5)."""
    size = 2 if earfcn < EARFCNS else 3
    return b"\x13" + pci.to_bytes(2, "big") + b"\0\2" + earfcn.to_bytes(size, "big") + bytes([0, size])


def stepped(keys: Iterable[MadeStar], cells: list[tuple[Cell, bytes]]) -> Iterator[MadeStar]:
    """KeNB*s of keys for each of these cells."""
    for value, key, path in keys if cells else ():
        make = ready(value)
        for cell, text in cells:
            yield make(text), key, (*path, cell)


@dataclass
class Budget:
    """How many derivations searches may still make together."""

    left: int


class DerivationSearch:
    """Bounds: COUNTs up to `counts`, chains up to `depth`, KeNB* of KeNB* up to `deep`."""

    def __init__(
        self, derivations: Derivations, cells: Cells, counts: int = 300, depth: int = 16, deep: int = 3, budget: int = 0
    ):
        self.derivations, self.cells = derivations, cells
        self.counts, self.depth, self.deep = counts, depth, deep
        self.budget, self.idle = Budget(budget), Budget(budget // 4)
        self.tried = 0  # derivations so far
        self._found: dict[bytes, Key] = {}  # by their octets
        self._chains: dict[tuple[int, bytes], list[Key]] = {}
        self._vain: dict[
            tuple[bytes, frozenset[Cell]], tuple[set[bytes], set[bytes]]
        ] = {}  # by octets and cells, the keys that were tried near, and the firsts of them

    # -- candidates

    def chain(self, kasme: int, base: Key) -> list[Key]:
        """The NHs from a KeNB, or from what was taken for one."""
        found = self._chains.get((kasme, base.value))
        if found is None:
            if len(self._chains) > KEPT:
                self._chains.clear()
            found, sync = [], base
            for _ in range(self.depth):
                sync = self.derivations.next_nh(kasme, sync)
                found.append(sync)
            self._chains[kasme, base.value] = found
        return found

    def kenbs(self) -> Iterator[Key]:
        for kasme in range(len(self.derivations.kasmes)):
            for count in range(self.counts + 1):
                yield self.derivations.kenb(kasme, count)

    def roots(self) -> Iterator[Key]:
        """All KeNBs, and all NHs of their chains."""
        for kenb in self.kenbs():
            yield kenb
        for kenb in self.kenbs():
            yield from self.chain(kenb.kasme, kenb)

    def mixed(self) -> set[tuple[int, int]]:
        return {(pci, earfcn) for pci in self.cells.pcis() for earfcn in self.cells.earfcns()} - self.cells.pairs()

    def stars(self, keys: Iterable[Key], deep: int) -> Iterator[Key]:
        """The KeNB*s of keys, up to so many one after the other, with at most one mixed cell each."""
        plain, odd = list(keys), list[Key]()
        real, mixed = sorted(self.cells.pairs()), sorted(self.mixed())
        star = self.derivations.star
        for _ in range(deep):
            next_plain = [star(key, *cell) for key in plain for cell in real]
            yield from next_plain
            next_odd = [star(key, *cell) for key in plain for cell in mixed]
            next_odd += [star(key, *cell) for key in odd for cell in real]
            yield from next_odd
            plain, odd = next_plain, next_odd

    def made_stars(self, keys: Iterable[MadeStar], deep: int) -> Iterator[MadeStar]:
        """As `stars`, in their order, but made by `quick`."""
        plain, odd = list(keys), list[MadeStar]()
        real, mixed = (
            [(cell, star_text(*cell)) for cell in sorted(cells)] for cells in (self.cells.pairs(), self.mixed())
        )
        for _ in range(deep):
            next_plain = list(stepped(plain, real))
            yield from next_plain
            next_odd = [*stepped(plain, mixed), *stepped(odd, real)]
            yield from next_odd
            plain, odd = next_plain, next_odd

    def syncs(self, keys: Iterable[Key]) -> Iterator[Key]:
        """NHs whose SYNC-input is one of these keys, under each KASME, and two more of each such chain."""
        for key in keys:
            for kasme in range(len(self.derivations.kasmes)):
                sync = key
                for _ in range(3):
                    sync = self.derivations.next_nh(kasme, sync)
                    yield sync

    def near(self, keys: list[Key], likely: list[Key]) -> Iterator[Key]:
        """What the keys at hand give, and the likely ones of them one step further."""
        chains = [nh for key in keys if key.term.kind == "kenb" for nh in self.chain(key.kasme, key)]
        yield from keys
        yield from chains
        yield from self.stars(keys, 1)
        yield from self.syncs(keys)
        yield from self.stars(chains, 1)
        firsts = list(self.stars(likely, 1))
        yield from self.stars(firsts, 1)
        yield from self.syncs(firsts)

    def swept(self, keys: list[Key], target: int | None) -> Iterator[Key]:
        """The likeliest keys with each PCI, and with each EARFCN for the PCI that a KeNB* is for."""
        for key in keys[:2]:
            for earfcn in self.cells.earfcns():
                for pci in range(PCIS):
                    yield self.derivations.star(key, pci, earfcn)
        for key in keys[:1] if target is not None else ():
            for earfcn in range(EARFCNS):
                yield self.derivations.star(key, target or 0, earfcn)

    def far(self, keys: list[Key]) -> Iterator[Key]:
        """What any KeNB gives, and what the keys at hand give deeper."""
        yield from self.roots()
        yield from self.stars(self.roots(), 1)
        yield from self.stars(keys, self.deep)

    # -- one key of a trace

    def find(self, value: bytes, at_hand: Iterable[Key], target: int | None = None, judged: bool = True) -> Key | None:
        """The first derivation that gives these octets, or None; `target` is the PCI that a KeNB* is for.

        Keys that are not judged, as those of phones without their KASME, have a budget of their own. What was found
        once is known to each further reading of a trace, whose budget may be spent by then.
        """
        keys = list({key.value: key for key in at_hand if key.known}.values())
        found = next((key for key in keys if key.value == value), None) or self._found.get(value)
        if found is not None:
            return found
        if not judged:
            found = self.sought(value, itertools.chain(self.near(keys, keys[:FEW]), self.far(keys)), self.idle)
        else:
            found = self.sought_near(value, keys) or self.sought(
                value, itertools.chain(self.swept(keys, target), self.far(keys)), self.budget
            )
        if found is not None:
            self._found[value] = found
        return found

    def sought_near(self, value: bytes, keys: list[Key]) -> Key | None:
        """The first that is the key of what the keys at hand give: each is tried once in the cells that are known,
        though a trace is read again and again."""
        if len(self._vain) > KEPT:
            self._vain.clear()
        tried, further = self._vain.setdefault((value, frozenset(self.cells.pairs())), (set(), set()))
        found = self.sought(
            value,
            self.near(
                [key for key in keys if key.value not in tried], [key for key in keys[:FEW] if key.value not in further]
            ),
        )
        tried |= {key.value for key in keys}
        further |= {key.value for key in keys[:FEW]}
        return found

    def sought(self, value: bytes, candidates: Iterable[Key], budget: Budget | None = None) -> Key | None:
        """The first of these that is the key, as far as the budget goes."""
        for key in candidates:
            if budget is not None and budget.left <= 0:
                return None
            if budget is not None:
                budget.left -= 1
            self.tried += 1
            if key.value == value:
                return key
        return None
