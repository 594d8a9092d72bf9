"""Which derivation gives a key: for each key of a text the term, or `none`.

Keys have 32 octets, or 16 (the half of an algorithm key that is used); `dumps` reads them.
"""
from __future__ import annotations

import itertools
from collections.abc import Callable, Iterable, Iterator
from dataclasses import dataclass
from functools import partial

from ..captures.cells import Cell, Cells, Site
from ..common import mistakes as reasons
from ..common.causes import Cause, Reason
from ..common.quick import ready
from ..common.terms import Derivations, Key, Term, counted
from ..judge.search import EARFCNS, FEW, PCIS, DerivationSearch, MadeStar, star_text, stepped
from .dumps import OctetBlock, candidates, resolved

NAS_TYPES, STATION_TYPES, IDENTITIES = (1, 2), (3, 4, 5, 6), range(16)
OTHER_COUNTS = (Cause.COUNT_CUT, Cause.COUNT_LESS, Cause.COUNT_MORE)  # KeNB of another COUNT is found by itself
OF_ANY = (
    Cause.CONSTANT,
    Cause.KASME_ITSELF,
    Cause.KASME_TURNED,
    Cause.SYNC_OF_KASME,
)  # mistakes that do not tell which key was to be made
MOST_COUNTS = 301  # KeNBs for which a mistake is sought
VERSION = 1  # of the document that --json prints
COMMON = range(4)  # identities that algorithms have today
OF_KENB, OF_STAR = (
    [(type, identity, bytes([0x15, type, 0, 1, identity, 0, 1])) for type in STATION_TYPES for identity in identities]
    for identities in (IDENTITIES, COMMON)
)


Mistaken = tuple[Callable[[], Key], Reason, bytes]  # the key that was wanted, the mistake, and what it gives


@dataclass(frozen=True)
class Mistake:
    """Why a key that nothing gives is what it is: the mistake, and the key that it was to be."""

    why: Reason
    wanted: Key

    @property
    def is_of_one_key(self) -> bool:
        """Whether it tells which key was to be made."""
        return self.why.cause not in OF_ANY


@dataclass(frozen=True)
class ExplainedKey:
    """A key of a text, the line that it begins in, and its derivation, or the mistake by which it was made."""

    line: int
    value: bytes
    key: Key | None
    no_cell: str = ""  # why the cell that it is for is none, or not known
    why: Mistake | None = None

    @property
    def is_right(self) -> bool:
        return self.key is not None and not self.no_cell


class Explanation:
    """The search for many keys at once, from what is likely to what is far; it ends when all are found."""

    def __init__(self, derivations: Derivations, cells: Cells, counts: int, depth: int):
        self.search = DerivationSearch(derivations, cells, counts, depth)
        self.derivations, self.cells = derivations, cells
        self.found: dict[bytes, Key] = {}
        self.open: set[bytes] = set()
        self.fits = True  # whether a key of the text may be of these KASMEs

    def find(self, text: list[OctetBlock], is_far: bool = True) -> list[ExplainedKey]:
        """The derivations of the keys of a text. Rows that may be halves of keys are sought by themselves where no
        whole key is found. Where the near search gives no key of the text at all, the far one follows only if it is
        to."""
        self.near({value for block in text for value in candidates(block)})
        self.fits = is_far or bool(self.found) or self.fits_otherwise(text)
        if not self.fits:
            return [
                ExplainedKey(line, value, None)
                for block in text
                for line, value in resolved(block, lambda value: False)
            ]
        self.far()
        left = [
            block
            for block in text
            if not block.sure and not all(value in self.found for value in candidates(block)[::2])
        ]
        self.seek({row.value for block in left for row in block.rows})
        found = [one for block in text for one in resolved(block, lambda value: value in self.found)]
        whys = self.mistakes({key for _, key in found} - set(self.found))
        return [
            ExplainedKey(line, key, self.found.get(key), self.of_no_cell(self.found.get(key)), whys.get(key))
            for line, key in found
        ]

    def mistakes(self, keys: set[bytes]) -> dict[bytes, Mistake]:
        """Of keys that nothing gives those that a mistake of an implementation gives (`common.mistakes`)."""
        found: dict[bytes, Mistake] = {}
        for wanted, why, made in self.mistaken({len(key) for key in keys}) if keys else ():
            if made in keys and made not in found:
                found[made] = Mistake(why, wanted())
                if len(found) == len(keys):
                    break
        return found

    def mistaken(self, sizes: set[int]) -> Iterator[Mistaken]:
        """What mistakes give in so many octets, each with the key that was wanted and the name of the mistake: from the
        keys that were found and their chains, or where none was from each KeNB."""
        for wanted, named in self.mistaken_keys(sizes):
            yield from ((wanted, why, made) for why, made in named)

    def mistaken_keys(self, sizes: set[int]) -> Iterator[tuple[Callable[[], Key], reasons.Named]]:
        """The keys that may have been wanted, which are made where they are asked for, and what mistakes give in the
        place of each."""
        make = self.derivations
        at_hand = [key for key in self.found.values() if key.term.kind in ("kenb", "nh", "star")]
        bases = sorted(
            {(key.kasme, counted(key.term.base())) for key in self.found.values() if counted(key.term.base()) >= 0}
        )
        kenbs = [self.derivations.kenb(kasme, count) for kasme, count in bases] or list(
            itertools.islice(self.search.kenbs(), MOST_COUNTS)
        )
        chains = (
            [[kenb, *self.search.chain(kenb.kasme, kenb)] for kenb in kenbs] if bases else [[kenb] for kenb in kenbs]
        )
        parents = list({key.value: key for key in [*(key for chain in chains for key in chain), *at_hand]}.values())
        for place, kasme in enumerate(make.kasmes):
            yield from self.mistaken_algorithms(Key(kasme.value, Term("kasme"), place), NAS_TYPES, sizes)
            for count in range(min(self.search.counts + 1, MOST_COUNTS)):
                yield partial(make.kenb, place, count), (
                    one for one in reasons.kenb_mistakes(kasme.value, count) if one[0].cause not in OTHER_COUNTS
                )
        for sync in (key for chain in chains for key in chain):
            yield partial(make.next_nh, sync.kasme, sync), reasons.nh_mistakes(
                make.kasmes[sync.kasme].value, sync.value
            )
        for parent in parents:
            for cell in sorted(self.cells.pairs()):
                yield partial(make.star, parent, *cell), reasons.star_mistakes(parent.value, *cell)
        for parent in (key for key in parents if key.term.kind != "nh"):
            yield from self.mistaken_algorithms(parent, STATION_TYPES, sizes)

    def mistaken_algorithms(
        self, parent: Key, types: Iterable[int], sizes: set[int]
    ) -> Iterator[tuple[Callable[[], Key], reasons.Named]]:
        for type, identity in itertools.product(types, COMMON):
            for size in sorted(sizes, reverse=True):
                yield partial(self.derivations.algorithm, parent, type, identity), reasons.algorithm_mistakes(
                    parent.value, type, identity, size
                )

    def fits_otherwise(self, text: list[OctetBlock]) -> bool:
        """Whether a row of a text is the half of a key that the near search gives, or a mistake gives one of its keys.
        Nothing is taken of it."""
        sought = self.open
        self.near({row.value for block in text if not block.sure for row in block.rows})
        is_half, self.found, self.open = bool(self.found), {}, sought
        return is_half or bool(
            self.mistakes({value for block in text for _, value in resolved(block, lambda value: False)})
        )

    def seek(self, keys: set[bytes]) -> None:
        """Searches for all of these keys together."""
        self.near(keys)
        self.far()

    def near(self, keys: set[bytes]) -> None:
        """Searches among all KeNBs and NHs, their KeNB*s, and the algorithm keys of KASMEs and KeNBs."""
        self.open = keys - set(self.found)
        if not self.open:
            return
        roots = [Key(kasme.value, Term("kasme"), place) for place, kasme in enumerate(self.derivations.kasmes)]
        self.take([*roots, *(key for root in roots for key in self.algorithms(root, NAS_TYPES, IDENTITIES))])
        self.take(self.search.roots())
        self.spread()
        if self.open:
            self.take_made(self.stars_of_roots())
            self.spread()
        if self.open:
            self.take_algorithms(as_made(self.search.kenbs()))
            self.spread()

    def far(self) -> None:
        """Goes on for what is open: among the algorithm keys of all KeNB*s, which are many, and KeNB*s for cells that
        nobody named."""
        if self.open:
            self.take_algorithms(self.stars_of_roots())
            self.spread()
        if self.open:
            self.take_made(self.swept())

    def swept(self) -> Iterator[MadeStar]:
        """KeNB*s of the keys that were found first, and of the NHs behind these, for cells that nobody named: each PCI
        with an EARFCN-DL that is known, and each EARFCN-DL with a PCI."""
        found = [key for key in self.found.values() if key.term.kind in ("kenb", "nh", "star")][:FEW]
        behind = [key for one in found if one.term.kind == "kenb" for key in self.search.chain(one.kasme, one)[:FEW]]
        far = {(pci, earfcn) for earfcn in self.cells.earfcns() for pci in range(PCIS)} | {
            (pci, earfcn) for pci in self.cells.pcis() for earfcn in range(EARFCNS)
        }
        cells = [(cell, star_text(*cell)) for cell in sorted(far - self.cells.pairs() - self.search.mixed())]
        return stepped(as_made({key.value: key for key in [*found, *behind]}.values()), cells)

    def stars_of_roots(self) -> Iterable[MadeStar]:
        return self.search.made_stars(as_made(self.search.roots()), 1)

    def of_no_cell(self, key: Key | None) -> str:
        """Whether a key is for a PCI and an EARFCN of two cells, or for a cell that nobody named."""
        cells = set(key.term.cells()) if key else set()
        return (
            "mixed cell"
            if not self.search.mixed().isdisjoint(cells)
            else "unknown cell"
            if cells - self.cells.pairs()
            else ""
        )

    def take(self, candidates: Iterable[Key]) -> None:
        for key in candidates:
            for value in (key.value, key.value[16:]) if key.term.kind == "alg" else (key.value,):
                if value in self.open:
                    self.open.discard(value)
                    self.found[value] = key
            if not self.open:
                return

    def spread(self) -> None:
        """What the keys that were found give, again and again: their chains, KeNB*s and algorithm keys."""
        done: set[bytes] = set()
        while self.open:
            found = [key for key in self.found.values() if key.term.kind in ("kenb", "nh", "star")]
            bases = {(key.kasme, counted(key.term.base())) for key in self.found.values()}
            kenbs = [self.derivations.kenb(kasme, count) for kasme, count in sorted(bases) if count >= 0]
            chains = [key for kenb in kenbs for key in (kenb, *self.search.chain(kenb.kasme, kenb))]
            fresh = [key for key in {key.value: key for key in [*found, *chains]}.values() if key.value not in done]
            if not fresh:
                return
            done |= {key.value for key in fresh}
            made = list(as_made(fresh))
            stars = list(self.search.made_stars(made, 1))
            self.take_made(stars)
            self.take_algorithms(one for one in [*made, *stars] if one[2] or one[1].term.kind != "nh")
            if self.open:
                self.take_made(self.search.made_stars(made, self.search.deep))

    def algorithms(self, parent: Key, types: Iterable[int], identities: Iterable[int]) -> Iterator[Key]:
        return (self.derivations.algorithm(parent, type, identity) for type in types for identity in identities)

    def take_made(self, candidates: Iterable[MadeStar]) -> None:
        """Takes those of KeNB*s that are sought, as the proved calls make them."""
        for value, key, cells in candidates if self.open else ():
            if value in self.open:
                self.take([self.proved(key, cells)])
                if not self.open:
                    return

    def take_algorithms(self, parents: Iterable[MadeStar]) -> None:
        """The same with keys of a station's algorithms: from KeNBs with each identity, from KeNB*s with those that
        algorithms have."""
        for value, key, cells in parents if self.open else ():
            make = ready(value)
            for type, identity, text in OF_KENB if not cells and key.term.kind == "kenb" else OF_STAR:
                made = make(text)
                if made in self.open or made[16:] in self.open:
                    self.take([self.derivations.algorithm(self.proved(key, cells), type, identity)])
                    if not self.open:
                        return

    def proved(self, key: Key, cells: tuple[Cell, ...]) -> Key:
        """KeNB* of a key for these cells, one after the other, by the proved calls."""
        for cell in cells:
            key = self.derivations.star(key, *cell)
        return key


def as_made(keys: Iterable[Key]) -> Iterator[MadeStar]:
    return ((key.value, key, ()) for key in keys)


def told(derivations: Derivations, found: ExplainedKey) -> str:
    """The line of a key: where it stands, its octets, and the derivation with KeNB and KASME where they do not stand in
    it."""
    key, head = found.key, f"line {found.line}: {found.value.hex()}"
    if key is None and found.why is None:
        return f"{head} none"
    if key is None and found.why is not None:
        if not found.why.is_of_one_key:
            return f"{head} none ({found.why.why})"
        wanted = found.why.wanted.value[-len(found.value) :].hex()
        return f"{head} none ({found.why.why}; wanted {wanted}, which is {formed(derivations, found.why.wanted)})"
    assert key is not None
    return f"{head} {formed(derivations, key)} {found.no_cell}".rstrip()


def document(
    derivations: Derivations, found: list[ExplainedKey], cells: list[Site], fits: bool = True
) -> dict[str, object]:
    """What `explain --json` prints: each key with its derivation or its mistake; `cells` are those that the text named.
    It `fits` unless the search was ended since no key was of these KASMEs."""
    return {
        "version": VERSION,
        "keys": [entry(derivations, one) for one in found],
        "cells": [{"pci": site.pci, "earfcn": site.earfcn} for site in cells],
        "fits": fits,
        "status": 0 if all(one.is_right for one in found) else 1,
    }


def entry(derivations: Derivations, found: ExplainedKey) -> dict[str, object]:
    key, why = found.key, found.why
    wanted = (
        None
        if why is None or not why.is_of_one_key
        else {"hex": why.wanted.value[-len(found.value) :].hex(), "form": formed(derivations, why.wanted)}
    )
    return {
        "line": found.line,
        "hex": found.value.hex(),
        "form": formed(derivations, key) if key else None,
        "kasme": derivations.kasmes[key.kasme].name if key else None,
        "mistake": found.no_cell or (str(why.why) if why else None),
        "wanted": wanted,
    }


def formed(derivations: Derivations, key: Key) -> str:
    """A derivation, with KeNB and KASME where they do not stand in it."""
    text = key.form + (f" on {key.base}" if key.base and key.base not in key.form else "")
    if len(derivations.kasmes) > 1:
        text += f" of {derivations.kasmes[key.kasme].name}"
    return text
