"""Keys as terms: the octets of a key with the derivation that gives them, in the notation of the pages.

    kenb(5)               KeNB at the uplink NAS COUNT 5                      TS 33.401 A.3
    nh(2)                 the second NH of a KeNB's chain                     A.4
    star(nh(2),10,100)    KeNB* from it for the cell with PCI 10, EARFCN 100  A.5
    alg(kenb(5),3,2)      the key of algorithm type 3, identity 2             A.7
"""
from __future__ import annotations

import itertools
from collections.abc import Callable, Iterable
from dataclasses import dataclass, field
from typing import Protocol

from .escaped import shown

DOWN, UP = 1, 0
NAS_ENCRYPTION, NAS_INTEGRITY, RRC_ENCRYPTION, RRC_INTEGRITY, UP_ENCRYPTION = 1, 2, 3, 4, 5  # TS 33.401 A.7


class TraceError(Exception):
    """What cannot be read, in one line that says what to do; and the status with which a word ends for it."""

    status = 2


class Calls(Protocol):
    """The calls that all keys and ciphers come from: octets in, octets out. `budget` says how far a search may go with
    them."""

    budget: int

    def kenb(self, kasme: bytes, count: int) -> bytes:
        ...

    def nh(self, kasme: bytes, sync: bytes) -> bytes:
        ...

    def kenb_star(self, key: bytes, pci: int, earfcn: int) -> bytes:
        ...

    def algorithm_key(self, key: bytes, type: int, identity: int) -> bytes:
        ...

    def eea1(self, key: bytes, count: int, bearer: int, direction: int, text: bytes) -> bytes:
        ...

    def eea2(self, key: bytes, count: int, bearer: int, direction: int, text: bytes) -> bytes:
        ...

    def eea3(self, key: bytes, count: int, bearer: int, direction: int, text: bytes) -> bytes:
        ...

    def eia1(self, key: bytes, count: int, bearer: int, direction: int, text: bytes) -> bytes:
        ...

    def eia2(self, key: bytes, count: int, bearer: int, direction: int, text: bytes) -> bytes:
        ...

    def eia3(self, key: bytes, count: int, bearer: int, direction: int, text: bytes) -> bytes:
        ...


@dataclass(frozen=True, eq=False)
class Term:
    """A derivation as a tree: its kind, its numbers, and the key that it is made from. Above an NH stands the KeNB of
    its chain.

    A long connection without NHs makes KeNB* of KeNB* of .., so that nothing here goes up by a call for each.
    """

    kind: str  # kenb, nh, star, alg, kasme, root or none
    numbers: tuple[int, ...] = ()
    above: Term | None = None
    mark: int = field(init=False, repr=False)  # its hash

    def __post_init__(self) -> None:
        object.__setattr__(self, "mark", hash((self.kind, self.numbers, self.above)))

    def __hash__(self) -> int:
        return self.mark

    def __eq__(self, other: object) -> bool:
        one, two = self, other
        while one is not two:
            if not isinstance(two, Term) or (one.mark, one.kind, one.numbers) != (two.mark, two.kind, two.numbers):
                return False
            if one.above is None or two.above is None:
                return one.above is two.above
            one, two = one.above, two.above
        return True

    def __str__(self) -> str:
        before, after = "", ""
        term: Term | None = self
        while term is not None:
            inner = term.above if term.kind != "nh" else None
            numbers = ",".join(map(str, term.numbers))
            if inner is not None:
                before, after = f"{before}{term.kind}(", f",{numbers}){after}" if numbers else f"){after}"
            else:
                before += f"{term.kind}({numbers})" if numbers else term.kind
            term = inner
        return before + after

    def base(self) -> Term | None:
        """The KeNB of its chain, or what was taken for one."""
        term: Term | None = self
        while term is not None and term.kind in ("star", "alg"):
            term = term.above
        return term if term is None or term.kind == "kenb" else term.above

    @property
    def is_of_station(self) -> bool:
        """Whether it is a KeNB, an NH of its chain, or a KeNB* of one."""
        term: Term = self
        while term.kind == "star" and term.above is not None:
            term = term.above
        return term.kind == "kenb" or term.kind == "nh" and term.above is not None and term.above.kind == "kenb"

    def told(self) -> Term:
        """The same as its text tells it: an NH by its number alone, whatever KeNB its chain begins at."""
        below, term = [], self
        while term.above is not None and term.kind != "nh":
            below.append(term)
            term = term.above
        found = Term(term.kind, term.numbers)
        for one in reversed(below):
            found = Term(one.kind, one.numbers, found)
        return found

    def cells(self) -> list[tuple[int, int]]:
        """The cells that it is for, the last one first."""
        found, term = [], self
        while term.above is not None:
            if term.kind == "star":
                found.append((term.numbers[0], term.numbers[1]))
            term = term.above
        return found


NONE = Term("none")


def counted(term: Term | None) -> int:
    """The COUNT of a KeNB, -1 of another key."""
    return term.numbers[0] if term is not None and term.kind == "kenb" else -1


def numbered(term: Term) -> int:
    """The number of the NH that a key is made from, 0 where it is made from none."""
    while term.kind in ("star", "alg") and term.above is not None:
        term = term.above
    return term.numbers[0] if term.kind == "nh" else 0


def unknown(term: Term) -> bool:
    """Whether a derivation begins at a key that none gives."""
    while term.above is not None:
        term = term.above
    return term == NONE


@dataclass(frozen=True)
class Key:
    """A key and its derivation; `kasme` is the place of its KASME among those given. The same octets are the same
    key."""

    value: bytes
    term: Term = field(compare=False)
    kasme: int = -1

    @property
    def known(self) -> bool:
        return self.term.kind != "none"

    @property
    def form(self) -> str:
        return str(self.term)

    @property
    def base(self) -> str:
        """The KeNB of its chain."""
        base = self.term.base()
        return "" if base is None else str(base)


KEPT = 4_096  # KeNBs that are kept


@dataclass(frozen=True)
class Kasme:
    name: str
    value: bytes


Cipher = Callable[[bytes, int, int, int, bytes], bytes]
COMPUTED = (
    2,
    1,
    3,
)  # the algorithms that are computed here, by identity, in the order in which they are tried (TS 33.401 Annex B)


class Derivations:
    """The derivations of Annex A from the KASMEs given, each made once."""

    def __init__(self, calls: Calls, kasmes: Iterable[Kasme]):
        self.calls, self.kasmes = calls, list(kasmes)
        self.enciphers: dict[int, Cipher] = {1: calls.eea1, 2: calls.eea2, 3: calls.eea3}
        self.macs: dict[int, Cipher] = {1: calls.eia1, 2: calls.eia2, 3: calls.eia3}
        self._kenbs: dict[tuple[int, int], Key] = {}
        self._nas_keys: dict[tuple[int, int, int], bytes] = {}

    def kenb(self, kasme: int, count: int) -> Key:
        key = self._kenbs.get((kasme, count))
        if key is None:
            if len(self._kenbs) > KEPT:
                self._kenbs.clear()
            key = self._kenbs[kasme, count] = Key(
                self.calls.kenb(self.kasmes[kasme].value, count), Term("kenb", (count,)), kasme
            )
        return key

    def next_nh(self, kasme: int, sync: Key) -> Key:
        """The NH whose SYNC-input is this key: the next of a chain, or the first of the chain that begins here."""
        number, begun = (sync.term.numbers[0] + 1, sync.term.above) if sync.term.kind == "nh" else (1, sync.term)
        return Key(self.calls.nh(self.kasmes[kasme].value, sync.value), Term("nh", (number,), begun), kasme)

    def star(self, key: Key, pci: int, earfcn: int) -> Key:
        return Key(self.calls.kenb_star(key.value, pci, earfcn), Term("star", (pci, earfcn), key.term), key.kasme)

    def algorithm(self, key: Key, type: int, identity: int) -> Key:
        return Key(
            self.calls.algorithm_key(key.value, type, identity), Term("alg", (type, identity), key.term), key.kasme
        )

    def nas_key(self, kasme: int, type: int, identity: int) -> bytes:
        """The 16 octets of a NAS key that are used."""
        found = self._nas_keys.get((kasme, type, identity))
        if found is None:
            found = self.calls.algorithm_key(self.kasmes[kasme].value, type, identity)[16:]
            self._nas_keys[kasme, type, identity] = found
        return found

    def name(self, kasme: int) -> str:
        """The name of a KASME as it is shown; nothing of none."""
        return shown(self.kasmes[kasme].name) if kasme >= 0 else ""

    def shown(self, key: Key, beside: Key | None = None) -> str:
        """The form of a key, with its base where it is another than that of the key beside it, and its KASME among
        several."""
        same = beside is not None and beside.kasme == key.kasme
        return self.form(key, beside) + ("" if same else self.whose(key))

    def form(self, key: Key, beside: Key | None = None) -> str:
        form = key.form
        if key.known and key.term.base() == NONE:
            return form + " on the key sent before"
        if beside is None or not beside.known:
            return form
        base = key.base
        return form if base in ("", form, beside.base) else f"{form} on {base}"

    def whose(self, key: Key) -> str:
        return f" of {self.kasmes[key.kasme].name}" if key.known and key.kasme >= 0 and len(self.kasmes) > 1 else ""


DIGITS = 64  # of a KASME
HEX = frozenset("0123456789abcdefABCDEF")
LIKE_A_KEY = 32  # so many digits of a word are no name of a file
ALMOST, MISTYPED = (
    range(DIGITS - 2, DIGITS + 3),
    4,
)  # a word of about so many letters, of which at most so many are no digits, was meant for a KASME


def is_kasme(word: str) -> bool:
    """Whether a word is a KASME, with `NAME=` before it or not."""
    digits = word.rpartition("=")[2]
    return len(digits) == DIGITS and not set(digits) - HEX


def kasme_fault(word: str) -> str:
    """What is wrong with a word that was meant for a KASME, or nothing."""
    digits = word.rpartition("=")[2]
    bare = digits.replace(" ", "").replace(":", "").replace("-", "")
    if digits[:2].lower() == "0x" and not set(digits[2:]) - HEX:
        return f"write a KASME without 0x before its {DIGITS} hex digits: {word}"
    others = [place for place, digit in enumerate(bare) if digit not in HEX]
    if others and len(bare) in ALMOST and len(others) <= MISTYPED and not set(bare) & {"/", "."}:
        return (
            f"a KASME has {DIGITS} hex digits, and letter {others[0] + 1} of this word is '{bare[others[0]]}': {word}"
        )
    if len(bare) < LIKE_A_KEY or others:
        return ""
    if bare != digits and len(bare) == DIGITS:
        return f"write the {DIGITS} hex digits of a KASME without colons, hyphens or blanks between them: {word}"
    return f"a KASME has {DIGITS} hex digits, and this word has {len(bare)}: {word}"


def name_apart(name: str, names: Iterable[str]) -> str:
    """A name for a KASME, with a number where one of these is shown alike."""
    taken = set(map(shown, names))
    return next(
        one
        for one in itertools.chain([name], (f"{name} ({number})" for number in itertools.count(2)))
        if shown(one) not in taken
    )


def kasmes_of(words: Iterable[str]) -> list[Kasme]:
    """KASMEs from words: 64 hex digits each, or a name, `=` and 64 hex digits. Each has a name of its own."""
    words, found = list(words), list[Kasme]()
    given = [word.rpartition("=")[0] for word in words]
    for word in words:
        name, _, digits = word.rpartition("=")
        if not is_kasme(word):
            raise TraceError(
                kasme_fault(word) or f"a KASME has {DIGITS} hex digits, with NAME= before them or not: {word}"
            )
        names = [one.name for one in found]
        found.append(
            Kasme(
                name_apart(name, names) if name else name_apart(f"KASME {len(found) + 1}", [*names, *given]),
                bytes.fromhex(digits),
            )
        )
    return found
