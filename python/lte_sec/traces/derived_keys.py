"""The keys of a trace, each with the one above it: by which derivation it comes of that, and from which inputs.

A key stands here once, whatever it is called. What no derivation gives has octets alone.
"""
from __future__ import annotations

from dataclasses import dataclass, field

from ..common.escaped import shown
from ..common.report import RIGHT, Line
from ..common.terms import NAS_INTEGRITY, NONE, Derivations, Key, Term
from ..judge.account import Account
from ..nas.plain import EMM, MODE_COMMAND

DEEPEST = 200  # KeNB*s one above the other that are followed; what lies deeper has no key above it here
CLAUSES = {"kenb": "TS 33.401 A.3", "nh": "TS 33.401 A.4", "star": "TS 33.401 A.5", "alg": "TS 33.401 A.7"}
NAMES = {"kenb": "KeNB", "nh": "NH", "star": "KeNB*", "alg": "KNASint"}


@dataclass
class DerivedKey:
    """A key: its octets, its name and form, the number of the key above it, its derivation and inputs, and the messages
    that have it."""

    value: bytes
    name: str
    form: str
    above: int | None = None
    by: str = ""
    given: dict[str, str] = field(default_factory=dict)
    at: list[int] = field(default_factory=list)


class Keys:
    """The table of the keys of a trace, made as they are asked for."""

    def __init__(self, derivations: Derivations):
        self.derivations = derivations
        self.rows: list[DerivedKey] = []
        self._places: dict[bytes, int] = {}
        self._terms: dict[tuple[int, Term], int] = {}

    def add(self, value: bytes, row: DerivedKey) -> int:
        found = self._places.get(value)
        if found is None:
            found = self._places[value] = len(self.rows)
            self.rows.append(row)
        return found

    def at(self, key: Key | None, message: int, what: str = "") -> int | None:
        """The number of a key that a message has, or that was wanted there."""
        if key is None or not key.value:
            return None
        number = self.of(key.kasme, key.term) if key.kasme >= 0 and key.known else None
        if number is None or self.rows[number].value != key.value:
            number = self.add(
                key.value, DerivedKey(key.value, NAMES.get(key.term.kind, what), "" if key.term == NONE else key.form)
            )
        row = self.rows[number]
        if not row.at or row.at[-1] != message:
            row.at.append(message)
        return number

    def of_mac(self, value: Line, message: int) -> int | None:
        """The number of the key of a MAC."""
        nas = value.nas
        if value.kind != "MAC" or nas is None or nas.kasme < 0:
            return None
        identity = nas.eia
        if identity is None and value.plain and value.plain[:2] == bytes([EMM, MODE_COMMAND]) and len(value.plain) > 2:
            identity = value.plain[2] & 7  # it tells its algorithms itself
        return (
            self.at(self.derivations.algorithm(self.root(nas.kasme), NAS_INTEGRITY, identity), message)
            if identity
            else None
        )

    def root(self, kasme: int) -> Key:
        return Key(self.derivations.kasmes[kasme].value, Term("kasme"), kasme)

    def of(self, kasme: int, term: Term) -> int | None:
        """The number of the key of a term; None where it begins at a key that none gives."""
        if is_deep(term):
            return None
        todo: list[Term] = []
        at: Term | None = term
        while at is not None and (kasme, at) not in self._terms:
            todo.append(at)
            at = self.before(at)
        for one in reversed(todo):
            row = self.row(kasme, one)
            if row is None:
                return None
            self._terms[kasme, one] = self.add(row.value, row)
        return self._terms[kasme, term]

    def before(self, term: Term) -> Term | None:
        """The key above: of an NH its SYNC-input."""
        if term.kind == "nh" and term.numbers[0] > 1:
            return Term("nh", (term.numbers[0] - 1,), term.above)
        return Term("kasme") if term.kind == "kenb" else term.above

    def row(self, kasme: int, term: Term) -> DerivedKey | None:
        """The row of a term, whose key above has one."""
        calls, root, numbers = self.derivations.calls, self.derivations.kasmes[kasme], term.numbers
        if term.kind == "kasme":
            return DerivedKey(root.value, shown(root.name), "kasme")
        before = self.before(term)
        if before is None or before == NONE:
            return None
        above = self._terms[kasme, before]
        up, form, clause = self.rows[above], str(term), CLAUSES[term.kind]
        if term.kind == "kenb":
            return DerivedKey(
                self.derivations.kenb(kasme, numbers[0]).value,
                "KeNB",
                form,
                above,
                clause,
                {"uplink NAS COUNT": str(numbers[0])},
            )
        if term.kind == "nh":
            given = {"key": shown(root.name), "SYNC-input": up.form or up.name}
            return DerivedKey(calls.nh(root.value, up.value), f"NH {numbers[0]}", form, above, clause, given)
        if term.kind == "star":
            return DerivedKey(
                calls.kenb_star(up.value, *numbers),
                "KeNB*",
                form,
                above,
                clause,
                {"PCI": str(numbers[0]), "EARFCN-DL": str(numbers[1])},
            )
        name = NAMES["alg"] if numbers[0] == NAS_INTEGRITY else "key of an algorithm"
        given = {"algorithm type": str(numbers[0]), "identity": str(numbers[1])}
        return DerivedKey(calls.algorithm_key(up.value, *numbers), name, form, above, clause, given)


def is_deep(term: Term) -> bool:
    """Whether more keys lie one above the other than are followed."""
    depth, at = 0, term.above
    while at is not None and depth <= DEEPEST:
        depth, at = depth + 1, at.above
    return depth > DEEPEST


@dataclass(frozen=True)
class Numbers:
    """The numbers of the keys of a value: the one that it is, the one that was wanted, and the key of a MAC."""

    key: int | None
    wanted: int | None
    chain: int | None


def numbered(seen: Account) -> tuple[list[DerivedKey], list[Numbers]]:
    """The keys of a trace, and for each value in the order of the lines the numbers of its own."""
    if seen.derivations is None:
        return [], [Numbers(None, None, None) for _ in seen.values()]
    keys = Keys(seen.derivations)
    found = []
    for place, message in enumerate(seen.messages):
        for value in message.values:
            key = keys.at(value.key, place, value.what)
            wanted = (
                key
                if value.verdict == RIGHT and value.wanted_key is None
                else keys.at(value.wanted_key, place, value.what)
            )
            found.append(Numbers(key, wanted, keys.of_mac(value, place)))
    return keys.rows, found
