"""Which messages of a capture are of one phone: those of connections that share a KASME, and of KASMEs that share a
connection."""
from __future__ import annotations

from dataclasses import dataclass, field

from ..common.report import DIFFERS
from ..common.terms import Term
from .recording import Met, RecordedTrace

ASKS = ("PathSwitchRequest", "HandoverRequired")
FIRST = (Term("nh", (1,)), Term("nh", (2,)))  # the first NH that a core may send


@dataclass
class CapturedPhone:
    """A phone of a capture: its KASMEs, by name, and its messages in order."""

    kasmes: list[str] = field(default_factory=list)
    met: list[Met] = field(default_factory=list)


def kasmes_of(connections: dict[int, list[Met]]) -> dict[int, list[str]]:
    """The KASMEs that each connection stands under for sure: those of its NAS messages, and of its keys those that no
    NAS message has. Another may be that of another phone, by a fault."""
    nas = {
        number: [one.kasme for each in its for one in each.nas if one.is_right] for number, its in connections.items()
    }
    of_nas = {name for names in nas.values() for name in names}
    found: dict[int, list[str]] = {}
    for number, its in connections.items():
        keys = [
            each.key.kasme for each in its if each.key is not None and each.key.verdict != DIFFERS and each.key.kasme
        ]
        found[number] = list(
            dict.fromkeys([*nas[number], *(name for name in keys if name not in of_nas or not nas[number])])
        )
    return found


def phones_of(record: RecordedTrace) -> tuple[list[CapturedPhone], list[Met]]:
    """The phones of a capture, and the messages with a key that are of none."""
    group: dict[object, object] = {}

    def first(one: object) -> object:
        while group.setdefault(one, one) != one:
            one = group[one]
        return one

    connections: dict[int, list[Met]] = {}
    for met in record.met:
        if met.connection is not None:
            connections.setdefault(met.connection, []).append(met)
    kasmes = kasmes_of(connections)
    for number, names in kasmes.items():
        for name in names:
            group[first(("KASME", name))] = first(number)
    found: dict[object, CapturedPhone] = {}
    for met in record.met:
        if met.connection is not None and kasmes[met.connection]:
            phone = found.setdefault(first(met.connection), CapturedPhone())
            phone.met.append(met)
            phone.kasmes += [name for name in kasmes[met.connection] if name not in phone.kasmes]
    kept = {id(met) for phone in found.values() for met in phone.met}
    return list(found.values()), [met for met in record.met if met.key is not None and id(met) not in kept]


def first_ncc(met: list[Met]) -> int:
    """The number of the first NH that the core of these messages sends: the more frequent one where only one request
    stands for it."""
    votes: list[int] = []
    begun: dict[int | None, int] = {}  # of connections without an NH so far, the requests for one
    for one in met:
        if one.message.name in ASKS and one.connection in begun:
            begun[one.connection] += 1
        if one.key is None or one.key.verdict == DIFFERS:
            continue
        if one.key.what == "KeNB":
            begun[one.connection] = 0
        elif one.key.what == "NH" and begun.pop(one.connection, 0) == 1 and one.key.term in FIRST:
            votes.append(one.key.term.numbers[0])
    return 1 if votes.count(1) > votes.count(2) else 2
