"""A report of `run` as values: its steps with what they note, and the rows of its ladder. Nothing else reads its
lines."""
from __future__ import annotations

import re
from collections.abc import Iterable
from dataclasses import dataclass, field
from functools import lru_cache

STEP = re.compile(r"(\d+) (both|phone|core(?: [01])?|world|station ([0-7])) (\w+)(.*)")
SENT = re.compile(r" sent=(\d+):(\w+)")
NOTE = re.compile(r" ncc=(\d) way=(\w+) key=([0-9a-f]{64})")
TEXT = re.compile(r" text=([0-9a-f]*)")
FORM = r"row (\d+) (\w+)(?:\((-?[\d,]*)\))?"  # of a row, in an audit too
ROW = re.compile(rf"{FORM} ([0-9a-f]{{64}}) (\S+)")
END = "end "  # how the line begins behind the steps
MANY = 1 << 16  # lines that are kept: most of a variant are those of another
NONE = "-"  # no holder


@dataclass(frozen=True)
class NotedKey:
    """A key that an actor came by, or tells: its octets, how it was come by, and its NCC."""

    key: str
    way: str
    ncc: str


@dataclass(frozen=True)
class StepLine:
    """A step: who took it, the answer, the record sent and its kind, the note and the text. Its number does not tell it
    from another."""

    who: str
    answer: str
    sent: int | None
    kind: str
    note: NotedKey | None
    text: str | None
    alarm: bool
    number: int = field(default=-1, compare=False)
    station: int | None = field(default=None, compare=False)  # None of phone, core and world

    @property
    def way(self) -> str | None:
        return self.note.way if self.note else None

    @property
    def key(self) -> str:
        return self.note.key if self.note else ""

    @staticmethod
    @lru_cache(maxsize=MANY)
    def read(line: str) -> StepLine | None:
        """The line of a step, or None where it is another one."""
        found = STEP.fullmatch(line)
        if not found:
            return None
        number, who, station, answer, rest = found.groups()
        sent, note, text = SENT.search(rest), NOTE.search(rest), TEXT.search(rest)
        return StepLine(
            who,
            answer,
            int(sent[1]) if sent else None,
            sent[2] if sent else "",
            NotedKey(note[3], note[2], note[1]) if note else None,
            text[1] if text else None,
            rest.endswith(" alarm"),
            int(number),
            int(station) if station else None,
        )


@dataclass
class LadderRow:
    """A row: its number, its word (root, kenb, nh, star, alg) with its values, its octets and holders; and what the
    rows above it tell: the row of its KASME, the row with which its chain begins, and the number of the NH that it
    comes of, 0 of a KeNB."""

    number: int
    word: str
    values: tuple[int, ...]
    key: str
    holders: tuple[str, ...]
    root: int
    first: int
    chain: int = 0
    algs: list[LadderRow] = field(default_factory=list)
    stars: list[LadderRow] = field(default_factory=list)

    @property
    def parent(self) -> int | None:
        """The row that it is derived from."""
        return self.values[0] if self.values else None

    @property
    def above(self) -> int | None:
        """The key above it: of an NH its SYNC-input."""
        return self.values[1] if self.word == "nh" else self.parent

    @property
    def cell(self) -> str:
        """PCI and EARFCN-DL of a KeNB*."""
        return f"{self.values[1]},{self.values[2]}" if self.word == "star" else ""

    @property
    def is_nas_of_phone(self) -> bool:
        """Whether it is a NAS key that the phone made, as it does when it takes a NAS context."""
        return self.word == "alg" and self.values[1] in (1, 2) and "P" in self.holders


class NoRow(ValueError):
    """A line that is no row of the ladder."""


@lru_cache(maxsize=MANY)
def form_of(line: str) -> tuple[int, str, tuple[int, ...], str, tuple[str, ...]] | None:
    """Number, word, values, octets and holders of a row, or None where a line is another one."""
    found = ROW.fullmatch(line)
    if not found:
        return None
    number, word, values, key, holders = found.groups()
    return int(number), word, numbers_of(values), key, () if holders == NONE else tuple(holders.split(","))


def numbers_of(values: str | None) -> tuple[int, ...]:
    """The values of a row."""
    return tuple(map(int, values.split(","))) if values else ()


def rows_of(report: Iterable[str]) -> dict[int, LadderRow]:
    """The rows of a report by their numbers."""
    rows: dict[int, LadderRow] = {}
    for line in report:
        if line.startswith("row "):
            form = form_of(line)
            if form is None:
                raise NoRow(f"this is not a row of a report: {line}")
            rows[form[0]] = row_below(rows, *form)
    return rows


def row_below(
    rows: dict[int, LadderRow], number: int, word: str, values: tuple[int, ...], key: str, holders: tuple[str, ...]
) -> LadderRow:
    """A row, by the rows above it, which know of it from here on."""
    try:
        parent = rows[values[0]] if values else None
        goes_on = rows[values[1]] if word == "nh" else parent if word == "star" else None
    except (KeyError, IndexError):
        raise NoRow(f"row {number} is derived from a row that is not above it") from None
    row = LadderRow(
        number, word, values, key, holders, parent.root if parent else number, goes_on.first if goes_on else number
    )
    row.chain = 0 if goes_on is None else goes_on.chain + (word == "nh")
    if parent is not None:
        {"alg": parent.algs, "star": parent.stars}.get(word, []).append(row)
    return row


def behind_end(report: str) -> list[str]:
    """The lines behind the end of the steps; none of a report that did not come to it."""
    found = report.find(f"\n{END}")
    return report[found + 1 :].splitlines()[1:] if found >= 0 else []
