"""The rows of the tables of phone, station and core, as `examples/suite/rows` has them (docs/SUITE.md)."""
from __future__ import annotations

import pathlib
from typing import NamedTuple

ACTORS = ("phone", "station", "core")


class Visit(NamedTuple):
    """A row by what tells it from the others: the actor, the input, the state, the answer and the way."""

    actor: str
    input: str
    state: str
    answer: str
    way: str

    def __str__(self) -> str:
        came = self.input if self.state == "any" else f"{self.input}, {self.state}"
        return f"{self.actor} | {came} | {self.answer}{': ' * bool(self.way)}{self.way}"


class Row(NamedTuple):
    """A row: its clauses, the definitions that lead to its input, where it stands there, how a suite reaches it, and
    why not."""

    visit: Visit
    clause: str
    entries: tuple[str, ...]
    places: tuple[str, ...]
    reached: str
    why: str


class Unread(Exception):
    """A line of the file that is no row, and why."""


class Table(NamedTuple):
    """The rows in order, and the places of the definitions of which no input makes a row, each with the reason."""

    rows: list[Row]
    unused: dict[tuple[str, str], str]


REACHED = ("steps", "octets", "forge", "long", "never")


def read(text: str) -> Table:
    """The table of a file: an input in a line, its rows in lines that are set in, and last the unused places."""
    rows: list[Row] = []
    unused: dict[tuple[str, str], str] = {}
    head: list[str] = []
    for number, line in enumerate(text.splitlines(), 1):
        if not line.strip() or line.startswith("#"):
            continue
        parts = [part.strip() for part in line.split("|")]
        if parts[0] in ACTORS and len(parts) == 3:
            unused[parts[0], parts[1]] = parts[2]
        elif parts[0] in ACTORS and len(parts) == 5:
            head = parts
        elif line.startswith("    ") and head and len(parts) in (4, 5):
            rows.append(row_of(head, parts, number))
        else:
            raise Unread(f"line {number} is neither an input, nor a row, nor a place")
    return Table(rows, unused)


def row_of(head: list[str], parts: list[str], number: int) -> Row:
    reached, _, why = (parts[4] if len(parts) == 5 else "steps").partition(": ")
    if reached not in REACHED:
        raise Unread(f"line {number}: a row is reached by {', '.join(REACHED[1:])}, or by steps where nothing is said")
    visit = Visit(head[0], head[1], head[2], parts[0], parts[1])
    own = parts[2].removeprefix("+ ")
    clause = f"{head[3]}, {own}" if parts[2] != own else own or head[3]
    return Row(visit, clause, tuple(head[4].split()), tuple(parts[3].split()), reached, why)


def load(folder: pathlib.Path) -> Table:
    """The table of a folder with a suite."""
    return read((folder / "rows").read_text())
