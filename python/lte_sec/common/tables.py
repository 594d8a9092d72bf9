"""What the program's definitions number and name: answers, records, inputs, messages, faults, outcomes, and keys of a
scenario.

They stand in what the program `lte_tables` writes, which proves that each of them has its line. A wheel, which has no
crates, has a copy of it beside the package.
"""
from __future__ import annotations

import pathlib
from collections.abc import Iterator

Fields = tuple[tuple[str, int], ...]  # names, each with its width in octets
Form = tuple[str, Fields]  # a record: the message that it stands for, and its fields
NETWORK = 50  # from this number on answers are the network's, and come in no frame
HERE = pathlib.Path(__file__).resolve().parents[1]
COPY, WRITTEN = HERE / "tables.txt", HERE.parents[1] / "crates" / "lte_tables" / "stdout"
LINES = (COPY if COPY.exists() else WRITTEN).read_text(encoding="utf-8").splitlines()


def rows(of: str) -> list[str]:
    """What stands behind this word, line by line."""
    return [rest for word, _, rest in (line.partition(" ") for line in LINES) if word == of]


def answers() -> Iterator[tuple[int, Form]]:
    """The answers by number: the name, and the values that each keeps. The values of one answer have one width in a
    reply."""
    for row in rows("answer"):
        number, name, octets, *values = row.split(" ")
        yield int(number), (name, tuple((value.partition("=")[0], int(octets) // len(values)) for value in values))


def records(of: str) -> dict[int, Form]:
    """The records of NAS, RRC, S1 or X2 by kind. A width of 0 is that of what is left."""
    found = {}
    for on, kind, row in (row.split(" ", 2) for row in rows("record")):
        message, *fields = row.split(", ")
        if on == of:
            found[int(kind)] = message, tuple(
                (name, int(width)) for name, _, width in (field.rpartition(" ") for field in fields)
            )
    return found


def inputs(of: str) -> dict[int, str]:
    """The names of the inputs of phone, station or core by the kinds of their frames."""
    return {int(kind): name for who, kind, name in (row.split(" ") for row in rows("input")) if who == of}


def sent() -> dict[tuple[str, str], str]:
    """What an actor sends where a message comes, by the actor and that message."""
    return {(who, came): sends for who, came, sends in (row.split(", ") for row in rows("sends"))}


ANSWERS = dict(answers())
MESSAGES, FAULTS, OUTCOMES, HEALS, FIELDS = (
    tuple(rows(of)) for of in ("message", "fault", "outcome", "heals", "field")
)
