"""What the definitions of the machine say of rows: each place of `lte_machine/specs` where an answer or a row stands,
and which of them an input comes to.

A place is `definition.Answer`, with a number behind it from the second such place of a definition on. An input is given
by entries: the definitions at which its choice begins, each with a word of the left side where only some of its
equations are of this input.
"""
from __future__ import annotations

import collections
import functools
import pathlib
import re
from collections.abc import Iterable, Iterator
from typing import NamedTuple

from lte_sec.common import tables

SPECS = pathlib.Path(__file__).resolve().parents[2] / "crates" / "lte_machine" / "specs"
FILES = {
    "phone": ("Refusals", "PhoneChoice", "PhoneKeys"),
    "station": ("Refusals", "StationChoice", "StationKeys"),
    "core": ("Refusals", "CoreChoice", "CoreKeys"),
}
ROOTS = {
    "phone": ("phone_front", "phone_row", "changed_unless"),
    "station": ("station_front", "station_row"),
    "core": ("core_front", "core_row"),
}
ROWS = {"phone": "PhoneRows", "station": "StationRows", "core": "CoreRows"}
WORD = re.compile(r"[\w.]+")
PLAIN = {"done"}  # an answer that is no refusal


class Equation(NamedTuple):
    """An equation: the words of its left side, the places in it, and the definitions that it calls."""

    left: set[str]
    places: list[str]
    calls: list[str]


def text_of(name: str) -> str:
    """A file of definitions without its comments and imports."""
    lines = (line for line in (SPECS / f"{name}.antt").read_text().splitlines() if not line.startswith("use "))
    return "\n".join(line.split("--")[0] for line in lines)


def row_names(actor: str) -> set[str]:
    """The rows of an actor's table that do something; one that only holds a row of a part is none."""
    found = {name: kind.split(" → ") for name, kind in re.findall(r"^  (\w+) : (.*Row)$", text_of(ROWS[actor]), re.M)}
    return {
        name
        for name, parts in found.items()
        if not name.endswith("Refused") and not (len(parts) == 2 and parts[0].endswith("Row"))
    }


def answers() -> set[str]:
    """The refusals that there are."""
    return {name for name, _ in tables.ANSWERS.values()} - PLAIN


def blocks_of(text: str) -> Iterator[tuple[str, str]]:
    """Each definition with the text of its equations."""
    heads = list(re.finditer(r"^(?:abbrev|unfoldable)(?: pub)? (\w+) :", text, re.M))
    for head, after in zip(heads, [*heads[1:], None]):
        yield head[1], text[head.start() : after.start() if after else len(text)]


@functools.cache
def definitions(actor: str) -> dict[str, list[Equation]]:
    """The equations of each definition: left side, the places in it, and the definitions that it calls."""
    blocks = {name: block for file in FILES[actor] for name, block in blocks_of(text_of(file))}
    wanted = row_names(actor) | answers()
    found = {}
    for name, block in blocks.items():
        parts = re.split(rf"^(?={name}\b)", block, flags=re.M)[1:]
        seen: collections.Counter[str] = collections.Counter()
        equations = []
        for part in parts:
            left, _, right = part.partition(" =")
            words = [word.split(".")[-1] for word in WORD.findall(right)]
            places = []
            for word in words:
                if word in wanted:
                    seen[word] += 1
                    places.append(f"{name}.{word}" + (f".{seen[word]}" if seen[word] > 1 else ""))
            equations.append(
                Equation(
                    set(WORD.findall(left.replace(".", " "))),
                    places,
                    [word for word in words if word in blocks and word != name],
                )
            )
        found[name] = equations
    return found


def reached(actor: str, entries: Iterable[str]) -> set[str]:
    """The places that these entries come to, as words of the form `definition` or `definition(Word)`."""
    known = definitions(actor)
    only: dict[str, set[str]] = collections.defaultdict(set)
    names: list[str] = []
    alone: set[str] = set()
    for entry in entries:
        name, _, word = entry.rstrip(")!").partition("(")
        names.append(name)
        if entry.endswith("!"):
            alone.add(name)
        if word:
            only[name].add(word)
    places: set[str] = set()
    done: set[str] = set()
    while names:
        name = names.pop()
        if name in done:
            continue
        done.add(name)
        if name not in known:
            raise KeyError(name)
        for equation in known[name]:
            if not only[name] or only[name] & equation.left:
                places.update(equation.places)
                names += equation.calls if name not in alone else []
    return places
