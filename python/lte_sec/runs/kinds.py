"""The kinds of values that stand in a scenario and in lines: of each what may stand, as messages and docs/SCENARIOS.md
say it, and what is wrong with another value."""
from __future__ import annotations

import dataclasses
import difflib
import re
from collections.abc import Callable

from .document import PlacedValue

MOST_CELLS, PCI, EARFCN = 4, 503, 262143
Schema = dict[str, object]


@dataclasses.dataclass
class Setup:
    """What the setup of a scenario has so far: its stations, and the cells of all."""

    stations: list[int] = dataclasses.field(default_factory=list)
    cells: set[tuple[int, ...]] = dataclasses.field(default_factory=set)


@dataclasses.dataclass(frozen=True)
class ValueKind:
    """What may stand, and what is wrong with a value in a scenario with this setup, which is nothing of a right one.
    The number and the cells of a station join the setup. And the same as JSON Schema has it, as far as that goes."""

    may: str
    wrong: Callable[[PlacedValue, Setup], str]
    schema: Schema


def one_of(words: list[str], last: str = "or") -> str:
    return words[0] if len(words) == 1 else f"{', '.join(words[:-1])} {last} {words[-1]}"


def nearest(word: str, words: list[str]) -> str:
    """The word that may have been meant, as the end of a sentence."""
    found = difflib.get_close_matches(word.lower(), words, 1)
    return f"; did you mean {found[0]}?" if found else ""


def shown(value: PlacedValue) -> str:
    """A value as it may stand in a line, cut where it is long."""
    it = value.is_
    if isinstance(it, dict):
        return "a table"
    if isinstance(it, list):
        text = "[" + ", ".join(map(shown, it[:5])) + (", .." if len(it) > 5 else "") + "]"
    else:
        text = f'"{it}"' if isinstance(it, str) else str(it).lower() if isinstance(it, bool) else str(it)
    return text if len(text) <= 44 else text[:40] + " .."


def is_whole(value: PlacedValue, low: int, high: int) -> bool:
    return type(value.is_) is int and low <= value.is_ <= high


def kind(may: str, is_right: Callable[[PlacedValue, Setup], bool], schema: Schema) -> ValueKind:
    return ValueKind(may, lambda value, setup: "" if is_right(value, setup) else f"is {shown(value)}", schema)


def whole(low: int, high: int) -> Schema:
    return {"type": "integer", "minimum": low, "maximum": high}


def number(low: int, high: int) -> ValueKind:
    may = f"a number {low} to {high}" if high - low > 1 else one_of([str(it) for it in range(low, high + 1)])
    return kind(may, lambda value, _: is_whole(value, low, high), whole(low, high))


def words(*these: str) -> ValueKind:
    return kind(one_of([f'"{word}"' for word in these]), lambda value, _: value.is_ in these, {"enum": list(these)})


def octets(count: int, exactly: bool = True) -> ValueKind:
    """Octets in hex: just so many, or at most so many."""

    def wrong(value: PlacedValue, setup: Setup) -> str:
        if not isinstance(value.is_, str):
            return f"is {shown(value)}"
        other, digits = re.search("[^0-9a-fA-F]", value.is_), len(value.is_)
        if other:
            return f"has '{other[0]}', which is not a hex digit"
        return f"has {digits} hex digits" if digits % 2 or digits > 2 * count or exactly and digits < 2 * count else ""

    may = (
        f"{2 * count} hex digits in quotes"
        if exactly
        else f"hex digits in quotes, two for each of at most {count:,} octets"
    )
    return ValueKind(
        may, wrong, {"type": "string", "pattern": f"^([0-9a-fA-F]{{2}}){{{'' if exactly else '0,'}{count}}}$"}
    )


def wrong_cell(value: PlacedValue, setup: Setup) -> str:
    pair = value.is_ if isinstance(value.is_, list) and len(value.is_) == 2 else []
    parts = zip(("PCI", "EARFCN"), pair, (PCI, EARFCN))
    return next(
        (f"has {name} {shown(part)}" for name, part, most in parts if not is_whole(part, 0, most)),
        "" if pair else f"is {shown(value)}",
    )


def wrong_cells(value: PlacedValue, setup: Setup) -> str:
    if not isinstance(value.is_, list):
        return f"is {shown(value)}"
    for cell in value.is_ if 1 <= len(value.is_) <= MOST_CELLS else []:
        pair = () if wrong_cell(cell, setup) else tuple(it.is_ for it in cell.is_)
        if not pair or pair in setup.cells:
            return f"has the cell {shown(cell)}{' a second time' if pair else ''}"
        setup.cells.add(pair)
    return "" if 1 <= len(value.is_) <= MOST_CELLS else f"has {len(value.is_)} cells"


def is_new_station(value: PlacedValue, setup: Setup) -> bool:
    is_new = is_whole(value, 0, 7) and value.is_ not in setup.stations
    setup.stations += [value.is_] if is_new else []
    return is_new


def wrong_station(value: PlacedValue, setup: Setup) -> str:
    stations = [str(number) for number in setup.stations]
    those = f"{'the stations are' if len(stations) > 1 else 'the only station is'} {one_of(stations, 'and')}"
    return "" if type(value.is_) is int and value.is_ in setup.stations else f"is {shown(value)}, and {those}"


def is_priority(value: PlacedValue, setup: Setup) -> bool:
    algorithms = value.is_ if isinstance(value.is_, list) else []
    return [it.is_ for it in algorithms] in ([0], [2], [0, 2], [2, 0]) and all(type(it.is_) is int for it in algorithms)


PAIR = f"PCI 0 to {PCI} and EARFCN 0 to {EARFCN}"
ONE_CELL: Schema = {
    "type": "array",
    "prefixItems": [whole(0, PCI), whole(0, EARFCN)],
    "items": {"type": "integer"},
    "minItems": 2,
    "maxItems": 2,
}
PRIORITY = kind(
    "one or two different ones of 0 (EEA0) and 2 (128-EEA2), as [2, 0]",
    is_priority,
    {"enum": [[2, 0], [0, 2], [2], [0]]},
)
CELL = ValueKind(f"[PCI, EARFCN], {PAIR}", wrong_cell, ONE_CELL)
CELLS = ValueKind(
    f"1 to {MOST_CELLS} cells [PCI, EARFCN] that no station has yet, {PAIR}",
    wrong_cells,
    {"type": "array", "items": ONE_CELL, "minItems": 1, "maxItems": MOST_CELLS},
)
NEW_STATION = kind("a number 0 to 7 that no station before it has", is_new_station, whole(0, 7))
STATION = ValueKind("a station of the scenario", wrong_station, whole(0, 7))
INTEGER = kind(
    "a number, counted from 0, or back from the newest, which is -1",
    lambda value, _: type(value.is_) is int,
    {"type": "integer"},
)
