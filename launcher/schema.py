"""The schema of scenarios for editors (JSON Schema 2020-12, of TOML), made of the table of fields. `pages.py` writes
it.

It has what a table may hold, for run, fleet and two in one: which stations there are, and what only one of the three
has, the program tells.
"""
from __future__ import annotations

import itertools
import json
from typing import Any

from lte_sec.runs.scenario_fields import MOST_STATIONS, MOST_STEPS, OF_CORE, SETUP, STEPS, Field, of_phone

DIALECT = "https://json-schema.org/draft/2020-12/schema"
PHONES = 256  # of a fleet
WIDTH = 180  # of a line
Schema = dict[str, Any]


def value_of(field: Field) -> Schema:
    """What may stand in a field."""
    left_out = f"; left out it is {field.left_out}" if field.left_out else ""
    return {"description": f"{field.kind.may}{left_out}", **field.kind.schema}


def table_of(fields: list[Field], more: Schema | None = None) -> Schema:
    """A table with these fields."""
    properties = {**(more or {}), **{field.name: value_of(field) for field in fields}}
    required = [*(more or {}), *(field.name for field in fields if not field.left_out)]
    return {"type": "object", "properties": properties, "required": required, "additionalProperties": False}


def applies(field: Field, chosen: dict[str, str]) -> bool:
    return not field.when or chosen.get(field.when[0]) in field.when[1:]


def courses(fields: list[Field]) -> list[tuple[dict[str, str], list[Field]]]:
    """The fields that go together, by the words of those that call for others or rule them out."""
    names = list(dict.fromkeys(field.when[0] for field in fields if field.when))
    words = {name: list(dict.fromkeys(str(word) for field in fields if field.name == name for word in field.kind.schema["enum"])) for name in names}  # type: ignore[attr-defined]
    found = []
    for values in itertools.product(*words.values()):
        chosen = dict(zip(words, values))
        known = [field for field in fields if applies(field, chosen)]
        if all(any(field.name == name and word in field.kind.schema["enum"] for field in known) for name, word in chosen.items()):  # type: ignore[operator]
            found.append((chosen, known))
    return found


def steps_of(do: str, fields: list[Field]) -> list[Schema]:
    """The tables of a step, one for each set of fields that go together."""
    groups: dict[tuple[str, ...], list[tuple[dict[str, str], list[Field]]]] = {}
    for chosen, known in courses(fields):
        first = next(iter(chosen.values()), "")
        groups.setdefault((first, *(field.name for field in known)), []).append((chosen, known))
    found = []
    for courses_of in groups.values():
        known = courses_of[0][1]
        table = table_of(known, {"do": {"const": do}})
        for name in courses_of[0][0]:
            table["properties"][name] = {"enum": list(dict.fromkeys(chosen[name] for chosen, _ in courses_of))}
        table["properties"]["phone"] = value_of(of_phone(PHONES))
        found.append(table)
    return found


def text_of(value: object, indent: int = 0) -> str:
    """A value as JSON, in one line where it is short."""
    line, inner = json.dumps(value), " " * (indent + 2)
    if len(line) + indent <= WIDTH or not isinstance(value, (dict, list)):
        return line
    if isinstance(value, list):
        parts, ends = [text_of(each, indent + 2) for each in value], "[]"
    else:
        parts, ends = [f"{json.dumps(name)}: {text_of(each, indent + 2)}" for name, each in value.items()], "{}"
    return "\n".join([ends[0], ",\n".join(f"{inner}{part}" for part in parts), " " * indent + ends[1]])


def scenario() -> Schema:
    """The schema."""
    tables = {name: table_of(fields) for name, fields in SETUP.items() if name != "station"}
    return {
        "$schema": DIALECT,
        "title": "A scenario of lte_sec run, fleet or two (TOML)",
        "type": "object",
        "required": ["phone", "station"],
        "additionalProperties": False,
        "properties": {
            **tables,
            "station": {
                "type": "array",
                "minItems": 1,
                "maxItems": MOST_STATIONS,
                "items": table_of([*SETUP["station"], OF_CORE]),
            },
            "step": {
                "type": "array",
                "maxItems": MOST_STEPS,
                "items": {"anyOf": [table for do, fields in STEPS.items() for table in steps_of(do, fields)]},
            },
        },
    }
