"""Scenarios of `run` as values, and written as texts again."""
from __future__ import annotations

import json
import sys
from dataclasses import dataclass
from typing import Any

Step = dict[str, Any]


class NoScenario(Exception):
    """Why a text is no scenario that can be read here."""


@dataclass(frozen=True)
class Scenario:
    """A scenario: its setup as it stands, with all its fields, and its steps."""

    setup: dict[str, Any]
    steps: list[Step]

    @property
    def cells(self) -> dict[tuple[int, int], int]:
        """The station of each cell."""
        return {(pci, earfcn): station["id"] for station in self.setup["station"] for pci, earfcn in station["cells"]}

    @property
    def stations(self) -> dict[int, list[int]]:
        """The first cell of each station."""
        return {station["id"]: station["cells"][0] for station in self.setup["station"]}


def read(octets: bytes) -> Scenario:
    """A scenario that the program takes."""
    table = table_of(octets)
    return Scenario({name: value for name, value in table.items() if name != "step"}, table.get("step", []))


def table_of(octets: bytes) -> dict[str, Any]:
    """The document by Python's own reader, which is fast; by that of this package where Python has none, and of what is
    new in TOML 1.1."""
    if sys.version_info >= (3, 11):
        import tomllib

        try:
            return tomllib.loads(octets.decode())
        except (ValueError, RecursionError):
            pass
    from . import document  # which few scenarios need

    try:
        table: dict[str, Any] = document.plain(document.read(octets))
    except document.TextFault as wrong:
        raise NoScenario(f"this is no document: {wrong}") from None
    except document.TooManyValues:
        raise NoScenario(f"this document has more than {document.MOST_VALUES:,} values") from None
    return table


def value(it: Any) -> str:
    """A value of TOML in one line."""
    if isinstance(it, dict):
        return "{ " + ", ".join(f"{key(name)} = {value(part)}" for name, part in it.items()) + " }"
    if isinstance(it, list):
        return "[" + ", ".join(map(value, it)) + "]"
    return json.dumps(it) if isinstance(it, (str, bool, int, float)) else str(it)


def key(name: str) -> str:
    """A key of TOML, bare where it may be."""
    return name if name.isascii() and name.replace("_", "").replace("-", "").isalnum() else json.dumps(name)


def setup_text(setup: dict[str, Any]) -> str:
    """The setup as lines of a scenario."""
    return "".join(f"{key(name)} = {value(it)}\n" for name, it in setup.items())


def text(setup: str, steps: list[str]) -> str:
    """A scenario of this setup and these steps, each a table in one line."""
    return f"{setup}step = [\n" + "".join(f"  {step},\n" for step in steps) + "]\n"
