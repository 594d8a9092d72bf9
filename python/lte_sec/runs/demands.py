"""The demands of the standards, and where each is here: `./lte_sec demands [--json] [CLAUSE]`. docs/demands has them,
and docs/DEMANDS.md is made of it."""
from __future__ import annotations

import json
import re
import sys
from collections import Counter
from collections.abc import Iterator
from dataclasses import dataclass, field
from pathlib import Path
from typing import Any

from ..common.options import Words, WrongWords

TABLE = Path(__file__).resolve().parents[3] / "docs" / "demands"
STATES = ("covered", "partly", "otherwise", "traces", "left out")
# What a line below a demand begins with, and what parts the names behind it.
EVIDENCE = {
    "by": ",",
    "rows": ";",
    "law": ",",
    "scenario": ",",
    "vectors": ",",
    "trace": ",",
    "assurance": ";",
    "remark": "",
}
TESTS = ("rows", "scenario", "vectors", "trace")
HOME = "33.401"  # the document of a clause that names none
VERSION = 1  # of the document that --json prints
NUMBERED = re.compile(r"(.*\.)(\d+) to \1(\d+)")


class NoDemand(Exception):
    """A line of the file that is no demand, and why."""


@dataclass
class Demand:
    """A demand in our words: its clauses, of whom it is, the group that it stands in, its state here, and what says
    so."""

    clause: str
    who: str
    state: str
    text: str
    group: str
    evidence: dict[str, list[str]] = field(default_factory=lambda: {kind: list[str]() for kind in EVIDENCE})

    def clauses(self) -> Iterator[str]:
        """Each of its clauses; one without a document is of TS 33.401."""
        document = ""
        for part in self.clause.split(", "):
            first, _, rest = part.partition(" ")
            document, part = (first, rest) if re.fullmatch(r"\d\d\.\d\d\d", first) else (document, part)
            among = NUMBERED.fullmatch(part)
            numbers = [f"{among[1]}{number}" for number in range(int(among[2]), int(among[3]) + 1)] if among else [part]
            yield from (f"{document or HOME} {number}" for number in numbers)

    def is_below(self, clause: str) -> bool:
        """Whether one of its clauses is this one or stands below it."""
        return any(f"{own}.".startswith(f"{clause}.") for own in self.clauses())

    def document(self) -> dict[str, Any]:
        own = {"clause": self.clause, "who": self.who, "state": self.state, "demand": self.text, "group": self.group}
        return {**own, **self.evidence, "remark": " ".join(self.evidence["remark"]) or None}

    def lines(self) -> Iterator[str]:
        yield f"{self.clause} | {self.who} | {self.state} | {self.text}"
        for kind, names in self.evidence.items():
            if names:
                yield f"    {kind}: {f'{EVIDENCE[kind]} '.join(names)}"


def read(text: str) -> list[Demand]:
    """The demands of a file, in their order."""
    found: list[Demand] = []
    group = ""
    for number, line in enumerate(text.splitlines(), 1):
        if not line.strip() or line.startswith("#"):
            continue
        if line.startswith("== "):
            group = line[3:]
        elif line.startswith("    ") and found:
            kind, _, names = line.strip().partition(" ")
            if kind not in EVIDENCE or not names:
                raise NoDemand(f"line {number}: a line below a demand begins with {', '.join(EVIDENCE)}")
            mark = EVIDENCE[kind]
            found[-1].evidence[kind] += [name.strip() for name in names.split(mark)] if mark else [names]
        else:
            parts = line.split(" | ", 3)
            if len(parts) != 4 or parts[2] not in STATES or not group:
                raise NoDemand(
                    f"line {number}: a demand is its clause, of whom, one of {', '.join(STATES)}, and its text, with "
                    "| between, in a group"
                )
            clause, who, state, told = parts
            found.append(Demand(clause, who, state, told, group))
    return found


def load(table: Path = TABLE) -> list[Demand]:
    return read(table.read_text(encoding="utf-8"))


def asked(words: list[str]) -> str:
    """A clause as it is asked for, as `TS 33.401 7.2.8`, `24.301 5.4.3` or `7.2.8`."""
    clause = " ".join(words).removeprefix("TS ").strip().rstrip(".")
    return clause if not clause or re.match(r"\d\d\.\d\d\d ", clause) else f"{HOME} {clause}"


def counted(demands: list[Demand]) -> dict[str, int]:
    counts = Counter(demand.state for demand in demands)
    return {state: counts[state] for state in STATES}


def document(demands: list[Demand]) -> dict[str, Any]:
    """The document that --json prints."""
    return {"version": VERSION, "demands": [demand.document() for demand in demands], "counts": counted(demands)}


def main(words: list[str]) -> int:
    try:
        given = Words.read("demands", words)
        clause = asked(given.others)
        found = [demand for demand in load() if not clause or demand.is_below(clause)]
        if not found:
            raise WrongWords(
                f"no demand is of TS {clause}; docs/DEMANDS.md has them all, as ./lte_sec demands prints them"
            )
    except WrongWords as wrong:
        print(f"lte_sec: status 2: demands: {wrong}", file=sys.stderr)
        return 2
    if given.has("--json"):
        print(json.dumps(document(found), indent=1))
        return 0
    for demand in found:
        print(*demand.lines(), sep="\n")
    print(", ".join(f"{count} {state}" for state, count in counted(found).items() if count))
    return 0


if __name__ == "__main__":
    sys.exit(main(sys.argv[1:]))
