"""The report of `drive --suite`: what became of each row, by rows, by the clauses of the standards and as one document
(docs/SUITE.md)."""
from __future__ import annotations

import collections
import json
import os
import platform
import re
import sys
from collections.abc import Iterator
from typing import Iterable, NamedTuple

from ..common import about
from ..common.pairs import paired
from ..pages.trace_page import Json
from .allowances import Allowed, group_of
from .play import Played, Result
from .rows import Row, Table, Visit

VERSION = 1  # of the document that --json prints
OUTCOMES = ("passed", "differs", "allowed", "failed", "timed out", "not compared", "not reached")
WORST = (
    "differs",
    "allowed",
    "failed",
    "timed out",
    "passed",
    "not compared",
)  # of a row that is visited more than once, what counts
TOLD = ("differs", "allowed", "failed", "timed out")  # outcomes with a place and a reason


class Ran(NamedTuple):
    """A run of the suite: by whom, with which words, and when it began and for how long it went, in seconds."""

    proved: bool
    words: list[str]
    began: str
    seconds: float


def told_by(results: Iterable[Result], allowed: list[Allowed]) -> dict[Visit, Result]:
    """What became of each row: the first visit of the outcome that counts most."""
    found: dict[Visit, Result] = {}
    for result in results:
        if result.outcome == "differs" and (group := group_of(result, allowed)) is not None:
            result = result._replace(
                outcome="allowed", told=[f"{group}: {line}" if group else line for line in result.told]
            )
        if result.visit not in found or WORST.index(result.outcome) < WORST.index(found[result.visit].outcome):
            found[result.visit] = result
    return found


def entry_of(row: Row | None, visit: Visit, result: Result | None) -> Json:
    """A row as the document has it."""
    clause = row.clause if row else ""
    entry: Json = {
        **visit._asdict(),
        "row": str(visit),
        "clause": clause,
        "outcome": result.outcome if result else "not reached",
    }
    entry |= {
        "scenario": result.name if result else None,
        "step": result.step if result else None,
        "told": result.told if result else [],
    }
    return entry | {"reason": f"{row.reached}: {row.why}" if row and not result and row.why else ""}


def entries_of(table: Table, results: list[Result], allowed: list[Allowed], actors: list[str]) -> list[Json]:
    """An entry for each row of the actors that are driven, in the order of the table; first those that are no row, as a
    Setup."""
    found = told_by(results, allowed)
    known = {row.visit for row in table.rows}
    others = [entry_of(None, visit, result) for visit, result in found.items() if visit not in known]
    return others + [entry_of(row, row.visit, found.get(row.visit)) for row in table.rows if row.visit.actor in actors]


def place_of(entry: Json) -> str:
    return f"{entry['scenario']}, {'setup' if entry['step'] is None else 'step ' + str(entry['step'])}"


def why(entry: Json) -> str:
    """Why a row is not simply passed."""
    if entry["outcome"] in TOLD:
        return f"{place_of(entry)}: {'; '.join(entry['told'][:1])}"
    if entry["outcome"] == "not compared":
        return f"{place_of(entry)}: behind a reply that differs or did not come"
    return str(entry["reason"])


def line_of(entry: Json) -> str:
    """The line of a row."""
    text = f"{entry['outcome']:<12} {entry['row']}"
    if entry["outcome"] == "not reached":
        return text + (f" ({entry['reason']})" if entry["reason"] else "")
    if entry["outcome"] == "passed":
        return text
    return f"{text} | {why(entry)}" + (f" ({entry['clause']})" if entry["clause"] and entry["outcome"] in TOLD else "")


def counts_of(entries: Iterable[Json]) -> dict[str, int]:
    """How many rows there are of each outcome, in the order of OUTCOMES."""
    counted = collections.Counter(entry["outcome"] for entry in entries)
    return {outcome: counted[outcome] for outcome in OUTCOMES}


def status_of(counts: dict[str, int]) -> int:
    """6 where an actor failed or its time was over, 8 where a reply differs, else 0."""
    return 6 if counts["failed"] or counts["timed out"] else 8 if counts["differs"] else 0


def shown(counts: dict[str, int]) -> list[str]:
    """The outcomes that a table has."""
    return [outcome for outcome in OUTCOMES if counts[outcome] or outcome in ("passed", "differs")]


def in_words(counts: dict[str, int]) -> str:
    return ", ".join(f"{counts[outcome]} {outcome}" for outcome in shown(counts))


# By clause


def clauses_of(text: str) -> Iterator[str]:
    """The clauses of a row, each with its standard: those behind a standard are of it."""
    standard = ""
    for part in text.split(", ") if text else ():
        form = re.fullmatch(r"(TS [\d.]+) (.+)", part)
        standard = form[1] + " " if form else standard
        yield standard + (form[2] if form else part)


def order_of(clause: str) -> list[tuple[int, str]]:
    """Where a clause stands among others: numbers by what they count."""
    return [(int(part), "") if part.isdigit() else (10**6, part) for part in re.split(r"[. ]", clause)]


def by_clause(entries: list[Json]) -> list[Json]:
    """How many rows of each clause there are of each outcome, in the order of the standards."""
    found: dict[str, list[Json]] = {}
    for entry in entries:
        for clause in dict.fromkeys(clauses_of(entry["clause"])):
            found.setdefault(clause, []).append(entry)
    return [
        {"clause": clause, "rows": len(found[clause]), **counts_of(found[clause])}
        for clause in sorted(found, key=order_of)
    ]


def clause_lines(document: Json) -> Iterator[str]:
    """The table by clause, in lines."""
    outcomes = shown(document["counts"])
    for each in [
        {"clause": "clause", "rows": "rows", **{outcome: outcome for outcome in outcomes}},
        *document["clauses"],
    ]:
        yield f"{each['clause']:<24}{each['rows']:>6}" + "".join(f"{each[outcome]:>14}" for outcome in outcomes)


# The document


def environment() -> Json:
    return {
        "python": platform.python_version(),
        "system": platform.platform(),
        "machine": platform.machine(),
        "processors": os.cpu_count(),
    }


def document(entries: list[Json], runs: list[Played], names: list[str], ran: Ran) -> Json:
    """The document that --json prints, of which all others are made."""
    counts = counts_of(entries)
    return {
        "version": VERSION,
        "status": status_of(counts),
        "made": {"by": "lte_sec", "version": about.version(), "proved": ran.proved},
        "command": ran.words,
        "began": ran.began,
        "seconds": round(ran.seconds, 3),
        "environment": environment(),
        "counts": counts,
        "clauses": by_clause(entries),
        "scenarios": [{"name": name, "seconds": round(run.seconds, 3)} for name, run in paired(names, runs)],
        "rows": entries,
    }


def printed(document: Json, is_json: bool, by_clauses: bool) -> str:
    if is_json:
        return json.dumps(document, indent=1) + "\n"
    lines = clause_lines(document) if by_clauses else map(line_of, document["rows"])
    return "\n".join([*lines, in_words(document["counts"])]) + "\n"


def put(text: str) -> None:
    sys.stdout.write(text)
    sys.stdout.flush()
