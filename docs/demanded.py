#!/usr/bin/env python3
"""Makes docs/DEMANDS.md of the demands in docs/demands: docs/demanded.py --write. Without it prints what is wrong with
them, and ends with 1 where something is.

Each definition, row, law, scenario, crate of vectors and module of tests that they name must be there, each row of the
suite and each procedure be named, and what is covered have a test.
"""
from __future__ import annotations

import pathlib
import re
import sys
from collections.abc import Iterable, Iterator

TOP = pathlib.Path(__file__).resolve().parent.parent
sys.path.insert(0, str(TOP / "python"))

from lte_sec.runs import demands
from lte_sec.suite import rows  # noqa: E402
from lte_sec.runs.demands import Demand  # noqa: E402

PAGE = TOP / "docs" / "DEMANDS.md"
SUITE = TOP / "examples" / "suite"
PROCEDURES = TOP / "examples" / "procedures"
MEANS = {
    "covered": "the written machine, or the library and `calc`, do it, and a test shows it",
    "partly": "a part of it; the remark says which",
    "otherwise": "this profile departs from it ([MACHINE](MACHINE.md#where-the-profile-leaves-the-standards))",
    "traces": "`check-trace` alone judges it",
    "left out": "nowhere, or in the library alone",
}
HEAD = """# The demands of the standards, and where each is here

For whoever knows the standards and asks which of their demands this project has, by which definition, row, law and test, and where it departs. The demands are those of TS 33.401 clauses 5.1 and 6 to 8
and Annexes A and B (Release 15), in our words. **All clauses, and all names of test cases, are from memory**: no document was at hand. A clause without a document is of TS 33.401.

*Here* has the state, definitions, as CRATE/FILE.NAME of `crates/CRATE/specs/FILE.antt`, and laws that are proved ([PROPERTIES](PROPERTIES.md)). What tries a demand stands in [docs/demands](demands), of which
`docs/demanded.py` makes this page: rows of the [suite](SUITE.md), scenarios of [examples](../examples/README.md), vectors, and modules of `python/tests`, which try `check-trace`. `./lte_sec demands 7.2.4` prints
all that stands below a clause, as JSON with `--json`. `docs/check` sees that all that is named there is, that each row of the suite and each [procedure](PROCEDURES.md) is named, and that what is covered has a test.
"""


def is_defined(name: str) -> bool:
    """Whether a definition is there: CRATE/FILE, with .NAME behind it."""
    place, _, word = name.partition(".")
    crate, _, file = place.partition("/")
    path = TOP / "crates" / crate / "specs" / f"{file}.antt"
    return path.exists() and (
        not word or re.search(rf"^(?:\w+ )*{word}\b", path.read_text(encoding="utf-8"), re.MULTILINE) is not None
    )


def functions() -> set[str]:
    """The functions of all crates, by which laws are named."""
    return {
        name
        for file in TOP.glob("crates/*/src/**/*.rt")
        for name in re.findall(r"^ *pub fn (\w+)", file.read_text(encoding="utf-8"), re.MULTILINE)
    }


def rows_of(names: list[str]) -> list[str]:
    """The rows that are named, or their beginnings: behind an input stands an answer, or several with commas."""
    found: list[str] = []
    for name in names:
        came, _, answers = name.rpartition(" | ")
        several = answers.split(", ")
        found += [f"{came} | {answer}" for answer in several] if all(answer.isalpha() for answer in several) else [name]
    return found


def begins(row: str, name: str) -> bool:
    """Whether a row is the one that is named, or one of an input and an answer that is."""
    return row == name or name.count(" | ") == 2 and row.startswith(f"{name}: ")


def faults_of(demand: Demand, known: set[str], table: list[str]) -> Iterator[str]:
    """What is wrong with one demand."""
    evidence = demand.evidence
    yield from (f"there is no definition {name}" for name in evidence["by"] if not is_defined(name))
    yield from (
        f"there is no row {name}" for name in rows_of(evidence["rows"]) if not any(begins(row, name) for row in table)
    )
    yield from (f"there is no law {name}" for name in evidence["law"] if name not in known)
    yield from (f"there is no scenario {name}" for name in evidence["scenario"] if not scenario(name).exists())
    yield from (
        f"there is no crate {name}"
        for name in evidence["vectors"]
        if not (TOP / "crates" / name / "README.md").exists()
    )
    yield from (
        f"there is no module {name}"
        for name in evidence["trace"]
        if not (TOP / "python" / "tests" / f"{name}.py").exists()
    )
    if demand.state == "covered" and not any(evidence[kind] for kind in demands.TESTS):
        yield "it is covered, and no test is named"
    if demand.state in ("partly", "otherwise") and not evidence["remark"]:
        yield f"it is {demand.state}, and no remark says how"


def scenario(name: str) -> pathlib.Path:
    return TOP / "examples" / f"{name}.{'out' if name.startswith('audit/') else 'toml'}"


def faults() -> Iterator[str]:
    """What is wrong with the demands, and with the page."""
    try:
        found = demands.load()
    except demands.NoDemand as unread:
        yield f"docs/demands: {unread}"
        return
    known, table = functions(), [str(row.visit) for row in rows.load(SUITE).rows]
    for demand in found:
        yield from (
            f"docs/demands: {demand.clause} ({demand.text[:40]}..): {fault}"
            for fault in faults_of(demand, known, table)
        )
    named = {kind: {name for demand in found for name in demand.evidence[kind]} for kind in demands.EVIDENCE}
    asked = rows_of(list(named["rows"]))
    yield from (
        f"docs/demands: no demand names the row {row}" for row in table if not any(begins(row, name) for name in asked)
    )
    yield from (
        f"docs/demands: no demand names the procedure {file.stem}"
        for file in sorted(PROCEDURES.glob("*.toml"))
        if f"procedures/{file.stem}" not in named["scenario"]
    )
    if not PAGE.exists() or PAGE.read_text(encoding="utf-8") != page(found):
        yield "docs/DEMANDS.md is not what docs/demanded.py --write makes"


def code(names: Iterable[str]) -> str:
    return ", ".join(f"`{name}`" for name in names).replace("|", "\\|")


def row(demand: Demand) -> str:
    evidence = demand.evidence
    by = "; ".join(part for part in (code(evidence["by"]), code(evidence["law"])) if part)
    here = f"**{demand.state}**{': ' * bool(evidence['remark'])}{' '.join(evidence['remark'])}"
    return f"| {demand.clause} ({demand.who}) | {demand.text} | {'; '.join(part for part in (here, by) if part)} |"


def page(found: list[Demand]) -> str:
    """The page."""
    counts = demands.counted(found)
    lines = [
        HEAD,
        f"| {len(found)} demands | | |",
        "|---|---|---|",
        *(f"| {state} | {count} | {MEANS[state]} |" for state, count in counts.items()),
    ]
    for group in dict.fromkeys(demand.group for demand in found):
        lines += ["", f"## {group}", "", "| clause, of whom | demand | here |", "|---|---|---|"]
        lines += [row(demand) for demand in found if demand.group == group]
    cases: dict[str, list[str]] = {}
    for demand in found:
        for name in demand.evidence["assurance"]:
            cases.setdefault(name, []).append(f"{demand.clause} ({demand.state})")
    lines += [
        "",
        "## Test cases of security assurance",
        "",
        "| TS 33.116 (MME), TS 33.216 (eNB) | the demands beside it |",
        "|---|---|",
    ]
    lines += [f"| {name} | {', '.join(dict.fromkeys(clauses))} |" for name, clauses in sorted(cases.items())]
    return "\n".join(lines) + "\n"


def main(words: list[str]) -> int:
    if words == ["--write"]:
        PAGE.write_text(page(demands.load()), encoding="utf-8")
        return 0
    if words:
        print("demanded: it takes --write, or no words", file=sys.stderr)
        return 2
    found = list(faults())
    for fault in found:
        print(fault)
    return int(bool(found))


if __name__ == "__main__":
    sys.exit(main(sys.argv[1:]))
