#!/usr/bin/env python3
"""The tables of records, answers and outcomes on pages, made of what the program `lte_tables` writes and of what the
definitions say of themselves, and the numbers of edits and of rows of the suite that pages tell: python3 docs/tabled.py
writes them. docs/check compares."""
import ast
import pathlib
import re
import sys
from collections import Counter
from collections.abc import Iterator

TOP = pathlib.Path(__file__).resolve().parent.parent
sys.path.insert(0, str(TOP / "python"))
from lte_sec.common import tables  # noqa: E402
from lte_sec.runs import scenario_fields  # noqa: E402
from lte_sec.runs.kinds import CELL, STATION, one_of  # noqa: E402
from lte_sec.runs.scenario_fields import Field  # noqa: E402
from lte_sec.suite import rows as suite_rows  # noqa: E402

README, COMMANDS = TOP / "README.md", TOP / "docs/COMMANDS.md"
FRAMES, SCENARIOS, SUITE, WHATIF = (TOP / f"docs/{name}.md" for name in ("FRAMES", "SCENARIOS", "SUITE", "WHATIF"))
ANSWERS = TOP / "crates/lte_events/src/answers.rt"
OUTCOMES = TOP / "crates/item_outcomes/specs"
FIRST = (0, 20, 30)  # the answers from these numbers on, a row for each
CONNECTION = "connection"
# Outcomes that no definition of their own tells.
OTHERWISE = {
    "goes on": "a line differs, and nothing below is told",
    "coincidence": "the run ends at one; nothing else is told then",
}


def row(*cells: str) -> str:
    return f"| {' | '.join(cells)} |".replace("|  |", "| |")


LIMITS = f"{row('outcome', 'mark', 'a product')}\n"


def records(of: str, behind: str = "") -> Iterator[str]:
    """A row for each record: its kind and message, and its fields with their widths."""
    for kind, (message, fields) in sorted(tables.records(of).items()):
        yield row(
            f"{kind:02x} {message}",
            ", ".join(f"{name} {width}" if width else name for name, width in fields if name != behind),
        )


def answers() -> Iterator[str]:
    """Rows of the answers of actors."""
    for first, after in zip(FIRST, (*FIRST[1:], tables.NETWORK)):
        yield row(
            str(first),
            ", ".join(f"{number} {name}" for number, (name, _) in tables.ANSWERS.items() if first <= number < after),
        )


def meanings() -> Iterator[str]:
    """A row for each answer but `done`: what it keeps, and what it means, as its definition says."""
    said = {
        name: " ".join(comment.replace("///", "").split())
        for comment, name in re.findall(r"((?: +/// .*\n)+) +(\w+)", ANSWERS.read_text())
    }
    for name, values in list(tables.ANSWERS.values())[1:]:
        means = said[name].rstrip(".")
        yield row(f"`{name}`", ", ".join(f"`{value}`" for value, _ in values), means[0].lower() + means[1:])


def outcomes() -> Iterator[str]:
    """A row for each outcome: where it is told, as its definition says."""
    said = {
        name.lower(): told
        for file in OUTCOMES.glob("*.antt")
        for name, told in re.findall(r"^-- ([A-Z][A-Z ]+): (.*)$", file.read_text(), re.MULTILINE)
    }
    for name in tables.OUTCOMES:
        yield row(f"`{name}`", OTHERWISE.get(name) or said[name.lower()])


def coded(text: str) -> str:
    """A text with marks of code around arrays, tables and words in quotes."""
    return re.sub(r"(?<!`)\[.*?\](?!`)", r"`\g<0>`", re.sub('"([^"]*)"', r"`\1`", text))


def may(field: Field) -> str:
    """What may stand in a field."""
    return re.sub("^a number (?=[0-9])| in quotes", "", field.kind.may)


def fields(where: str, of: list[Field]) -> Iterator[str]:
    """A row for each field of a table of a scenario."""
    for field in of:
        yield row(
            where, f"`{field.name}`", coded(field.means.format(may=may(field))), coded(field.left_out) or "refused"
        )
        where = ""


def part(field: Field, is_one: bool) -> str:
    """A field of a step: what may stand there, unless the page says it of all, what it means, and when it is there. Of
    one that is there more than once, for each actor, the actor has it."""
    if not is_one:
        return f"`{field.name}`, one that `{field.when[0]}` has"
    told = "" if field.kind in (STATION, CELL) else f", {may(field)}" if may(field)[0].isalpha() else f" {may(field)}"
    told += f", {field.means}" * bool(field.means) + f", or {field.left_out}" * bool(field.left_out)
    when = f" if `{field.when[0]}` is {one_of([f'`{word}`' for word in field.when[1:]])}" if field.when else ""
    return f"`{field.name}`{coded(told)}{when}"


def steps() -> Iterator[str]:
    """A row for each `do` of a step."""
    for do, of in scenario_fields.STEPS.items():
        names = [field.name for field in of]
        parts = dict.fromkeys(part(field, names.count(field.name) == 1) for field in of)
        yield row(f"`{do}`", scenario_fields.HAPPENS[do], "; ".join(parts))


def setup() -> Iterator[str]:
    """The fields of the setup of a scenario, and where its steps stand."""
    yield from fields("`[phone]`", scenario_fields.SETUP["phone"])
    yield from fields("`[core]`, which may be left out", scenario_fields.SETUP["core"])
    yield from fields(f"`[[station]]`, 1 to {scenario_fields.MOST_STATIONS}", scenario_fields.SETUP["station"])
    yield row(f"`[[step]]`, at most {scenario_fields.MOST_STEPS:,}", "`do`", "what happens, see below", "refused")


# The rows below each head.
ROWS = {
    FRAMES: {
        row("NAS text", "fields"): list(records("nas")),
        row("RRC text", "fields"): list(records("rrc")),
        row("S1", "fields behind the connection"): list(records("s1", CONNECTION)),
        row("X2", "fields behind the connection"): list(records("x2", CONNECTION)),
        row("from", "answers"): list(answers()),
    },
    SCENARIOS: {
        row("table", "field", "value", "if left out"): list(setup()),
        row("`do`", "what happens", "fields in order"): list(steps()),
        row("table of a fleet", "field", "value", "if left out"): [
            *fields("`[fleet]`", scenario_fields.SETUP["fleet"]),
            *fields("`[[step]]`", [scenario_fields.of_phone(1)]),
        ],
        row("table of two cores", "field", "value", "if left out"): list(
            fields("`[[station]]`", [scenario_fields.OF_CORE])
        ),
        row("answer", "keeps", "means"): list(meanings()),
    },
    WHATIF: {row("outcome", "is told where"): list(outcomes())},
}


def many() -> Iterator[tuple[pathlib.Path, str, list[int]]]:
    """Sentences of pages with # for each number, and these numbers."""
    edits = [len(list(TOP.glob(each))) for each in ("crates/*/must-fail/*.edit", "misuse/edits/*/*.edit")]
    yield README, "tries # wrong bodies and runs every test; `misuse/edits/check` tries # more", edits
    table = suite_rows.load(TOP / "examples/suite").rows
    done, by = sum(row.visit.answer == "done" for row in table), Counter(row.reached for row in table)
    short = by["steps"] + by["octets"] + by["forge"]
    yield SUITE, "all #, each with its clauses: # are done, # are refusals", [len(table), done, len(table) - done]
    of_tables = "# of the # rows of the tables of phone, station and core, with `--long` to #,"
    yield SUITE, of_tables, [short, len(table), short + by["long"]]
    yield from ((SUITE, f"| {how} | # |", [by[how]]) for how in suite_rows.REACHED)
    yield COMMANDS, "# passed, 0 differs, # not reached", [short, len(table) - short]


def with_numbers(text: str, sentence: str, numbers: list[int]) -> str:
    """A page whose sentence has these numbers; it may go over lines."""
    pattern = r"\s+".join(re.escape(word).replace(r"\#", r"(\d+)") for word in sentence.split())
    told = re.search(pattern, text)
    if told:
        for group, number in reversed(list(enumerate(numbers, 1))):
            text = text[: told.start(group)] + str(number) + text[told.end(group) :]
    return text


def with_tables(text: str, tables_of: dict[str, list[str]]) -> str:
    """A page with its tables."""
    for head, rows in tables_of.items():
        text = re.sub(
            rf"(?<=^{re.escape(head)}\n)(\|[-|]+\|\n)(?:\|.*\n)*",
            lambda found: found[1] + "".join(f"{each}\n" for each in rows),
            text,
            flags=re.MULTILINE,
        )
    return text


def made() -> dict[pathlib.Path, str]:
    """The pages as they are made."""
    pages = {page: with_tables(page.read_text(), of) for page, of in ROWS.items()}
    for page, sentence, numbers in many():
        pages[page] = with_numbers(pages.get(page) or page.read_text(), sentence, numbers)
    return pages


def marks() -> Iterator[str]:
    """Complaints about marks of limits on the page of what-if with which no outcome is told."""
    told = {
        node.value
        for file in (TOP / "python/lte_sec/whatif").glob("*.py")
        for node in ast.walk(ast.parse(file.read_text()))
        if isinstance(node, ast.Constant)
    }
    rows = WHATIF.read_text().partition(LIMITS)[2].partition("\n\n")[0].splitlines()[1:]
    named = [cells.split(" | ")[1] for cells in rows]
    yield from (f"docs/WHATIF.md: what-if tells no outcome with the mark: {mark}" for mark in named if mark not in told)
    if not named:
        yield f"docs/WHATIF.md lacks the table {LIMITS.strip()}"


def faults() -> Iterator[str]:
    """Complaints about pages that are made otherwise, or that lack what is made."""
    for page, text in made().items():
        name, said = page.relative_to(TOP), page.read_text()
        if said != text:
            yield f"{name} is not as python3 docs/tabled.py makes it"
        yield from (f"{name} lacks the table {head}" for head in ROWS.get(page, {}) if f"{head}\n|-" not in said)
    for page, sentence, numbers in many():
        if with_numbers(page.read_text(), sentence, [10**9] * len(numbers)) == page.read_text():
            yield f"{page.relative_to(TOP)} does not say: {sentence}"
    yield from marks()


if __name__ == "__main__":
    for changed, whole in made().items():
        changed.write_text(whole)
