"""`./lte_sec drive --suite [OPTION]..`: PROGRAM KIND [OPTION].. drives the scenarios of examples/suite, and tells of
each row of the tables what became of it (docs/SUITE.md).

KIND is `proved` or `unproved`, as the program is built.
"""
from __future__ import annotations

import concurrent.futures
import contextlib
import dataclasses
import os
import pathlib
import signal
import sys
import time

from lte_sec.suite import allowances as allowed, junit, rows, suite_page, suite_report
from lte_sec.drive import drive_options, drive_word as drive
from lte_sec.pages import page as pages
from lte_sec.runs import scenarios
from lte_sec.drive.network import steps_of
from lte_sec.common.options import Words, WrongWords
from lte_sec.common.pairs import paired
from lte_sec.suite.play import Case, Commands, Played, play
from lte_sec.common.terms import TraceError
from lte_sec.pages.trace_page import Json

SUITE = pathlib.Path(__file__).resolve().parents[3] / "examples" / "suite"
MOST_JOBS = 256


class SuiteWords(Words):
    """The words of a call, and what is said of wrong ones."""

    UNKNOWN = "drive --suite takes no option {option}"
    WANTS = "{option} needs a word behind it"


@dataclasses.dataclass
class SuiteOptions:
    """What the words ask for."""

    product: dict[str, list[str]] = dataclasses.field(default_factory=dict)
    allowed: list[allowed.Allowed] = dataclasses.field(default_factory=list)
    names: list[str] = dataclasses.field(default_factory=list)
    by_answer: bool = False
    is_each: bool = False
    is_long: bool = False
    is_json: bool = False
    by_clauses: bool = False
    junit: str = ""
    html: str = ""
    jobs: int = 1
    seconds: float = drive.PATIENCE

    @property
    def actors(self) -> list[str]:
        """The actors whose rows are told."""
        return [actor for actor in rows.ACTORS if any(name.split()[0] == actor for name in self.product)]


def read_words(program: str, words: list[str]) -> SuiteOptions:
    """The options of the words; without an actor, all are the program's own."""
    given = SuiteWords.read("drive", words)
    if given.others:
        raise WrongWords(f"drive --suite takes no FILE, as {given.others[0]}")
    if any(word != "done" for word in given.options["--answers"]):
        raise WrongWords("--answers takes done: a refusal is then the right one whatever its cause")
    product = {
        name.removeprefix("LTE_SEC_").lower().replace("_", " "): command.split("\n")
        for name, command in drive_options.variables(given).items()
    }
    if given.has("--html"):
        pages.writable(pathlib.Path(given.last("--html")))
    return SuiteOptions(
        product=product or {actor: [program] for actor in rows.ACTORS},
        allowed=[row for word in given.options["--allow"] for row in allowed.of_word(word)],
        names=given.options["--scenario"],
        by_answer=given.has("--answers"),
        is_each=given.has("--each"),
        is_long=given.has("--long"),
        is_json=given.has("--json"),
        by_clauses=given.has("--clauses"),
        junit=given.last("--junit"),
        html=given.last("--html"),
        jobs=given.number("--jobs", 2 * (os.cpu_count() or 1), MOST_JOBS),
        seconds=[drive.PATIENCE, *map(drive_options.seconds, given.options["--timeout"])][-1],
    )


def cases_of(options: SuiteOptions) -> list[Case]:
    """The scenarios of the suite, in the order of their names."""
    files = sorted((SUITE / "scenarios").glob("*.toml"))
    files += sorted((SUITE / "long").glob("*.toml")) if options.is_long else []
    known = {file.stem: file for file in [*files, *(SUITE / "long").glob("*.toml")]}
    for name in options.names:
        if name not in known:
            raise WrongWords(f"--scenario: the suite has no scenario {name}; examples/suite/scenarios has them")
    files = [known[name] for name in options.names] or files
    cases = [Case(file.stem, scenarios.read(file.read_bytes())) for file in files]
    there = sorted({str(number) for case in cases for number in case.scenario.stations})
    for number in (name.split()[1] for name in options.product if name.startswith("station ")):
        if number not in there:
            raise WrongWords(
                f"--station {number}=CMD: no scenario that is driven has station {number}, but {drive.listed(there)}"
            )
    return cases


def played(cases: list[Case], commands: Commands, options: SuiteOptions) -> list[Played]:
    """All cases, so many at once, in their order."""
    with concurrent.futures.ThreadPoolExecutor(options.jobs) as pool:
        tried = [pool.submit(play, case, commands, options.by_answer) for case in cases]
        try:
            return [ran.result() for ran in tried]
        except BaseException:
            commands.is_stopped = True
            pool.shutdown(cancel_futures=True)
            raise


def cut(cases: list[Case], runs: list[Played], table: rows.Table) -> list[Case]:
    """A case for each row: the scenario that comes to it soonest, up to it, without the steps that changed nothing."""
    best: dict[rows.Visit, tuple[Case, list[int]]] = {}
    for case, run in paired(cases, runs):
        for result in run.results:
            last = result.step or 0
            needed = [place for place in range(last) if place in run.busy] + [last]
            if result.visit not in best or len(needed) < len(best[result.visit][1]):
                best[result.visit] = case, needed
    found = []
    for case, numbers in (best[row.visit] for row in table.rows if row.visit in best):
        steps = list(steps_of(case.scenario.steps))
        found.append(
            Case(case.name, scenarios.Scenario(case.scenario.setup, [steps[place] for place in numbers]), numbers)
        )
    return found


def told(table: rows.Table, cases: list[Case], program: str, options: SuiteOptions, ran: suite_report.Ran) -> Json:
    """The document of a run."""
    began = time.monotonic()
    if options.is_each:
        own = {actor: [program] for actor in rows.ACTORS}
        cases = cut(cases, played(cases, Commands([program], own, options.seconds), options), table)
    runs = played(cases, Commands([program], options.product, options.seconds), options)
    entries = suite_report.entries_of(
        table, [result for run in runs for result in run.results], options.allowed, options.actors
    )
    return suite_report.document(
        entries, runs, [case.name for case in cases], ran._replace(seconds=time.monotonic() - began)
    )


def written(document: Json, options: SuiteOptions) -> None:
    """Writes the files that are asked for."""
    if options.junit:
        junit.write(options.junit, suite_page.suites_of(document))
    if options.html:
        pages.write(pathlib.Path(options.html), suite_page.html(document))


def main() -> int:
    program, kind, *words = sys.argv[1:]
    ran = suite_report.Ran(kind == "proved", ["lte_sec", "drive", *words], time.strftime("%Y-%m-%dT%H:%M:%S"), 0)
    try:
        options = read_words(program, words)
        table, cases = rows.load(SUITE), cases_of(options)
    except (TraceError, rows.Unread) as why:
        print(f"lte_sec: status 2: {why}", file=sys.stderr)
        return 2
    for number in (signal.SIGTERM, signal.SIGHUP):
        signal.signal(number, signal.default_int_handler)
    try:
        document = told(table, cases, program, options, ran)
    except KeyboardInterrupt:
        return 130
    with contextlib.suppress(BrokenPipeError):  # whoever read what is printed has read enough
        suite_report.put(suite_report.printed(document, options.is_json, options.by_clauses))
    try:
        written(document, options)
    except TraceError as why:
        print(f"lte_sec: status 5: {why}", file=sys.stderr)
        return 5
    return int(document["status"])


if __name__ == "__main__":
    sys.exit(main())
