"""`./lte_sec drive --generate N SEED [OPTION]..`: PROGRAM [OPTION].. drives N scenarios, of the seeds from SEED on, as
`gen` makes them, and makes the first difference small.

Steps are left out as long as a reply still differs at the same row of the same actor (docs/SUITE.md).
"""
from __future__ import annotations

import concurrent.futures
import contextlib
import dataclasses
import os
import signal
import sys
from collections.abc import Generator
from pathlib import Path

from ..common.options import Words, WrongWords
from ..common.pairs import paired
from ..common.terms import TraceError
from ..drive import drive_options, drive_word as drive
from ..drive.network import NoRecord
from ..runs.scenarios import Scenario, Step, setup_text, text, value
from . import rows
from .journeys import generated
from .play import Case, Commands, Result, play
from .suite_word import MOST_JOBS

STEPS, MOST, MOST_SEED = 100, 1_000_000, 2**32 - 1
KNOWN = ("--generate", "--save", "--answers", "--jobs", "--timeout", "--phone", "--station", "--core")
ENDS = ("differs", "failed", "timed out")


class GenerateWords(Words):
    """The words of a call, and what is said of wrong ones."""

    UNKNOWN = "drive --generate takes no option {option}"
    WANTS = "{option} needs a word behind it"


@dataclasses.dataclass
class GenerateOptions:
    """What the words ask for."""

    product: dict[str, list[str]]
    seeds: range
    save: Path | None
    by_answer: bool
    jobs: int
    seconds: float


def read_words(program: str, words: list[str]) -> GenerateOptions:
    given = GenerateWords.read("drive", words)
    for option in given.options:
        if given.has(option) and option not in KNOWN:
            raise WrongWords(GenerateWords.UNKNOWN.format(option=option))
    if any(word != "done" for word in given.options["--answers"]):
        raise WrongWords("--answers takes done: a refusal is then the right one whatever its cause")
    if len(given.others) != 1 or not given.others[0].isdecimal() or int(given.others[0]) > MOST_SEED:
        raise WrongWords(f"drive --generate takes how many scenarios and a seed up to {MOST_SEED}, as --generate 20 7")
    count, seed = given.number("--generate", 1, MOST), int(given.others[0])
    product = {
        name.removeprefix("LTE_SEC_").lower().replace("_", " "): command.split("\n")
        for name, command in drive_options.variables(given).items()
    }
    return GenerateOptions(
        product=product or {actor: [program] for actor in rows.ACTORS},
        seeds=range(seed, min(seed + count, MOST_SEED + 1)),
        save=Path(given.last("--save")) if given.has("--save") else None,
        by_answer=given.has("--answers"),
        jobs=given.number("--jobs", 2 * (os.cpu_count() or 1), MOST_JOBS),
        seconds=[drive.PATIENCE, *map(drive_options.seconds, given.options["--timeout"])][-1],
    )


def written(scenario: Scenario, comment: str) -> str:
    return f"# {comment}\n" + text(setup_text(scenario.setup), [value(step) for step in scenario.steps])


class Generated:
    """Scenarios that are driven, and made small."""

    def __init__(self, program: str, options: GenerateOptions):
        self.options = options
        self.commands = Commands([program], options.product, options.seconds)

    def first(self, scenario: Scenario) -> Result | None:
        """What ends a scenario first, if anything does: a reply that differs, or an actor that fails."""
        results = [
            each
            for each in play(Case("", scenario), self.commands, self.options.by_answer).results
            if each.outcome in ENDS
        ]
        return min(results, key=lambda each: each.step or 0) if results else None

    def runs(self) -> Generator[tuple[int, Result | None], None, None]:
        """Each seed with what ended its scenario, in their order."""
        with concurrent.futures.ThreadPoolExecutor(self.options.jobs) as pool:
            tried = [pool.submit(self.first, generated(STEPS, seed)) for seed in self.options.seeds]
            try:
                yield from ((seed, ran.result()) for seed, ran in paired(self.options.seeds, tried))
            finally:
                self.commands.is_stopped = True
                pool.shutdown(cancel_futures=True)
                self.commands.is_stopped = False

    def stays(self, scenario: Scenario, found: Result) -> bool:
        """Whether the same row still differs first."""
        try:
            result = self.first(scenario)
        except NoRecord:
            return False
        return result is not None and (result.visit, result.outcome) == (found.visit, found.outcome)

    def small(self, scenario: Scenario, found: Result) -> Scenario:
        """The scenario up to the difference, without the steps that it does not need: pieces are left out, first long
        ones."""
        steps = scenario.steps[: (found.step or 0) + 1]
        size = max(1, len(steps) // 2)
        while size:
            place = 0
            while place < len(steps):
                less = steps[:place] + steps[place + size :]
                if less and self.stays(Scenario(scenario.setup, less), found):
                    steps = less
                else:
                    place += size
            size //= 2
        return Scenario(scenario.setup, steps)


def told(result: Result, steps: list[Step]) -> str:
    place = "setup" if result.step is None else f"step {result.step} of {len(steps)}"
    return f"{result.outcome}: {result.visit} | {place}: {'; '.join(result.told[:1])}"


def saved(folder: Path | None, name: str, scenario: Scenario, comment: str) -> None:
    if folder is None:
        return
    try:
        folder.mkdir(parents=True, exist_ok=True)
        (folder / f"{name}.toml").write_text(written(scenario, comment), encoding="utf-8")
    except OSError as why:
        raise WrongWords(f"--save: {folder} cannot be written: {why.strerror}") from None


def answered(program: str, options: GenerateOptions) -> int:
    """Drives, and tells each scenario in a line, up to the first that an actor ends; the status."""
    own = Generated(program, options)
    with contextlib.closing(own.runs()) as runs:
        for seed, result in runs:
            scenario = generated(STEPS, seed)
            saved(options.save, f"seed-{seed}", scenario, f"gen {STEPS} {seed}, with a core that sends NCC 2 first")
            print(
                f"seed {seed}: {told(result, scenario.steps) if result else f'{STEPS} steps, no reply differs'}",
                flush=True,
            )
            if result:
                break
        else:
            return 0
    return made_small(own, seed, scenario, result) if result.outcome == "differs" else 6


def made_small(own: Generated, seed: int, scenario: Scenario, result: Result) -> int:
    """Makes a difference small, and prints the scenario that is left; the status."""
    less = own.small(scenario, result)
    comment = (
        f"Of gen {STEPS} {seed}, with a core that sends NCC 2 first: the steps that the difference needs, at "
        f"{result.visit}."
    )
    saved(own.options.save, f"seed-{seed}-small", less, comment)
    print(f"{told(own.first(less) or result, less.steps)}\n{written(less, comment)}", end="")
    return 8


def main() -> int:
    program, *words = sys.argv[1:]
    for number in (signal.SIGTERM, signal.SIGHUP):
        signal.signal(number, signal.default_int_handler)
    try:
        options = read_words(program, words)
        with contextlib.suppress(BrokenPipeError):  # whoever read what is printed has read enough
            return answered(program, options)
        return 0
    except TraceError as why:
        print(f"lte_sec: status 2: {why}", file=sys.stderr)
        return 2
    except KeyboardInterrupt:
        return 130


if __name__ == "__main__":
    sys.exit(main())
