"""The word `what-if` of the launcher: `RUN VARIANTS [OPTION].. [SCENARIO]`, or `RUN VARIANTS --merge FILE..`, by the
programs of `run` and of variants. docs/WHATIF.md has its answer."""
from __future__ import annotations

import hashlib
import json
import os
import subprocess
import sys
from pathlib import Path
from typing import Any, NamedTuple

from ..common.inputs import of_file, of_input
from ..common.options import Words, WrongWords
from ..common.terms import TraceError
from ..runs.courses import ProgramFails
from ..runs.remarks import frames_of
from ..runs.scenarios import NoScenario, read
from ..runs.variants import KINDS
from . import goals, parts, resumption as resumed
from .chart import name_of
from .goals import Goal, Search
from .named_messages import steps_of
from .outcomes import RANK, USUAL_BAD
from .spread import Gathering, Share
from .study import Study
from .variant_lists import TOO_MANY, Lists, TooManySteps
from .what_if_document import Answer, table, to_json

MOST_FAULTS, MOST_JOBS, BAD, WORDS, REFUSED, FAILS, ENDED, STOPPED = 3, 256, 1, 2, 3, 6, 7, 130
NOT_WITH_GOAL = ("--faults", "--part", "--lines", "--picture", "--html", "--merge", "--bad", "--resume", "--out")
NOT_WITH_RESUME = ("--part", "--lines", "--merge", "--save")
REASONS = Path(__file__).resolve().parents[3] / "launcher" / "reasons"


class Programs(NamedTuple):
    """The program of `run`, and that which lists variants."""

    run: str
    variants: str


class WhatIfWords(Words):
    """The words of a call, and what stands in them."""

    def kinds(self) -> tuple[str, ...]:
        given = self.last("--kinds", ",".join(KINDS)).split(",")
        for kind in given:
            if kind not in KINDS:
                raise WrongWords(f"--kinds takes {', '.join(KINDS)}, with commas between, and not '{kind}'")
        return tuple(kind for kind in KINDS if kind in given)

    def outcome(self, option: str) -> str:
        word = self.last(option, USUAL_BAD).replace("-", " ")
        if word not in RANK:
            raise WrongWords(f"{option} takes an outcome, one of {', '.join(RANK)}, and not '{word}'")
        return word

    def goal(self) -> Goal | None:
        """The outcome that is searched for, if one is."""
        if not self.has("--goal"):
            if self.has("--up-to") or self.has("--yes"):
                raise WrongWords("--up-to and --yes are of a search by --goal")
            return None
        for other in NOT_WITH_GOAL:
            if self.has(other):
                raise WrongWords(f"--goal takes no {other}")
        return Goal(
            self.outcome("--goal"), self.number("--up-to", goals.USUAL_FAULTS, goals.MOST_FAULTS), self.has("--yes")
        )

    def part(self) -> tuple[int, int] | None:
        if not self.has("--part"):
            return None
        first, _, parts = self.last("--part").partition("/")
        of = self.number_of(parts, "N of --part I/N", 10**6)
        return self.number_of(first, "I of --part I/N", of), of

    def share(self) -> Share:
        """How the variants are spread: a part by one process, where no other number is given."""
        part = self.part()
        jobs = self.number("--jobs", 1 if part else len(os.sched_getaffinity(0)), MOST_JOBS)
        return Share(
            jobs,
            part,
            self.number("--faults", 1, MOST_FAULTS),
            self.folder(),
            self.has("--lines") and not self.has("--json"),
        )

    def folder(self) -> Path | None:
        """The folder for variants, which is made where it is not there."""
        if not self.has("--save"):
            return None
        folder = Path(self.last("--save"))
        try:
            folder.mkdir(parents=True, exist_ok=True)
        except OSError as fault:
            raise WrongWords(f"the folder {folder} cannot be made: {fault.strerror}") from None
        if not os.access(folder, os.W_OK):
            raise WrongWords(f"the folder {folder} cannot be written")
        return folder


def scenario_of(program: str, words: WhatIfWords) -> tuple[bytes, int]:
    """The text of the scenario, and the status with which the program runs it; what it refuses is told."""
    if len(words.files) > 1:
        raise WrongWords("what-if takes one SCENARIO")
    if not words.files and sys.stdin.isatty():
        print("lte_sec: what-if reads a scenario from here, up to Ctrl-D; or name a file", file=sys.stderr)
    octets = of_file(words.files[0]) if words.files else of_input()
    ran = subprocess.run([program, "run"], input=octets, stdout=subprocess.PIPE, stderr=subprocess.DEVNULL)
    out = sys.stderr if words.has("--json") else sys.stdout  # with --json nothing but JSON is printed
    if ran.returncode == REFUSED:
        out.write(ran.stdout.decode(errors="replace"))
        out.flush()
        said = subprocess.run(
            [sys.executable, str(REASONS), "text", program, "run"], input=octets, stderr=subprocess.PIPE
        ).stderr
        sys.stderr.write(said.decode(errors="replace"))
    elif ran.returncode == ENDED:
        print(ran.stdout.decode().splitlines()[-1], file=out)
        print(
            "lte_sec: status 7: the scenario itself ends at a coincidence, so that nothing can be compared with it",
            file=sys.stderr,
        )
    elif ran.returncode:
        print(f"lte_sec: status {ran.returncode}: the program does not run the scenario", file=sys.stderr)
    return octets, ran.returncode


def tried(programs: Programs, words: WhatIfWords, share: Share, goal: Goal | None) -> tuple[Gathering | None, int]:
    """What was gathered of a scenario, and a status where nothing was."""
    kinds, packets, follows = words.kinds(), words.has("--packets"), words.has("--follow")
    octets, status = scenario_of(programs.run, words)
    if status:
        return None, status
    scenario = read(octets)
    study = Study(
        programs.run,
        scenario,
        follows,
        words.has("--html") or goal is None and (words.has("--json") or words.has("--out")),
    )
    named = steps_of(words.last("--messages"), study.original.messages, packets) if words.has("--messages") else ()
    lists = Lists(programs.variants, octets, kinds, packets, named)
    gathering = Search(study, lists, share, goal) if goal else Gathering(study, lists, share)
    answer = gathering.answer
    if study.charts:
        answer.chart = study.charts.chart(
            name_of(octets.decode(errors="replace"), words.files[0].stem if words.files else "a scenario")
        )
    answer.tried = {
        "scenario": hashlib.sha256(octets).hexdigest(),
        "faults": share.faults,
        "kinds": list(kinds),
        "packets": packets,
        "follow": follows,
        "within": any(step.get("do") == "intra" for step in scenario.steps),
        **({"messages": [int(step) for step in named]} if named else {}),
    }
    answer.frames = frames_of(octets.decode(errors="replace"))
    if words.has("--resume"):
        kept = resumed.KeptAnswer(Path(words.last("--resume")))
        kept.fits(answer.tried)
        gathering.answer = resumed.gathered(kept, gathering.part, answer)
    else:
        gathering.gather()
    print(f"lte_sec: {gathering.cost()}", file=sys.stderr)
    return gathering, 0


def write_page(file: Path, document: dict[str, Any]) -> None:
    if "base" not in document:
        raise WrongWords("--html wants parts that have the course of each variant, as --json writes them now")
    from ..pages import page as pages
    from . import matrix_page

    pages.write(file, pages.html(matrix_page.page(document), matrix_page.told(document), matrix_page.of_note(document)))


def tell(answer: Answer, words: WhatIfWords) -> int:
    """Writes the answer as it is wanted; the status."""
    if words.has("--picture"):
        from .matrix import draw

        try:
            Path(words.last("--picture")).write_text(draw(answer), encoding="utf-8")
        except OSError as fault:
            raise WrongWords(f"{words.last('--picture')} cannot be written: {fault.strerror}") from None
    if words.has("--html"):
        write_page(Path(words.last("--html")), to_json(answer))
    if words.has("--out"):
        if answer.whole:
            parts.write(Path(words.last("--out")), answer)
    elif words.has("--json"):
        print(json.dumps(to_json(answer), indent=1))
    elif not words.has("--lines"):
        print(*(goals.table(answer) if answer.goal else table(answer)), sep="\n")
    sys.stdout.flush()
    if not answer.whole:
        print("lte_sec: status 130: interrupted; this is what there is", file=sys.stderr)
        return STOPPED
    if others := answer.others():
        print(
            (
                f"lte_sec: status {FAILS}: {others:,} variant{' has' if others == 1 else 's have'} other outcomes by "
                f"{'its' if others == 1 else 'their'} own run, told beside"
            ),
            file=sys.stderr,
        )
        return FAILS
    if answer.goal:
        return BAD if answer.goal["smallest"] else 0
    worst = answer.worst()
    return BAD if answer.itself or worst is not None and RANK[worst] >= RANK[words.outcome("--bad")] else 0


def answered(programs: Programs, given: list[str]) -> int:
    """The status; without programs only the words are read."""
    words = WhatIfWords.read("what-if", given)
    words.outcome("--bad")
    picture = Path(words.last("--picture")) if words.has("--picture") else None
    if picture and not os.access(picture if picture.exists() else picture.parent, os.W_OK):
        raise WrongWords(f"{picture} cannot be written")
    if words.has("--html"):
        from ..pages import page as pages

        pages.writable(Path(words.last("--html")))
    if words.has("--resume") and any(words.has(other) for other in NOT_WITH_RESUME):
        raise WrongWords(f"--resume takes none of {', '.join(NOT_WITH_RESUME)}")
    if words.has("--merge"):
        if not words.files or words.has("--lines"):
            raise WrongWords("--merge takes the files that --json wrote of each part")
        return tell(parts.merged_of(words.files), words) if programs.run else 0
    share, goal, _ = words.share(), words.goal(), words.kinds()
    if not programs.run:
        return 0
    gathering, status = tried(programs, words, share, goal)
    if gathering is None:
        return status
    status = tell(gathering.answer, words)
    if isinstance(gathering, Search) and gathering.choices and status == 0:
        print(f"lte_sec: status 2: {gathering.warning()}", file=sys.stderr)
        return WORDS
    return status


def main(words: list[str]) -> int:
    try:
        return answered(Programs(*words[:2]), words[2:])
    except TraceError as fault:
        print(f"lte_sec: status {fault.status}: what-if: {fault}", file=sys.stderr)
        return fault.status
    except NoScenario as fault:
        print(f"lte_sec: status 3: {fault}", file=sys.stderr)
        return REFUSED
    except TooManySteps as fault:
        print(f"lte_sec: status {TOO_MANY}: {fault}", file=sys.stderr)
        return TOO_MANY
    except ProgramFails as fault:
        print(f"lte_sec: status {FAILS}: {fault}", file=sys.stderr)
        return FAILS
    except KeyboardInterrupt:
        return STOPPED


if __name__ == "__main__":
    sys.exit(main(sys.argv[1:]))
