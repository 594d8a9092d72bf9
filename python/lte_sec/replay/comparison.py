"""The keys of a capture beside those of the run: same, another, or not replayed; and what the run refuses."""
from __future__ import annotations

from collections.abc import Iterator
from dataclasses import dataclass, field
from enum import Enum

from ..common.causes import Cause, Why, told
from ..common.escaped import shown
from ..common.report import DIFFERS
from ..common.terms import NONE, Term, numbered
from ..runs.courses import Course
from ..runs.run_report import behind_end, rows_of
from .nas_steps import ReplayedKey
from .script import Script


class ReplayVerdict(str, Enum):
    """What a key of the capture is beside the run."""

    SAME = "same"
    DIFFERS = "differs"
    NOT_REPLAYED = "not replayed"


@dataclass(frozen=True)
class ComparedKey:
    """A key of the capture with its verdict: derivation and NCC of both, and the step of the run."""

    frame: str
    message: str
    what: str
    verdict: ReplayVerdict
    term: str
    ncc: int | None
    run_term: str = ""
    run_ncc: int | None = None
    step: int | None = None
    why: Why = ()
    follows: str = ""  # the frame of the difference that this one follows from

    @property
    def reason(self) -> str:
        return shown(told(self.why))

    @property
    def text(self) -> str:
        head = f"frame {self.frame} {self.message} {self.what} "
        if self.verdict == ReplayVerdict.NOT_REPLAYED:
            return f"{head}not replayed: {self.reason}"
        here = self.term + (f" NCC {self.ncc}" if self.ncc is not None else "")
        if self.verdict == ReplayVerdict.SAME:
            return f"{head}same: {here} (step {self.step})"
        run = self.run_term + (f" NCC {self.run_ncc}" if self.ncc is not None else "")
        return f"{head}differs: the capture has {here}, the run {run} (step {self.step})" + (
            f"; it follows from frame {self.follows}" if self.follows else ""
        )


@dataclass(frozen=True)
class RefusedStep:
    """A step that the run refuses."""

    step: int
    do: str
    frame: str
    answer: str

    @property
    def text(self) -> str:
        return f"step {self.step} ({self.do}, frame {self.frame}) is refused here: {self.answer}"


@dataclass
class Replayed:
    """A scenario with its run: the keys of the capture beside it, what is assumed, and what is refused."""

    script: Script
    course: Course
    told: list[ComparedKey] = field(default_factory=list)
    refused: list[RefusedStep] = field(default_factory=list)


@dataclass(frozen=True)
class RunKey:
    """The derivation of a key of the run, with the KeNB that it begins at and its KASME."""

    term: Term
    base: Term
    root: str


def run_keys(report: str) -> dict[str, RunKey]:
    """The derivations of the keys of a report, as lines tell those of traces."""
    rows, found = rows_of(behind_end(report)), dict[int, RunKey]()
    for number, row in rows.items():
        root = rows[row.root].key
        if row.parent is None:
            found[number] = RunKey(Term("root"), NONE, root)
        elif row.word == "kenb":
            begun = Term("kenb", row.values[1:])
            found[number] = RunKey(begun, begun, root)
        elif row.word == "nh":
            sync = found[row.values[1]]
            found[number] = RunKey(Term("nh", (numbered(sync.term) + 1,)), sync.base, root)
        else:
            above = found[row.parent]
            found[number] = RunKey(Term(row.word, row.values[1:], above.term), above.base, root)
    return {rows[number].key: key for number, key in found.items()}


def compared(script: Script, course: Course, rows: list[ReplayedKey], kasmes: dict[str, bytes]) -> Replayed:
    """Each key of the capture beside the run."""
    done = Replayed(script, course)
    names = {value.hex(): name for name, value in kasmes.items()}
    steps = {item.name: number for number, item in enumerate(course.items)}
    keys = run_keys(course.report)
    root = ""
    for row in rows:
        one = beside(row, course, steps, keys, root, names)
        if one.verdict == ReplayVerdict.DIFFERS and row.key.verdict == DIFFERS:
            root = row.met.frame
        done.told.append(one)
    done.refused += refusals(script, course, steps)
    return done


def beside(
    row: ReplayedKey, course: Course, steps: dict[str, int], keys: dict[str, RunKey], root: str, names: dict[str, str]
) -> ComparedKey:
    key, met = row.key, row.met
    head = (met.frame, met.title, key.what)
    if not row.item:
        return ComparedKey(*head, ReplayVerdict.NOT_REPLAYED, str(key.term), key.ncc, why=row.why)
    line = course.lines.get(row.item)
    if line is None or line.note is None:
        why = Cause.RUN_REFUSES.because(answer=line.answer) if line is not None else Cause.RUN_ENDED.because()
        return ComparedKey(*head, ReplayVerdict.NOT_REPLAYED, str(key.term), key.ncc, step=steps.get(row.item), why=why)
    ncc, run = int(line.note.ncc), keys[line.note.key]
    if line.note.key == key.value.hex() and key.ncc in (None, ncc):
        return ComparedKey(
            *head,
            ReplayVerdict.SAME,
            str(key.term if key.term != NONE else run.term),
            key.ncc,
            str(run.term),
            ncc,
            steps[row.item],
        )
    own, other = str(key.term), str(run.term)
    if (
        key.term == run.term and line.note.key != key.value.hex()
    ):  # chains that begin at different KeNBs have like forms
        if key.base not in (run.base, key.term):
            own, other = f"{own} on {key.base}", f"{other} on {run.base}"
        if key.kasme != names.get(run.root):
            own, other = f"{own} of {key.kasme}", f"{other} of {names.get(run.root)}"
    follows = root if key.verdict != DIFFERS else ""
    return ComparedKey(*head, ReplayVerdict.DIFFERS, own, key.ncc, other, ncc, steps[row.item], follows=follows)


def refusals(script: Script, course: Course, steps: dict[str, int]) -> Iterator[RefusedStep]:
    """The steps that the run refuses."""
    for item in course.items:
        line = course.lines.get(item.name)
        if line is not None and line.answer != "done":
            yield RefusedStep(steps[item.name], item.do, script.at[item.name].frame, line.answer)
