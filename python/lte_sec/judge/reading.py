"""A whole trace, read in the order and by the clock that fit it best."""
from __future__ import annotations

import copy
from dataclasses import dataclass, replace

from ..captures.cells import Cells
from ..captures.coverage import UP, taken
from ..captures.handed_kasmes import Handed
from ..captures.message_store import Messages
from ..captures.taps import Courses, SecondTaps, courses, on_one_clock, without_these
from ..common.report import DIFFERS, Line
from ..common.terms import Derivations
from .grounds import Grounds, Groundwork
from .rereading import OTHERWISE, read_again
from .trace import Trace


@dataclass(frozen=True)
class Said:
    """What the user says of links: those that the trace covers, and those that it does not."""

    covers: tuple[str, ...] = ()
    lacks: tuple[str, ...] = ()


def check(
    derivations: Derivations, cells: Cells, messages: Messages, budget: int | None = None, said: Said = Said()
) -> Trace:
    """Reads a trace. Where something differs and S1 does not tell the order of X2, it is read again by the clock that
    the answers of the core offer."""
    before, work = copy.deepcopy(cells), Groundwork(cells, messages)
    second, handed, found = SecondTaps(messages), Handed(derivations.kasmes), Courses()
    for place, message in enumerate(messages):
        second.take(place, message)
        handed.take(message)
        found.take(message)
        work.take(place, message)
    whole = messages
    messages, taps = without_these(messages, second.left())
    found = found if messages is whole else courses(messages)
    derivations.kasmes += handed.found
    budget = derivations.calls.budget if budget is None else budget
    premises = Premises(derivations, budget, said, handed.lines)
    moved, clock = on_one_clock(messages, found)
    work = work if moved is whole else groundwork(copy.deepcopy(before), moved)
    del second, found  # what is seen of all messages before any is judged takes memory for each
    trace = premises.read(work, [note for note in (taps, clock) if note])
    if not clock and faults(trace) and not all(trace.coverage.s1(station, UP) for station in trace.coverage.stations):
        moved, clock = on_one_clock(messages)
        other = (
            premises.read(groundwork(before, moved), [*([taps] if taps else []), f"{OTHERWISE}: {clock}"])
            if clock
            else trace
        )
        trace = min(trace, other, key=faults)
    return trace


def groundwork(cells: Cells, messages: Messages) -> Groundwork:
    """What is learnt of messages before any is judged."""
    work = Groundwork(cells, messages)
    for place, message in enumerate(messages):
        work.take(place, message)
    return work


def faults(trace: Trace) -> int:
    return trace.count(DIFFERS)


@dataclass(frozen=True)
class Premises:
    """What readings of a trace have in common, in whatever order its messages are."""

    derivations: Derivations
    budget: int
    said: Said
    notes: list[Line]

    def read(self, work: Groundwork, head: list[str]) -> Trace:
        """Reads messages in their order. Which NH a core sends first is seen in the whole trace: where both are, the
        more frequent one is wanted. Then what other choices may explain is read again."""
        notes = [*work.done(), *self.notes]
        coverage = taken(work.stations.links(), self.said.covers, self.said.lacks)
        grounds = Grounds(work, self.derivations, {}, self.budget, coverage)
        trace = Trace(grounds)
        trace.read(notes)
        seen = trace.judge.seen_firsts
        if any(len(numbers) > 1 for numbers in seen.values()):
            firsts = {mme: 1 if numbers[1] > numbers[2] else 2 for mme, numbers in seen.items()}
            trace = Trace(replace(grounds, firsts=firsts))
            trace.read(notes)
        trace.tell([*head, *read_again(trace)])
        return trace
