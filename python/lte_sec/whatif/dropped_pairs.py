"""Pairs of NH and NCC that a handover within a station drops here and not in the standard: with what follows from that.

A context that a handover within a station begins has no pair and no outstanding request here. By TS 33.401 7.2.8.4.1
and 7.2.8.4.2 a pair that comes meanwhile or behind it is stored, and the next handover from there is vertical
(docs/MACHINE.md, what the standard has otherwise).
"""
from __future__ import annotations

from dataclasses import dataclass

from ..runs.courses import Course, Item
from ..runs.messages import Names
from ..runs.run_report import NotedKey, StepLine
from ..runs.kenb_changes import KenbChange as Told
from ..runs.kenb_changes import Report

ANSWER, REQUEST, COMPLETE = "Path Switch Request Acknowledge", "Path Switch Request", "RRC Reconfiguration Complete"
# What begins another context or chain at a station, or ends the one that it has.
ANEW = (
    "Initial Context Setup Request",
    "UE Context Modification Request",
    "X2 UE Context Release",
    "UE Context Release Command",
)
NUMBERS = 8  # of NCCs: a phone finds an NH that is fewer steps ahead


@dataclass
class StandardContext:
    """What of a station's context the standard has otherwise. A pair is told by the key of its NH."""

    within: str | None = None  # the key of a handover within that is on its way
    came: str | None = None  # the pair that came since then
    kept: str | None = None  # a pair that is stored in the standard, and not here
    moved: str | None = None  # the same, in an attempt
    request: str | None = None  # the item that sent the newest path switch request, until it is answered
    is_void: bool = False  # whether that request is outstanding in the standard, and not here

    def begin(self, note: NotedKey, is_within: bool) -> str | None:
        """An attempt begins; the pair that it would have in the standard, and has not here."""
        self.within, self.came = note.key if is_within else None, None
        self.moved, self.kept = (self.kept, None) if note.way == "horizontal" else (None, None)
        return self.moved

    def cancel(self) -> None:
        """The attempt is cancelled, and its pair moves back unless a newer one has come."""
        self.kept = self.kept or (self.moved if self.came is None else None)
        self.within = self.came = self.moved = None

    def answer(self, is_taken: bool, pair: str, request: str | None) -> None:
        """An answer comes to a path switch request."""
        if is_taken:
            self.came = pair if self.within else None
            self.kept = self.moved = self.request = None
        elif self.is_void and request == self.request:
            self.kept, self.request, self.is_void = pair, None, False

    def renew(self) -> None:
        """The handover within is completed."""
        self.kept = self.came or self.kept
        self.is_void = self.request is not None
        self.within = self.came = self.moved = None


class Dropped:
    """Of a course the handovers that are horizontal here and would be vertical in the standard."""

    def __init__(self, course: Course):
        self.course = course
        self.of = {item.name: item.of for item in course.items}
        self.instead: dict[str, str] = {}  # of the key of such a handover, NH that it would be derived from
        self.contexts: dict[str, StandardContext] = {}
        names, sent = Names(), dict[str, str]()
        for item in course.items:
            line = course.lines.get(item.name)
            if line is None:
                break
            cause = sent.get(item.of, "record") if item.of is not None else item.do
            if line.sent is not None or line.note:
                sent[item.name] = names.of(line, cause)
            if line.who.startswith("station"):
                self.take(item, line, cause)
            if sent.get(item.name) == REQUEST and line.sent is not None:
                context = self.contexts[line.who]
                context.request, context.is_void = item.name, False

    def take(self, item: Item, line: StepLine, cause: str) -> None:
        """A step of a station."""
        context = self.contexts.setdefault(line.who, StandardContext())
        if cause == ANSWER and item.of is not None:
            note = self.course.lines[item.of].note
            if note:
                context.answer(line.answer == "done", note.key, self.of[item.of])
        elif line.answer != "done":
            return
        elif cause in ("x2", "intra") and line.note:
            pair = context.begin(line.note, cause == "intra")
            if pair:
                self.instead[line.note.key] = pair
        elif cause == "cancel":
            context.cancel()
        elif cause == COMPLETE and line.note and line.note.key == context.within:
            context.renew()
        elif cause in ANEW or cause == COMPLETE and line.note:
            self.contexts[line.who] = StandardContext()

    def brings(self, told: Told, report: Report) -> bool:
        """Whether phone and target would have one key in the standard, where they have different ones here: the
        target's NH is ahead of that which the phone would have, and by fewer steps than there are NCCs."""
        stands = None
        for step in report.steps[: told.last]:
            if step.who == "phone" and step.way:
                pair = self.instead.get(step.key)
                stands = (
                    report.rows[pair]
                    if pair
                    else report.row(step)
                    if stands is None or step.way != "horizontal"
                    else stands
                )
        theirs = report.row(report.steps[told.first])
        return stands is not None and theirs.first == stands.first and 0 < theirs.chain - stands.chain < NUMBERS
