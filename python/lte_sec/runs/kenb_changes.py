"""Handovers and key changes of a report of `run`: what became of each, read from the notes of its steps and from the
rows of its ladder, in which a KeNB* has its cell."""
from __future__ import annotations

import dataclasses
import enum
import re
from collections.abc import Iterator

from .run_report import LadderRow, NoRow, StepLine, form_of, rows_of


class NoReport(Exception):
    """Why the text is not a report of `run`."""


class Outcome(enum.Enum):
    """What became of a handover or a key change; the value is how it is told."""

    AGREED = "one key"
    NOT_COMPLETED = "one key, not completed"
    DIFFER = "different keys"
    NOT_TOLD = "not told by the report"
    NOT_PREPARED = "not prepared"
    NOT_COMMANDED = "not commanded"
    NOT_OBEYED = "not obeyed"
    NOT_TAKEN = "not commanded, or not obeyed"


NOT_MADE = (Outcome.NOT_PREPARED, Outcome.NOT_COMMANDED, Outcome.NOT_OBEYED, Outcome.NOT_TAKEN)


@dataclasses.dataclass
class Report:
    steps: list[StepLine]
    rows: dict[str, LadderRow]

    def notes(self) -> list[StepLine]:
        """The steps at which an actor came by a key, or tells it."""
        return [step for step in self.steps if step.way]

    def row(self, step: StepLine) -> LadderRow:
        return self.rows[step.key]


def rows_by_key(lines: list[str]) -> dict[str, LadderRow]:
    """The rows by their keys."""
    for place, line in enumerate(lines):
        form = form_of(line)
        if form is None or form[0] != place:
            raise NoReport(f"'{line[:40]}' is not a row of its ladder of keys")
    try:
        return {row.key: row for row in rows_of(lines).values()}
    except NoRow as fault:
        raise NoReport(str(fault)) from None


def step_of(number: int, line: str) -> StepLine:
    """The line of the step of this number."""
    found = StepLine.read(line)
    if found is None or found.number != number:
        raise NoReport(f"line {number + 1} is not a line of step {number}")
    return found


def read(text: str) -> Report:
    """A report; a reason if the text is not one."""
    lines = text.splitlines()
    if not lines:
        raise NoReport("it is empty; ./lte_sec run writes a report")
    if re.match(r"\d+ 0 (both|phone|core|world|station)", lines[0]):
        raise NoReport("it is one of fleet; sed -n 's/^0 //p' gives that of phone 0")
    if re.search(r"^(phone *=|\[phone\])", text, re.MULTILINE):
        raise NoReport("it is a scenario; ./lte_sec run writes its report")
    end = next((place for place, line in enumerate(lines) if re.fullmatch(r"end \d+ \d+ \d+", line)), None)
    if end is None:
        raise NoReport("it has no line `end`: it is cut, or ends at a coincidence or at a reply that differs")
    report = Report([step_of(number, line) for number, line in enumerate(lines[:end])], rows_by_key(lines[end + 1 :]))
    if any(note.key not in report.rows for note in report.notes()):
        raise NoReport("a key of its steps is not in its rows")
    return report


def is_prepared(report: Report, note: StepLine) -> bool:
    """Whether a station came by the key of a cell of its own, at which the phone is to arrive: of another station's
    record (given over X2, derived over S1), for a handover within itself, or at a key change."""
    if note.station is None or report.row(note).word != "star":
        return False
    ways = {"x2": ["given"], "s1": ["vertical"], "air": ["given"], "": ["horizontal", "vertical"]}
    return note.way in ways.get(note.kind, [])


def is_prepared_within(step: StepLine) -> bool:
    """Whether a station derived the key for a handover within itself."""
    return step.station is not None and not step.kind and step.way in ("horizontal", "vertical")


def is_asked(note: StepLine) -> bool:
    """Whether a station derived the key of another's cell, to ask it over X2 for a handover."""
    return note.station is not None and note.kind == "x2" and note.way in ("horizontal", "vertical")


@dataclasses.dataclass
class Obeyed:
    """A handover or key change that the phone obeyed: its key, and the steps at which stations prepared its cell and
    completed it."""

    phone: StepLine
    prepared: list[StepLine]
    completed: StepLine | None = None

    def target(self) -> StepLine | None:
        """The step at which the target came by its key: the last before the phone's, for a station has one attempt at a
        time. None where the report does not tell it: where that one has another key, and one before has the phone's."""
        same = [note for note in self.prepared if note.key == self.phone.key]
        if self.completed:
            return same[-1]
        return self.prepared[-1] if self.prepared and (not same or same[-1] is self.prepared[-1]) else None


def may_be_commanded(begun: StepLine, prepared: StepLine, behind: list[StepLine]) -> bool:
    """Whether, by the steps behind what was prepared, its source may have sent the command for it: it did so before its
    next attempt. A key change is commanded where its key is derived."""
    if prepared.kind == "air":
        return True
    for step in behind:
        is_source = (
            step.station not in (None, prepared.station) if begun.kind == "s1" else step.station == begun.station
        )
        if is_source and step.kind == "air" and not step.way:
            return True
        if is_source and begun.kind != "s1" and (is_asked(step) or is_prepared_within(step)):
            return False
    return False


def obeyed(report: Report) -> list[Obeyed]:
    """Each handover and key change that the phone obeyed. An air address is of one preparation, and a command names it;
    the report tells neither, but that a preparation was not commanded."""
    found: list[Obeyed] = []
    sources = {to.number: begun for begun, to in attempts(report) if to}
    prepared: dict[int, list[StepLine]] = {}
    for note in report.notes():
        row = report.row(note)
        if note.who == "phone" and row.word == "star":
            at = [it for notes in prepared.values() for it in notes if report.row(it).cell == row.cell]
            behind = {it.number: report.steps[it.number + 1 : note.number] for it in at}
            commanded = [it for it in at if may_be_commanded(sources.get(it.number, it), it, behind[it.number])]
            found.append(Obeyed(note, commanded or at))
        elif note.station is None:
            continue
        elif is_prepared(report, note):
            prepared.setdefault(note.station, []).append(note)
        elif note.way == "completed":
            last = found[-1] if found else None
            if (
                last
                and not last.completed
                and note.key == last.phone.key
                and any((it.station, it.key) == (note.station, note.key) for it in last.prepared)
            ):
                last.completed = note
            prepared[note.station] = []
        elif note.way == "given":
            prepared[note.station] = []
    return found


@dataclasses.dataclass(frozen=True)
class KenbChange:
    """What became of one handover or key change: its first and last step, the target, the cell, and how far apart the
    keys are."""

    kind: str
    first: int
    last: int
    station: int | None
    cell: str
    outcome: Outcome
    more: str = ""

    def __str__(self) -> str:
        steps = f"step {self.first}" if self.first == self.last else f"steps {self.first} to {self.last}"
        if self.kind == SET_UP:
            return f"{steps}: {self.kind}: no station took its key"
        if self.outcome in NOT_MADE:
            to = f"cell {self.cell}" if self.station is None else f"station {self.station}, cell {self.cell}"
            return f"{steps}: {self.kind} {'in' if self.kind == KEY_CHANGE else 'to'} {to}: {self.outcome.value}"
        if self.outcome == Outcome.NOT_TOLD:
            return f"{steps}: phone and target: not told by the report, for {self.more}"
        return f"{steps}: phone and station {self.station} have {self.outcome.value}{self.more and '; '}{self.more}"


KEY_CHANGE, SET_UP = "key change", "connection or key change"
KINDS = {"x2": "handover over X2", "s1": "handover over S1", "air": KEY_CHANGE, "": "handover within the station"}


def ahead(report: Report, phone: str, target: str) -> str:
    """How far apart in the chain two keys are."""
    ours, theirs = report.rows[phone], report.rows[target]
    if ours.root != theirs.root:
        return "of different KASMEs"
    steps = theirs.chain - ours.chain
    count = f"{abs(steps)} step{'' if abs(steps) == 1 else 's'}"
    return f"{count} ahead" if steps > 0 else f"{count} behind" if steps < 0 else "no step apart"


def of_obeyed(report: Report, made: Obeyed) -> KenbChange:
    """Whether phone and target have one key."""
    target, phone = made.target(), made.phone
    cell = report.row(phone).cell
    if target is None:
        why = "several keys were prepared for its cell" if made.prepared else "no station prepared its cell"
        return KenbChange("handover or key change", phone.number, phone.number, None, cell, Outcome.NOT_TOLD, why)
    last = max(phone.number, made.completed.number if made.completed else 0)
    place = (KINDS[target.kind], target.number, last, target.station, cell)
    if target.key != phone.key:
        return KenbChange(*place, Outcome.DIFFER, ahead(report, phone.key, target.key))
    return KenbChange(*place, Outcome.AGREED if made.completed else Outcome.NOT_COMPLETED)


def until(report: Report, begun: StepLine) -> Iterator[StepLine]:
    """The steps after one at which an attempt began, up to the next attempt of that station, or of any at a key of
    another station."""
    for step in report.steps[begun.number + 1 :]:
        if step.station == begun.station and step.way and (is_asked(step) or is_prepared(report, step)):
            return
        yield step


def of_begun(report: Report, begun: StepLine, prepared: StepLine | None) -> KenbChange:
    """What became of an attempt that the phone did not obey: begun where a source derived the key, or else where a
    target did."""
    cell, kind = report.row(begun).cell, KINDS[begun.kind]
    if prepared is None:
        return KenbChange(kind, begun.number, begun.number, None, cell, Outcome.NOT_PREPARED)
    place = (kind, begun.number, prepared.number, prepared.station, cell)
    if kind == KEY_CHANGE:
        return KenbChange(*place, Outcome.NOT_OBEYED)
    after = [step for step in until(report, begun) if step.number > prepared.number]
    sources = [
        step
        for step in after
        if (step.station != prepared.station if begun.kind == "s1" else step.station == begun.station)
    ]
    is_silent = not any(step.station is not None and step.kind == "air" and not step.way for step in sources)
    return KenbChange(*place, Outcome.NOT_COMMANDED if is_silent else Outcome.NOT_TAKEN)


def attempts(report: Report) -> list[tuple[StepLine, StepLine | None]]:
    """Each handover and key change that began: the step at which its key was derived, and that at which its target had
    it."""
    found: list[tuple[StepLine, StepLine | None]] = []
    for note in report.notes():
        if is_asked(note):
            found.append((note, None))
        elif is_prepared(report, note):
            places = [
                place
                for place, (begun, to) in enumerate(found)
                if is_asked(begun) and to is None and begun.key == note.key
            ]
            if note.kind == "x2" and places:
                found[places[-1]] = (found[places[-1]][0], note)
            else:
                found.append((note, note))
    return found


def not_taken(report: Report) -> list[KenbChange]:
    """Each connection or key change of the core whose KeNB no station took."""
    taken = {
        place
        for note in report.notes()
        if note.station is not None
        for row in [report.row(note)]
        for place in (row.number, row.parent)
    }
    begun = [note for note in report.notes() if note.who.startswith("core") and note.way == "initial"]
    return [
        KenbChange(SET_UP, note.number, note.number, None, "", Outcome.NOT_PREPARED)
        for note in begun
        if report.row(note).number not in taken
    ]


def items(report: Report) -> list[KenbChange]:
    """What became of each handover and key change, in the order of its first step."""
    made = obeyed(report)
    targets = [target for it in made if (target := it.target())]
    found = [of_obeyed(report, it) for it in made] + not_taken(report)
    unclear = [note for it in made if it.target() is None for note in it.prepared]
    for begun, prepared in attempts(report):
        if prepared not in targets and prepared not in unclear or prepared is None:
            found.append(of_begun(report, begun, prepared))
    return sorted(found, key=lambda item: (item.first, item.last))


def connected(report: Report) -> bool | None:
    """Whether the phone has the KeNB of a station at each connection; None where none was set up."""
    phone = [note.key for note in report.notes() if note.who == "phone" and report.row(note).word == "kenb"]
    stations = {note.key for note in report.notes() if note.station is not None and report.row(note).word == "kenb"}
    return stations.issuperset(phone) if phone else None
