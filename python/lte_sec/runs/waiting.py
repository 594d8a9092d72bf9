"""Security procedures of the core that cross. By TS 33.401 7.2.10 (from memory) one waits for the other; here the core
begins each at once (docs/MACHINE.md, what the standard has otherwise)."""
from __future__ import annotations

from collections.abc import Iterable, Iterator
from dataclasses import dataclass, field
from typing import NamedTuple

from .courses import Course, Item
from .messages import Names
from .run_report import StepLine
from .scenarios import Scenario
from .variants import moved, put_behind

COMMAND, SETUP, CHANGE, RELOCATION = (
    "a NAS Security Mode Command",
    "Initial Context Setup",
    "a key change",
    "a handover to another core",
)
WAITS_FOR = {COMMAND: (SETUP, CHANGE), SETUP: (COMMAND,), CHANGE: (COMMAND,), RELOCATION: (COMMAND, CHANGE)}
BEGUN_BY = {"smc": COMMAND, "connect": SETUP, "NAS Security Mode Complete": CHANGE}
ENDED_BY = {
    "auth": (COMMAND,),
    "NAS Security Mode Complete": (COMMAND,),
    "NAS Security Mode Reject": (COMMAND,),
    "RRC Security Mode Complete": (SETUP,),
    "RRC Reconfiguration Complete": (CHANGE,),
    "release": (SETUP, CHANGE),
    "idle": (SETUP, CHANGE),
    "connect": (SETUP, CHANGE),
}
REFUSED = {
    "Initial Context Setup Request": (SETUP,),
    "UE Context Modification Request": (CHANGE,),
}  # these end where a station refuses them


class Happened(NamedTuple):
    """A step by its name: what brought it, an act or the message that came; its line; and whether it hands the phone to
    another core."""

    name: str
    cause: str
    line: StepLine
    away: bool = False


@dataclass
class Crossing:
    """A step that begins a procedure while another is under way: what begins, what it does not wait for, and the steps
    where that began and ended."""

    step: str
    begins: str
    other: str
    since: str
    end: str | None = field(default=None, compare=False)

    def __str__(self) -> str:
        return (
            f"step {self.step} begins {self.begins}; TS 33.401 7.2.10 has it wait for the end of {self.other}, "
            f"which began at step {self.since}"
        )


def crossings(steps: Iterable[Happened]) -> list[Crossing]:
    """The steps that begin a procedure too early."""
    found: list[Crossing] = []
    under_way: dict[str, str] = {}
    for step in steps:
        is_done = step.line.answer == "done"
        ended = ENDED_BY.get(step.cause, ()) if is_done else REFUSED.get(step.cause, ())
        for other in ended:
            since = under_way.pop(other, None)
            for crossing in found:
                crossing.end = step.name if (crossing.other, crossing.since) == (other, since) else crossing.end
        begun = begun_by(step) if is_done else None
        if begun is not None:
            found += [
                Crossing(step.name, begun, other, under_way[other]) for other in WAITS_FOR[begun] if other in under_way
            ]
            under_way[begun] = step.name
    return found


def begun_by(step: Happened) -> str | None:
    """The procedure that a step begins."""
    if step.cause == "Handover Required":
        return RELOCATION if step.away else None
    begun = BEGUN_BY.get(step.cause)
    return None if begun == CHANGE and step.line.sent is None else begun


def of_course(course: Course, until: str) -> Iterator[Happened]:
    """The steps of a course, up to the first whose name begins so."""
    names, sent = Names(), dict[str, str]()
    for item in course.items:
        line = course.lines.get(item.name)
        if line is None or item.name.startswith(until):
            break
        cause = sent.get(item.of, "record") if item.of is not None else item.do
        sent[item.name] = names.of(line, cause)
        yield Happened(item.name, cause, line)


def of_report(scenario: Scenario, report: str) -> Iterator[Happened]:
    """The steps of a scenario with their lines in its report."""
    names, records = Names(), list[tuple[str, str]]()  # of each record the step that sent it, and what it is
    cores = {station["id"]: station.get("core", 0) for station in scenario.setup.get("station", [])}
    for number, (step, text) in enumerate(zip(scenario.steps, report.splitlines())):
        line, cause, away = StepLine.read(text), str(step["do"]), False
        if line is None:
            break
        if cause == "deliver" and -len(records) <= step["record"] < len(records):
            of, cause = records[step["record"]]
            pci, earfcn = scenario.steps[int(of)].get("cell", (-1, -1))
            away = cause == "Handover Required" and cores.get(scenario.cells.get((pci, earfcn), -1)) not in (
                None,
                int(line.who[5:] or 0),
            )
        sends = names.of(line, cause)
        if line.sent is not None:
            records.append((str(number), sends))
        yield Happened(str(number), cause, line, away)


def remarks_of(scenario: Scenario, report: str) -> list[str]:
    """Where a scenario does what the standard has otherwise: the first NCC of its core, and procedures that cross."""
    first = scenario.setup.get("core", {}).get("first_ncc", 1)
    ncc = [
        (
            "without first_ncc = 2 in [core] the core sends the pair of NCC 1 first, and by TS 33.401 7.2.8.1.1 that "
            "of NCC 2 is first"
        )
    ] * (first != 2)
    return ncc + [str(crossing) for crossing in crossings(of_report(scenario, report))]


def waits(items: list[Item], crossing: Crossing) -> list[Item] | None:
    """The items with a step, and what it makes happen, behind the end of what it crosses; without them where that has
    no end. None where it cannot wait."""
    places = {item.name: place for place, item in enumerate(items)}
    at = places.get(crossing.step)
    if at is None:
        return None
    end = places.get((crossing.end or "").rstrip("+"))
    names = moved(items, at, len(items) - 1 if end is None else end)
    if end is None:
        return [item for item in items if item.name not in names]
    if end < at or items[end].name in names:
        return None
    return put_behind(items, at, end, names)
