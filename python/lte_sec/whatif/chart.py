"""The steps of a run as a chart has them: who did what, what came from whom, which key came of it. SVG and pages are
drawn of this.

A report does not say what a record is, so a message has its name by what made its sender send it.
"""
from __future__ import annotations

import re
from collections.abc import Callable, Iterable, Iterator, Mapping
from dataclasses import dataclass, field
from typing import Any, NamedTuple

from ..pages.trace_page import Json
from ..runs.courses import Course
from ..runs.messages import NAS_TEXT, Names, nas_name
from ..runs.run_report import StepLine
from ..runs.scenarios import Scenario, Step
from .probe import PROBE

COMMENT = re.compile(r"#\s*([^.:\n]+)")
DOES = {
    "smc": "starts NAS security",
    "connect": "sets up a connection",
    "release": "releases the connection",
    "service": "asks for service",
    "resend": "sends its Complete again",
    "idle": "leaves the connection",
    "x2": "opens a handover over X2",
    "s1": "opens a handover over S1",
    "intra": "opens a handover within itself",
    "command": "commands it",
    "cancel": "cancels it",
    "ask": "asks again for the path switch",
}
SENDS = {"user": "a user packet", "rrc": "an RRC text", "nas": "a NAS text"}
LONGEST, SHOWN = 16, 8  # a text of more octets is shortened to so many


class Came(NamedTuple):
    """What comes in a step: the record, its sender, and its name."""

    record: int
    sender: str
    name: str


class Sent(NamedTuple):
    """What a step sends."""

    record: int
    name: str


class Charted(NamedTuple):
    """A step: its line, its event, what came in it and what it sent."""

    line: StepLine
    event: Step
    came: Came | None
    sent: Sent | None


def steps_of(report: list[str], scenario: Mapping[str, Any]) -> list[Charted]:
    """The steps of a report of this scenario."""
    records: list[tuple[str, str]] = []
    names, steps = Names(), []
    for event, text in zip(scenario.get("step", []), report):
        line, came, sent = StepLine.read(text), None, None
        if line is None:
            break
        cause = event["do"]
        if cause == "deliver":
            at = event["record"] if event["record"] >= 0 else len(records) + event["record"]
            if 0 <= at < len(records):
                came = Came(at, *records[at])
                cause = came.name
        name = nas_name(event["text"]) if cause == "nas" else names.of(line, cause)
        if line.sent is not None:
            records.append((line.who, name))
            sent = Sent(line.sent, name)
        steps.append(Charted(line, event, came, sent))
    return steps


def course_steps(course: Course) -> Iterator[tuple[str, Charted]]:
    """The steps of a course, each with the name of its item."""
    names, sent = Names(), dict[str, str]()
    for item in course.items:
        line = course.lines.get(item.name)
        if line is None:  # a coincidence ended it
            return
        cause, came = item.do, None
        source = course.lines.get(item.of) if item.of is not None else None
        if source is not None and source.sent is not None and item.of in sent:
            came = Came(source.sent, source.who, sent[item.of])
            cause = came.name
        name = nas_name(item.step["text"]) if cause == "nas" else names.of(line, cause)
        out = Sent(line.sent, name) if line.sent is not None else None
        if out:
            sent[item.name] = name
        yield item.name, Charted(line, item.step, came, out)


def octets(text: str) -> str:
    """A text in hex, if it is long its first octets and how many it has."""
    count = len(text) // 2
    return (text if count <= LONGEST else f"{text[:2 * SHOWN]}.. ({count:,} octets)") or "an empty text"


def said(event: Step, with_text: bool = True) -> str:
    """What an actor does of its own, in words."""
    do = event["do"]
    if do == "auth":
        return f"authentication, KSI {event['ksi']}"
    if do == "nas" and nas_name(event["text"]) != NAS_TEXT:
        return f"sends {nas_name(event['text'])}"
    if do in SENDS:
        return f"sends {octets(event['text']) if with_text else SENDS[do]}" + (
            f" on {event['bearer']}" if do != "nas" else " on NAS"
        )
    if do == "skip":
        return f"skips {event['n']} COUNTs on {event['bearer']}"
    where = f" to PCI {event['cell'][0]}" if "cell" in event and do != "intra" else ""
    return DOES.get(do, do) + where


def lanes_of(setup: Mapping[str, Any], steps: Iterable[Charted]) -> list[str]:
    """The actors: the phone, the stations, and the cores that the steps have."""
    cores = sorted({step.line.who for step in steps if step.line.who.startswith("core")}) or ["core"]
    return [
        "phone",
        *(f"station {station['id']}" for station in sorted(setup["station"], key=lambda one: int(one["id"]))),
        *cores,
    ]


def brings(step: Charted) -> str:
    """What brings a step: the message that came, or what its actor does of its own."""
    if step.came:
        return step.came.name
    if step.event["do"] == "inject":
        return "injected octets"
    return said(step.event, False) if step.event["do"] != "deliver" else "no such record"


def stage(step: Charted, lanes: list[str], key_name: Callable[[str], str], is_lost: bool) -> Json:
    """A step as a row of a chart; its lanes are numbers."""
    line, both = step.line, step.line.who == "both"
    own = lanes.index(line.who) if line.who in lanes else 0
    key = f"{key_name(line.note.key)}, NCC {line.note.ncc}, {line.note.way}" if line.note else ""
    answer = line.answer if line.answer != "done" else ""
    words = [
        answer,
        "opens" if line.text is not None else "",
        key,
        f"{step.sent.name} is not delivered" if step.sent and is_lost else "",
    ]
    fields = {
        "a": lanes.index(step.came.sender) if step.came else own,
        "b": own if step.came else None,
        "and": len(lanes) - 1 if both else None,
        "m": brings(step),
        "s": ", ".join(filter(None, words)),
        "answer": answer,
        "opens": line.text,
        "plain": step.event.get("text"),
        "ncc": line.note.ncc if line.note else None,
        "way": line.note.way if line.note else None,
        "sends": step.sent.name if step.sent else None,
        "lost": is_lost or None,
    }
    return {name: value for name, value in fields.items() if value not in (None, "")}


def name_of(text: str, usual: str) -> str:
    """The name of a scenario: its first comment up to a full stop or colon, else the usual one."""
    comment = COMMENT.match(text)
    return comment[1].strip() if comment else usual


# The run of a variant beside that of the scenario


@dataclass
class Chart:
    """The course of a scenario itself: its name, its actors and its steps, the probe behind them."""

    name: str
    lanes: list[str]
    base: list[Json]


@dataclass
class Keyring:
    """The names of the keys of a run: those of the scenario have numbers, others are new."""

    known: dict[str, str] = field(default_factory=dict)
    new: dict[str, str] = field(default_factory=dict)

    def name(self, key: str) -> str:
        return self.known.get(key) or self.new.setdefault(key, f"new key {len(self.new) + 1}")


class Charts:
    """The chart of a scenario, and the courses of its variants as what differs from it."""

    def __init__(self, scenario: Scenario, course: Course):
        steps = dict(course_steps(course))
        self.lanes = lanes_of(scenario.setup, steps.values())
        self.keys: dict[str, str] = {}
        for step in steps.values():
            if step.line.note:
                self.keys.setdefault(step.line.note.key, f"key {len(self.keys) + 1}")
        self.base = list(self.rows(course))
        self.places = {name: place for place, name in enumerate(steps)}

    def rows(self, course: Course) -> Iterator[Json]:
        keyring = Keyring(self.keys)
        delivered = {item.of for item in course.items if item.name in course.lines}
        for name, step in course_steps(course):
            yield labels(name) | stage(step, self.lanes, keyring.name, step.sent is not None and name not in delivered)

    def chart(self, name: str) -> Chart:
        return Chart(name, self.lanes, self.base)

    def run(self, course: Course) -> tuple[list[Any], list[str]]:
        """The run of a variant: ranges of steps that are as in the scenario, and the others; and the names of what
        falls away."""
        found: list[Any] = []
        names = [item.name for item in course.items]
        for name, row in zip(names, self.rows(course)):
            place = self.places.get(name)
            if place is not None and self.base[place] == row:
                if found and isinstance(found[-1], list) and found[-1][1] == place - 1:
                    found[-1][1] = place
                else:
                    found.append([place, place])
            else:
                before = self.base[place] if place is not None else {}
                found.append(
                    {**row, "v": "bad" if row.get("answer") and row.get("answer") != before.get("answer") else "unk"}
                )
        there = set(names)
        return found, [name for name in self.places if name not in there and not name.startswith(PROBE)]


def labels(name: str) -> Json:
    """How an item stands in a chart: its step, and what it is beside one of the scenario."""
    if name.startswith(PROBE):
        return {"f": "probe", "note": name.removeprefix(PROBE)}
    plain = name.rstrip("'+")
    step = plain.rstrip("abcdefg")
    if step == name:
        return {"f": step}
    if name.endswith("+"):
        return {"f": step, "note": "answer"}
    return {"f": step, "note": "cancel" if plain[-1] in "efg" else "copy" if plain == step else "repeat"}


def with_numbers(runs: Iterable[list[Any]]) -> tuple[list[Json], list[list[Any]]]:
    """Steps that are not those of the scenario, each once, and the runs with their numbers."""
    steps: list[Json] = []
    places: dict[str, int] = {}

    def number(entry: Any) -> Any:
        if isinstance(entry, list):
            return entry
        name = repr(sorted(entry.items()))
        if name not in places:
            places[name] = len(steps)
            steps.append(entry)
        return places[name]

    told = [[number(entry) for entry in run] for run in runs]
    return steps, told
