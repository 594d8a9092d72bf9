"""What becomes of phone, stations and core in a variant: compared with the scenario itself. docs/WHATIF.md defines each
word."""
from __future__ import annotations

from collections.abc import Iterator
from dataclasses import dataclass, field, replace
from typing import NamedTuple, Protocol

from ..common import tables
from ..common.pairs import paired
from ..runs.courses import Course, Item
from ..runs.kenb_changes import Outcome, connected, items, read
from ..runs.messages import Names
from ..runs.run_report import StepLine, behind_end, rows_of
from ..runs.scenarios import Scenario
from ..runs.variants import Fault
from . import probe
from .dropped_pairs import Dropped
from .probe import named

WORDS = tables.OUTCOMES  # from the best to the worst
RANK = {word: rank for rank, word in enumerate(WORDS)}
GOES_ON, KEYS_DIFFER = "goes on", "keys differ"
USUAL_BAD = KEYS_DIFFER
NOT_MADE = "not made"
NOT_TOLD = "at which handover the report does not tell"


class Look(NamedTuple):
    """Of an outcome its letter, its colour, and what it means, in a few words; docs/WHATIF.md defines it."""

    letter: str
    colour: str
    means: str


LOOKS = {
    "same": Look("=", "#eef1f4", "Each line is as in the scenario, but those of the fault itself."),
    "better": Look("+", "#c9eef0", "User packets pass here, and not in the scenario."),
    "goes on": Look("~", "#dde3ea", "A line differs, and nothing worse comes of it."),
    "context left": Look("c", "#d9e8c4", "A station that does not serve the phone still has its context."),
    "packet lost": Look("p", "#f3f0b5", "A text that arrives in the scenario does not arrive here."),
    "weaker key": Look(
        "w", "#ffe08a", "A key is horizontal that is vertical in the scenario, or more stations can derive it."
    ),
    "not made": Look("m", "#ffc98a", "The phone does not come by a key that it has in the scenario."),
    "no handover": Look("h", "#f9b27c", "The next handover or its path switch fails."),
    "misrouted": Look("r", "#e3d9f7", "The core has the phone at another station than the one that serves it."),
    "NAS apart": Look("n", "#cbb8ee", "NAS texts no longer arrive as they were sent."),
    "COUNTs apart": Look("o", "#f6b8d8", "A user packet opens to other octets: the COUNTs differ."),
    "cut off": Look("x", "#f08f80", "User packets fail until the phone asks for service."),
    "stuck": Look("s", "#e0604f", "User packets fail even after the phone asked for service."),
    "keys differ": Look("K", "#b3261e", "Phone and station have different keys."),
    "coincidence": Look("!", "#7b8794", "The run ends at a coincidence."),
}


@dataclass(frozen=True)
class Part:
    """A part of what an outcome is about: in words, the step that it is of, the refusal that brought it, and whether
    the standard has it otherwise."""

    what: str = ""
    step: str = ""
    answer: str = ""
    is_here: bool = False


@dataclass(frozen=True)
class About:
    """What an outcome is about: its text, the refusal that brought it, whether the standard has all of it otherwise, or
    a part, and whether it is not there if each security procedure of the core waits for the one before. One that was
    read from an answer has its limit, as that tells it.
    """

    text: str = ""
    answer: str = field(default="", compare=False)
    is_here: bool = field(default=False, compare=False)
    partly: bool = field(default=False, compare=False)
    waits: bool = field(default=False, compare=False)
    is_read: bool = field(default=False, compare=False)
    limit: str | None = field(default=None, compare=False)

    def __str__(self) -> str:
        return self.text

    @classmethod
    def of(cls, parts: list[Part]) -> About:
        """Parts in a line; those that differ in a step alone are told together, as `handover of step 14 and 23`."""
        steps: dict[tuple[str, bool], list[str]] = {}
        for part in parts:
            steps.setdefault((part.what, part.is_here), []).append(part.step)
        told = [
            " ".join([*([what] if what else []), *([f"of step {' and '.join(found)}"] if found[0] else [])])
            + " (here)" * is_here
            for (what, is_here), found in steps.items()
        ]
        return cls(
            ", ".join(told),
            next((part.answer for part in parts if part.answer), ""),
            bool(parts) and all(part.is_here for part in parts),
            any(part.is_here for part in parts),
        )

    def waiting(self) -> About:
        """The same, not there where each procedure waits."""
        return replace(self, text=f"{self.text} (7.2.10)", waits=True)


class Standing:
    """What the report of a course and its probe tells."""

    def __init__(self, scenario: Scenario, course: Course, serving: int):
        self.course, self.lines, self.serving = course, course.lines, serving
        self.scenario = scenario
        self.rows = rows_of(behind_end(course.report))
        self.by_key = {row.key: number for number, row in self.rows.items()}
        self.up = self.opens("up arrives", probe.UP)
        self.down = self.opens(f"down {serving} arrives", probe.DOWN)
        self.again = self.opens("again arrives", probe.AGAIN)
        self.nas = [self.opens("nas up arrives", probe.NAS_UP), self.opens("nas down arrives", probe.NAS_DOWN)]
        self.passes = self.up is True and self.down is True
        self.view = self.core_view()
        self.dropped = Dropped(course)
        self.different = different(course, self.dropped) if course.report.find("\nend ") >= 0 else {}

    def opens(self, name: str, text: str) -> bool | None:
        """Whether a packet or text of the probe is opened to what was sent; None if it is opened to something else."""
        line = self.lines.get(named(name))
        if line is None or line.answer != "done":
            return False
        return True if line.text == text else None

    def contexts(self) -> dict[int, str]:
        """What each station answers to a packet down."""
        return {station: self.lines[named(f"down {station}")].answer for station in self.scenario.stations}

    def core_view(self) -> int | None:
        """The station at which the core has the phone: that of the last connection, Path Switch Request or Handover
        Notify."""
        view: int | None = None
        names, sent = Names(), dict[str, str]()
        for item in self.course.items:
            if item.name.startswith(probe.PROBE) or item.name not in self.lines:
                break
            line = self.lines[item.name]
            cause = sent.get(item.of, "record") if item.of is not None else item.do
            if line.sent is not None or line.note:
                sent[item.name] = names.of(line, cause)
            if line.who != "core" or line.answer != "done":
                continue
            if cause == "connect":
                view = self.scenario.cells.get((item.step["cell"][0], item.step["cell"][1]))
            elif cause in ("Path Switch Request", "Handover Notify") and item.of is not None:
                view = int(self.lines[item.of].who[8:])
            elif cause == "release":
                view = None
        return view

    def phone_key(self) -> str | None:
        """The phone's key before the probe."""
        key = None
        for item in self.course.items:
            line = self.lines[item.name]
            if item.name.startswith(probe.PROBE):
                break
            if line.who == "phone" and line.note:
                key = line.note.key
        return key

    def reach(self, by_standard: bool = False) -> set[str]:
        """The stations that can derive the phone's key: that held it, or a key above it from which steps of KeNB* lead
        to it. By the standard such steps end at a handover that is vertical there."""
        found: set[str] = set()
        key = self.phone_key()
        number = self.by_key.get(key) if key else None
        while number is not None:
            row = self.rows[number]
            found |= {holder for holder in row.holders if holder.startswith("S")}
            number = None if row.word != "star" or by_standard and row.key in self.dropped.instead else row.parent
        return found

    def station_of(self, key: str, item: Item) -> int | None:
        """The station for which the phone has this key, by which it came at this item: that of its cell, or that which
        set up security."""
        row = self.rows[self.by_key[key]]
        if row.word == "star":
            return self.scenario.cells.get((row.values[1], row.values[2]))
        return int(self.lines[item.of].who[8:]) if item.of is not None else None

    def made(self) -> dict[str, str]:
        """By which item the phone came by a key, and of what: a connection, a handover or a key change."""
        found = {}
        for item in self.course.items:
            line = self.lines[item.name]
            if line.who == "phone" and line.note and not item.name.startswith(probe.PROBE):
                is_star = self.rows[self.by_key[line.note.key]].word == "star"
                found[item.name] = (
                    "connection" if not is_star else "key change" if line.note.way == "initial" else "handover"
                )
        return found


def different(course: Course, dropped: Dropped) -> dict[str, tuple[str, bool]]:
    """What `verdict` says of keys that differ, by the item at which the phone takes its key: at handovers and key
    changes, and at a connection; and of each whether they differ in the standard, too."""
    told, names = read(course.report), list(course.lines)
    found = {
        names[item.last]: (str(item), not dropped.brings(item, told))
        for item in items(told)
        if item.outcome is Outcome.DIFFER
    }
    return found | (
        {"": ("phone and station have different keys of a connection", True)} if connected(told) is False else {}
    )


def signature(line: StepLine | None) -> tuple[str, str, str | None, str | None] | None:
    """What of a line is compared: who, the answer, the text and the way. Numbers and NCCs shift in harmless ways."""
    return (line.who, line.answer, line.text, line.note.way if line.note else None) if line else None


class Comparison:
    """A variant beside the scenario, both with their probes; the items of its faults do not count as differences."""

    def __init__(self, usual: Standing, here: Standing, own: set[str]):
        self.usual, self.here, self.own = usual, here, own

    def outcomes(self) -> dict[str, About]:
        """Each outcome, and what it is about."""
        if self.here.course.ended:
            return {"coincidence": About(self.here.course.report.splitlines()[-1])}
        found: dict[str, list[Part]] = {}
        for word, what in self.worse():
            found.setdefault(word, []).append(what)
        if not found:
            found["goes on" if self.differs() else "same"] = []
        return {word: About.of(found[word]) for word in sorted(found, key=lambda word: -RANK[word])}

    def differs(self) -> bool:
        names = {*self.usual.lines, *self.here.lines}
        return any(
            signature(self.usual.lines.get(name)) != signature(self.here.lines.get(name))
            for name in names
            if name.rstrip("+") not in self.own
        )

    def worse(self) -> Iterator[tuple[str, Part]]:
        yield from self.of_packets()
        yield from self.of_contexts()
        yield from self.of_keys()
        usual, here = self.usual, self.here
        refused = [name for name in probe.HANDOVER if is_done(usual, name) and not is_done(here, name)]
        if refused:
            yield "no handover", said(here, refused[0])
        if here.passes and here.view != here.serving and usual.view == usual.serving:
            yield "misrouted", Part(f"the core has {at(here.view)}, the phone station {here.serving}")
        if any(before and not now for before, now in paired(usual.nas, here.nas)) or (
            usual.again and here.again is not True
        ):
            for name, before, now in zip(
                ("no NAS text up", "no NAS text down", "no service"), [*usual.nas, usual.again], [*here.nas, here.again]
            ):
                if before and not now:
                    yield "NAS apart", Part(name)
        new = [told for name, told in here.different.items() if name not in usual.different]
        if new:
            alike = [what for what, is_alike in new if is_alike]
            yield "keys differ", Part(alike[-1]) if alike else Part(new[-1][0], is_here=True)

    def of_packets(self) -> Iterator[tuple[str, Part]]:
        usual, here = self.usual, self.here
        if here.passes and not usual.passes:
            yield "better", Part()
        lost = [
            name
            for name, line in usual.lines.items()
            if line.text is not None
            and name not in self.own
            and not name.startswith(probe.PROBE)
            and self.text(name) != line.text
        ]
        for name in lost:
            yield "packet lost", Part(step=name)
        if not usual.passes or here.passes:
            return
        if here.up is None or here.down is None:
            yield "COUNTs apart", Part("up" if here.up is None else "down")
        if here.up is False or here.down is False:
            yield ("cut off" if here.again is True else "stuck"), said(
                here, "up", "up arrives", f"down {here.serving}", f"down {here.serving} arrives"
            )

    def text(self, name: str) -> str | None:
        line = self.here.lines.get(name)
        return line.text if line else None

    def of_contexts(self) -> Iterator[tuple[str, Part]]:
        before = self.usual.contexts()
        for station, answer in self.here.contexts().items():
            if station != self.here.serving and answer != "NoUe" and before[station] == "NoUe":
                yield "context left", Part(f"station {station}")

    def of_keys(self) -> Iterator[tuple[str, Part]]:
        usual, here = self.usual, self.here
        for name, line in usual.lines.items():
            now = here.lines.get(name)
            if (
                line.note
                and now
                and now.note
                and (line.note.way, now.note.way) == ("vertical", "horizontal")
                and line.who == "phone"
            ):
                at = "horizontal at the next handover" if name.startswith(probe.PROBE) else f"horizontal at step {name}"
                yield "weaker key", Part(at, is_here=now.note.key in here.dropped.instead)
        reach = here.reach()
        if len(reach) > len(usual.reach()):
            is_so = len(here.reach(by_standard=True)) > len(usual.reach(by_standard=True))
            yield "weaker key", Part(f"{' '.join(sorted(reach))} can derive the phone's key", is_here=not is_so)
        made = here.made()
        for name, what in usual.made().items():
            if name not in made:
                yield NOT_MADE, Part(what, name)


def is_done(standing: Standing, name: str) -> bool:
    line = standing.lines.get(named(name))
    return line is not None and line.answer == "done"


def said(standing: Standing, *names: str) -> Part:
    """The first of these items of the probe that is not done, and its answer."""
    for name in names:
        line = standing.lines.get(named(name))
        if line is not None and line.answer != "done":
            return Part(f"{line.who} {line.answer}", answer=line.answer)
    return Part("nothing comes")


def at(station: int | None) -> str:
    return "no station" if station is None else f"station {station}"


class HasOutcomes(Protocol):
    """A variant with its outcomes."""

    @property
    def faults(self) -> tuple[Fault, ...]:
        ...

    @property
    def outcomes(self) -> dict[str, About]:
        ...


def limit(variant: HasOutcomes, word: str, messages: dict[str, str]) -> str | None:
    """What a product does where an outcome is a limit of this profile and not of LTE."""
    about = variant.outcomes[word]
    if about.is_read or about.waits:
        return about.limit if about.is_read else "a core waits"
    if word == "cut off":
        if about.answer == "NotConnected":
            return "a phone asks again at its timer"
        return (
            "the station has no context, so that a phone goes idle and asks for service"
            if about.answer == "NoUe"
            else "a phone re-establishes"
        )
    if word == "misrouted":
        late = any(
            fault.kind in ("late", "twice") and messages[fault.item] == "Handover Notify" for fault in variant.faults
        )
        return "this core takes any Handover Notify of its connection" if late else None
    if word in ("weaker key", "keys differ"):
        return "a station keeps its pair at a handover within it" if about.is_here else None
    if word == "context left" and any(
        fault.kind == "lost" and messages[fault.item] == "Path Switch Request" for fault in variant.faults
    ):
        return "a core does not know the new station, and answers a handover over S1 from it with Error Indication"
    if word in ("stuck", "NAS apart") and any(
        fault.kind == "lost" and messages[fault.item].startswith("NAS Security Mode") for fault in variant.faults
    ):
        return "the core sends its command again at T3460"
    if word == "no handover" and about.answer == "AttemptOpen":
        return "a timer of the source ends the attempt"
    if word == "no handover" and about.answer == "OldConnection":
        return "the core answers from the old KASME until the key is changed"
    return "the core or a timer releases it" if word == "context left" else None
