"""The variants of one scenario, each run with the probe behind it and judged."""
from __future__ import annotations

from collections.abc import Iterator, Mapping
from dataclasses import dataclass, field, replace
from itertools import islice
from typing import Any

from ..runs.courses import Course, Item, ProgramFails, Runs, act, delivery
from ..runs.messages import NAS_TEXT
from ..runs.scenarios import Scenario, setup_text
from ..runs.variants import Fault, Faults, Original, moved, own_guess
from ..runs.waiting import crossings, of_course, waits
from .chart import Charts
from .healing import Heals
from .outcomes import GOES_ON, RANK, About, Comparison, Standing
from .probe import PROBE, Prober
from .variant_lists import Sending

HANDOVERS = ("x2", "s1", "intra")
MOST_ANSWERS = 3
MOST_WAITS = 4  # so many steps of a variant wait, one after the other


@dataclass
class Variant:
    """A variant: its faults, its outcomes with what they are about, the worst first, and the answers that lead to them.
    One that was not run has no more than its outcomes, what heals it, and which lines of its run sent."""

    faults: tuple[Fault, ...]
    outcomes: dict[str, About]
    answers: list[str] = field(default_factory=list)
    run: list[Any] = field(default_factory=list)  # of one fault: its course beside the scenario's, and what falls away
    gone: list[str] = field(default_factory=list)
    by_run: list[str] = field(default_factory=list)  # the outcomes of its own run, where the program lists others
    heals: Heals | None = None  # what heals it, where that is told
    sending: Sending | None = None

    @property
    def worst(self) -> str:
        return next(iter(self.outcomes))


@dataclass
class Tried:
    """A variant that was run: its course, the station that serves the phone, and its refusals, once they are asked
    for."""

    variant: Variant
    course: Course
    serving: int
    refusals: list[tuple[str, str]] | None = None


class Study:
    """A scenario with its own probe, to which its variants are compared."""

    def __init__(self, program: str, scenario: Scenario, follows: bool = False, charts: bool = False):
        """Where it follows, a handover is begun by the station that serves; with charts the course of each variant is
        kept."""
        self.scenario, self.follows = scenario, follows
        self.runs = Runs(program, setup_text(scenario.setup))
        self.original = Original(scenario, self.runs)
        self.faults = Faults(self.original)
        self.prober = Prober(self.runs, scenario)
        first, behind = next(iter(self.prober.probes.items()))
        sources = {item.of for item in behind}
        usual = self.original.usual() | {item.name: item.name in sources for item in behind}
        self.course, self.serving = self.prober.probed(self.original.items, usual, {}, Sending(first), first)
        self.usual = usual | self.course.sends()
        self.standing = Standing(scenario, self.course, self.serving)
        self.charts = Charts(scenario, self.course) if charts else None

    def names(self, messages: Mapping[str, str], serving: int | None) -> dict[str, str]:
        """The names of the messages that the program has, with the station that serves; that of a NAS text is its
        type."""
        if serving not in (None, self.serving):
            raise ProgramFails(
                f"station {serving} serves by lte_variants, and station {self.serving} by the lines of run"
            )
        for step, name in messages.items():
            here = self.original.messages.get(step)
            if here != name and name != NAS_TEXT:
                raise ProgramFails(f"step {step} delivers {name} by lte_variants, and {here} by the lines of run")
        return {step: self.original.messages[step] for step in messages}

    def tried(self, faults: tuple[Fault, ...], sending: Sending | None = None) -> Tried:
        """The variant with these faults, which go together, by which lines of its run sent, where that is told."""
        items = self.faults.put_all(faults)
        if items is None:
            raise ProgramFails(f"lte_variants has {' and '.join(map(str, faults))}, which do not go together")
        course, serving = self.followed(items, own_guess(items, self.usual), sending or Sending(self.serving))
        standing = Standing(self.scenario, course, serving)
        own = own_items(items, self.faults.of) | {fault.item for fault in faults if fault.kind == "lost"}
        outcomes = Comparison(self.standing, standing, own).outcomes()
        return Tried(self.told(faults, self.marked(outcomes, items, course, own), course), course, serving)

    def healed(self, heals: Heals | None, tried: Tried, sending: Sending | None) -> Heals | None:
        """What heals a variant that was run; where nothing does, with the reason."""
        items = self.faults.put_all(tried.variant.faults) or []
        return self.with_reason(heals, items, tried.course, sending or Sending(tried.serving))

    def own_healed(self, heals: Heals | None) -> Heals | None:
        """What heals the scenario itself; where nothing does, with the reason."""
        return self.with_reason(heals, self.original.items, self.course, Sending(self.serving))

    def with_reason(self, heals: Heals | None, items: list[Item], course: Course, sending: Sending) -> Heals | None:
        """The same with the reason, by a run of its own behind these items and the probe, where nothing heals and this
        station serves."""
        if heals is None or heals.by:
            return heals
        return Heals(None, self.prober.refusal(items, self.usual, course.sends(), sending))

    def marked(self, outcomes: dict[str, About], items: list[Item], course: Course, own: set[str]) -> dict[str, About]:
        """The outcomes, with a mark on those that are not there where each security procedure of the core waits for the
        one that it crosses."""
        if RANK[next(iter(outcomes))] <= RANK[GOES_ON] or course.ended:
            return outcomes
        waited, serving, now = items, self.serving, course
        for _ in range(MOST_WAITS):
            put = next(
                (put for crossing in crossings(of_course(now, PROBE)) if (put := waits(waited, crossing)) is not None),
                None,
            )
            if put is None:
                break
            waited = put
            now, serving = self.followed(waited, own_guess(waited, self.usual), Sending(serving))
        if now is course:
            return outcomes
        standard = Comparison(self.standing, Standing(self.scenario, now, serving), own).outcomes()
        return {word: about if word in standard else about.waiting() for word, about in outcomes.items()}

    def told(self, faults: tuple[Fault, ...], outcomes: dict[str, About], course: Course) -> Variant:
        run, gone = self.charts.run(course) if self.charts and len(faults) == 1 else ([], [])
        return Variant(faults, outcomes, self.answers(course), run, gone)

    def is_alike(self, before: Fault, fault: Fault, course: Course) -> bool:
        """Whether all ends as in the course of the fault before: it has the place before, and the item that is passed
        has no actor in common with what passes it."""
        if self.follows or before.after is None or fault.after in (None, fault.item):
            return False
        items = self.original.items
        at, was, to = (
            next(place for place, item in enumerate(items) if item.name == name)
            for name in (fault.item, before.after, fault.after)
        )
        names, passed = {fault.item + "'"} if fault.kind == "twice" else moved(items, at, to), items[to]
        if any(item.name not in names for item in items[was + 1 : to]):
            return False
        return (
            passed.name not in course.lines
            or passed.do != "inject"
            and not course.actors(names) & course.actors({passed.name})
        )

    def alike(self, faults: tuple[Fault, ...], before: Tried) -> Variant:
        """The variant that ends as this one: the same lines, in its own order."""
        places = {item.name: place for place, item in enumerate(self.faults.put_all(faults) or [])}
        course = before.course
        if not self.charts and not course.ended:  # answers are all that depends on the order
            if before.refusals is None:
                before.refusals = list(self.refusals(course))
            refused = sorted(before.refusals, key=lambda one: places.get(one[0].rstrip("+"), len(places)))
            return Variant(faults, before.variant.outcomes, first_of([text for _, text in refused]))
        items = sorted(course.items, key=lambda item: places.get(item.name.rstrip("+"), len(places)))
        return self.told(faults, before.variant.outcomes, replace(course, items=items))

    def followed(self, items: list[Item], guess: dict[str, bool], sending: Sending) -> tuple[Course, int]:
        """The course of the items, in which, if so chosen, a handover that its station cannot begin is begun by the one
        that serves, which cancels an open one first."""
        done: set[tuple[str, int, bool]] = set()
        while True:
            course, serving = self.prober.probed(items, self.usual, guess, sending, self.serving)
            change = self.to_follow(course) if self.follows and not course.ended else None
            if change is None or change in done:
                return course, serving
            done.add(change)
            items, guess, sending = self.led(items, *change), course.sends(), Sending(serving)

    def led(self, items: list[Item], name: str, station: int, cancels: bool) -> list[Item]:
        """The items, in which this station begins and commands this handover, or cancels an open one before it."""
        if cancels:
            at = next(place for place, item in enumerate(items) if item.name == name)
            first, second, third = (f"{name}{letter}'" for letter in "efg")
            return [
                *items[:at],
                act(first, {"do": "cancel", "station": station}),
                delivery(second, first),
                delivery(third, second),
                *items[at:],
            ]
        return [
            act(item.name, {**item.step, "station": station}, item.cause) if self.is_of(item, name) else item
            for item in items
        ]

    def is_of(self, item: Item, name: str) -> bool:
        """Whether an item is the beginning or the command of a handover."""
        begin = item
        while begin.cause is not None and begin.cause in self.faults.of:
            begin = self.faults.of[begin.cause]
        return item.of is None and begin.name == name and item.do in (*HANDOVERS, "command")

    def to_follow(self, course: Course) -> tuple[str, int, bool] | None:
        """The first handover that is refused here and not in the scenario while another station serves, and that
        station; or while the serving one has another open."""
        standing = Standing(self.scenario, course, self.serving)
        serving: int | None = None
        for item in course.items:
            line = course.lines[item.name]
            if item.name.startswith(PROBE):
                break
            if line.who == "phone" and line.note:
                serving = standing.station_of(line.note.key, item)
            elif item.do == "idle" and line.answer == "done":
                serving = None
            elif (
                serving is not None
                and item.do in HANDOVERS
                and line.answer != "done"
                and self.original.lines[item.name].answer == "done"
            ):
                target = self.scenario.cells.get((item.step["cell"][0], item.step["cell"][1]))
                if serving not in (item.step["station"], target):
                    return item.name, serving, False
                if (
                    serving == item.step["station"]
                    and line.answer == "AttemptOpen"
                    and f"{item.name}e'" not in course.lines
                ):
                    return item.name, serving, True
        return None

    def answers(self, course: Course) -> list[str]:
        """The first answers that are refusals here and not in the scenario."""
        return first_of([text for _, text in islice(self.refusals(course), MOST_ANSWERS + 1)])

    def refusals(self, course: Course) -> Iterator[tuple[str, str]]:
        """The items before the probe whose answers are refusals here and not in the scenario, and these answers."""
        for item in course.items:
            if item.name.startswith(PROBE) or item.name not in course.lines:
                break
            line, before = course.lines[item.name], self.original.lines.get(item.name)
            if line.answer != "done" and (before is None or before.answer != line.answer):
                yield item.name, f"{line.who} {line.answer} at {shown(item.name)}"


def first_of(answers: list[str]) -> list[str]:
    return answers[:MOST_ANSWERS] + ([".."] if len(answers) > MOST_ANSWERS else [])


def own_items(items: list[Item], of: dict[str, Item]) -> set[str]:
    """The items that faults have put in."""
    return {item.name for item in items if item.name not in of}


def shown(name: str) -> str:
    """An item in words."""
    if name.endswith("+"):
        return f"the answer to {shown(name[:-1])}"
    plain = name.rstrip("'")
    step = plain.rstrip("abcdefg")
    if step == name:
        return f"step {step}"
    return (
        f"the cancel before step {step}"
        if plain[-1] in "efg"
        else f"the {'copy' if plain == step else 'repeat'} of step {step}"
    )
