"""Variants of a scenario: its items, with one message or more lost, late, twice, or sent again."""
from __future__ import annotations

from collections.abc import Iterator, Mapping
from dataclasses import dataclass

from ..common import tables
from .courses import Item, Runs, act, delivery
from .messages import Names, nas_name
from .run_report import StepLine
from .scenarios import Scenario, Step, value

KINDS = tables.FAULTS
NOWHERE = 2**62  # the number of a record that is never sent
# What a delivery of these makes happen later: the act, and whose.
COMMANDED = ("X2 Handover Request Acknowledge", "Handover Command")
CONNECTED = ("Service Request", "NAS Security Mode Complete")


@dataclass(frozen=True)
class Fault:
    """A fault of one message: its kind, the item that delivers the message, and for `late` and `twice` the item after
    which it comes."""

    kind: str
    item: str
    after: str | None = None

    def __str__(self) -> str:
        return f"{self.kind} {self.item}" + (f" after {self.after}" if self.after is not None else "")


class Original:
    """The scenario itself: its items, what each delivery brings, and its course."""

    def __init__(self, scenario: Scenario, runs: Runs):
        self.scenario = scenario
        report = runs.run([value(step) for step in scenario.steps])
        lines = [line for line in map(StepLine.read, report.splitlines()[: len(scenario.steps)]) if line]
        self.lines = {str(number): line for number, line in enumerate(lines)}
        self.messages: dict[str, str] = {}  # of each delivery, what it brings
        self.items = list(self.read(lines))

    def read(self, lines: list[StepLine]) -> Iterator[Item]:
        """The items of the steps, each act with the delivery that makes it happen."""
        records: list[str] = []
        names = Names()
        named: dict[str, str] = {}
        causes: dict[str, str] = {}
        for number, (step, line) in enumerate(zip(self.scenario.steps, lines)):
            name, cause = str(number), str(step["do"])
            if cause == "deliver":
                at = step["record"] if step["record"] >= 0 else len(records) + step["record"]
                if 0 <= at < len(records):
                    cause = self.messages[name] = named[records[at]]
                    yield delivery(name, records[at])
                else:
                    yield act(name, {"do": "deliver", "record": NOWHERE})
                if cause in COMMANDED or cause in CONNECTED:
                    causes["core" if cause in CONNECTED else line.who] = name
            else:
                who = "core" if cause == "connect" else f"station {step.get('station')}"
                made = causes.pop(who, None) if cause in ("command", "connect", "x2", "s1", "intra", "cancel") else None
                yield act(name, step, made if cause in ("command", "connect") else None)
            sends = nas_name(step["text"]) if cause == "nas" else names.of(line, cause)
            if line.sent is not None:
                records.append(name)
                named[name] = sends

    def usual(self) -> dict[str, bool]:
        """Which steps send."""
        return {name: line.sent is not None for name, line in self.lines.items()}


def moved(items: list[Item], at: int, to: int) -> set[str]:
    """What moves with the item at one place to behind another: what it makes happen, and so on."""
    names = {items[at].name}
    for item in items[at + 1 : to + 1]:
        if item.cause in names:
            names.add(item.name)
    return names


def put_behind(items: list[Item], at: int, to: int, names: set[str]) -> list[Item]:
    """The items, in which those with these names, from one place on, stand behind another place."""
    between = items[at : to + 1]
    return [
        *items[:at],
        *(it for it in between if it.name not in names),
        *(it for it in between if it.name in names),
        *items[to + 1 :],
    ]


class Faults:
    """The faults of one scenario, put into lists of its items."""

    def __init__(self, original: Original):
        self.original = original
        self.of = {item.name: item for item in original.items}

    def put(self, items: list[Item], fault: Fault, mark: str = "'") -> list[Item] | None:
        """The list with a fault more, whose own items have this mark; None where the list does not have its item or its
        place."""
        places = {item.name: at for at, item in enumerate(items)}
        at = places.get(fault.item)
        to = places.get(fault.after) if fault.after is not None else at
        if at is None or to is None or to < at:
            return None
        if fault.kind == "lost":
            return [*items[:at], *items[at + 1 :]]
        if fault.kind == "again":
            again = self.again(items[at], mark)
            return None if again is None else [*items[:at], *again, *items[at + 1 :]]
        if fault.kind == "twice":
            of = items[at].of
            return None if of is None else [*items[: to + 1], delivery(fault.item + mark, of), *items[to + 1 :]]
        names = moved(items, at, to)
        if items[to].name in names:
            return None
        return put_behind(items, at, to, names)

    def put_all(self, faults: tuple[Fault, ...]) -> list[Item] | None:
        """The scenario's items with these faults; None where they do not go together."""
        items = self.original.items
        for number, fault in enumerate(faults):
            put = self.put(items, fault, "'" * (number + 1))
            if put is None:
                return None
            items = put
        return items

    def again(self, item: Item, mark: str) -> list[Item] | None:
        """The acts and deliveries by which its sender sends a message once more; None where no act does."""
        source = self.of.get(item.of or "")
        message = self.original.messages.get(item.name)
        if source is None or message is None:
            return None
        sender = self.original.lines[source.name].who
        station = int(sender[8:]) if sender.startswith("station") else None
        first, second, third, fourth = (f"{item.name}{letter}{mark}" for letter in "abcd")
        acts: dict[str, Step] = {
            "RRC Reconfiguration": {"do": "command", "station": station},
            "RRC Reconfiguration Complete": {"do": "resend"},
            "Path Switch Request": {"do": "ask", "station": station},
            "Service Request": {"do": "service"},
        }
        if message in acts:
            return [act(first, acts[message], source.name), delivery(item.name, first)]
        asked = self.of.get(source.of or "")
        if message == "Path Switch Request Acknowledge" and asked:
            return [
                act(first, {"do": "ask", "station": int(self.original.lines[asked.name].who[8:])}, source.name),
                delivery(second, first),
                delivery(item.name, second),
            ]
        opened = (
            source
            if message == "X2 Handover Request"
            else asked
            if message == "X2 Handover Request Acknowledge"
            else None
        )
        if opened is None or opened.do != "x2":
            return None
        begin = [
            act(first, {"do": "cancel", "station": opened.step["station"]}, source.name),
            delivery(second, first),
            act(third, opened.step, second),
        ]
        return (
            [*begin, delivery(item.name, third)]
            if source is opened
            else [*begin, delivery(fourth, third), delivery(item.name, fourth)]
        )


def own_guess(items: list[Item], usual: Mapping[str, bool]) -> dict[str, bool]:
    """A first guess of which items send: those that send in the scenario, if what makes them happen does; and what a
    fault has sent again."""
    guess: dict[str, bool] = {}
    happening: set[str] = set()
    delivered = {item.of for item in items}
    for item in items:
        if item.cause is None or (guess.get(item.of, False) if item.of is not None else item.cause in happening):
            happening.add(item.name)
        guess[item.name] = item.name in happening and usual.get(item.name, item.name in delivered)
    return guess
