"""What a list of items comes to, by the proved program.

An item is an act, or the delivery of what another item sent. The program counts records, and a record that is not sent
moves the numbers of all after it. So a list is run with a guess of which items send, until a run does what was guessed:
that run is the list's course. Where `lte_variants` told which lines of its own run sent, that is the first guess, and
the right one. A delivery of what was not sent falls away. What is sent where the scenario sends nothing is delivered at
once.
"""
from __future__ import annotations

import os
from collections.abc import Mapping
from dataclasses import dataclass

from .run_report import StepLine
from .scenarios import Step, text, value

SENT = "1"  # of a line, in what is told of a run
GUESSES = 8  # so many runs take from a run all that seems sure; after that only what comes first
DEEPEST = 8  # so many records that nobody expects are delivered one out of the other


@dataclass(frozen=True)
class Item:
    """An act with its table, or the delivery of what the item `of` sent; and the item with which it moves."""

    name: str
    step: Step
    table: str
    of: str | None = None
    cause: str | None = None

    @property
    def do(self) -> str:
        return str(self.step["do"])


def act(name: str, step: Step, cause: str | None = None) -> Item:
    return Item(name, step, value(step), None, cause)


def delivery(name: str, of: str) -> Item:
    return Item(name, {"do": "deliver"}, "", of, of)


@dataclass
class Course:
    """The items that happened in order, the line of each, the report, and the steps with which `run` prints it."""

    items: list[Item]
    lines: dict[str, StepLine]
    report: str
    steps: list[str]
    runs: int

    @property
    def ended(self) -> bool:
        """Whether it ends at a coincidence."""
        return len(self.lines) < len(self.items)

    def sends(self) -> dict[str, bool]:
        """Of each item whether it sent."""
        return {item.name: item.name in self.lines and self.lines[item.name].sent is not None for item in self.items}

    def actors(self, names: set[str]) -> set[str]:
        """Who takes part in these items, and in what they send and is delivered at once."""
        found: set[str] = set()
        for name in names:
            while name in self.lines:
                found |= actors(self.lines[name])
                name += "+"
        return found


def actors(line: StepLine) -> set[str]:
    """Who takes a step."""
    return {"phone", "core"} if line.who == "both" else set() if line.who == "world" else {line.who}


class ProgramFails(Exception):
    """The program ends with a status that a scenario does not give."""


class Runs:
    """Runs of the program on scenarios of one setup, counted."""

    def __init__(self, program: str, setup: str):
        self.program, self.setup, self.count = program, setup, 0
        self.files: dict[int, tuple[int, int]] = {}

    def run(self, steps: list[str]) -> str:
        """The report of these steps."""
        self.count += 1
        status, octets = self.ran(text(self.setup, steps).encode())
        if status not in (0, 7):
            raise ProgramFails(
                f"the program ends with status {status} for a variant: {octets[:80].decode(errors='replace').strip()}"
            )
        return octets.decode()

    def ran(self, given: bytes) -> tuple[int, bytes]:
        """The status of a run, and what it writes. The program writes line by line, and a pipe would wake this process
        at each, so both texts are in files; each process has its own."""
        import subprocess  # only where a program is run, as it takes long to load

        process = os.getpid()
        if process not in self.files:
            self.files[process] = os.memfd_create("scenario"), os.memfd_create("report")
        scenario, report = self.files[process]
        for file in (scenario, report):
            os.ftruncate(file, 0)
            os.lseek(file, 0, os.SEEK_SET)
        os.pwrite(scenario, given, 0)
        status = subprocess.run(
            [self.program, "run"], stdin=scenario, stdout=report, stderr=subprocess.DEVNULL
        ).returncode
        return status, os.pread(report, os.fstat(report).st_size, 0)

    def course(self, items: list[Item], usual: Mapping[str, bool], guess: Mapping[str, bool], sent: str = "") -> Course:
        """The course of these items, where the scenario's own send as `usual` says, by a first guess; of the first
        lines by which of them sent, where that is told."""
        return GuessSearch(items, usual, guess).course(self, sent)


class GuessSearch:
    """The search for a guess that its run confirms."""

    def __init__(self, items: list[Item], usual: Mapping[str, bool], guess: Mapping[str, bool]):
        self.items, self.usual = items, usual
        self.guess = {**usual, **guess}
        self.delivered = {item.of for item in items if item.of is not None}
        self.placed: list[
            tuple[Item, int | None]
        ] = []  # each item that is thought to happen, and the number of its record
        self.missing: list[tuple[int, Item]] = []  # each delivery that is thought to fall away, and its place

    def sends(self, name: str) -> bool:
        return self.guess.get(name, False)

    def is_extra(self, name: str) -> bool:
        """Whether what this item sends is delivered at once: neither the scenario nor the list has a delivery of it."""
        return name not in self.delivered and not self.usual.get(name, False) and name.count("+") < DEEPEST

    def place(self, sent: str) -> list[str]:
        """The steps of a run, by the guess, which takes in what is told of the first lines."""
        self.placed, self.missing = [], []
        numbers: dict[str, int] = {}
        steps: list[str] = []
        rest = self.items[::-1]
        while rest:
            item = rest.pop()
            number = None if item.of is None else numbers.get(item.of)
            if item.of is not None and number is None:
                self.missing.append((len(self.placed), item))
                continue
            self.placed.append((item, number))
            steps.append(item.table if number is None else f'{{ do = "deliver", record = {number} }}')
            if len(steps) <= len(sent):
                self.guess[item.name] = sent[len(steps) - 1] == SENT
            if self.sends(item.name):
                numbers[item.name] = len(numbers)
                if self.is_extra(item.name):
                    rest.append(delivery(item.name + "+", item.name))
        return steps

    def course(self, runs: Runs, sent: str) -> Course:
        count = 0
        while True:
            steps = self.place("" if count else sent)
            report, count = runs.run(steps), count + 1
            lines = [
                line for line in map(StepLine.read, report.split("\n", len(self.placed))[: len(self.placed)]) if line
            ]
            if not self.learn(lines, count > GUESSES):
                items = [item for item, _ in self.placed]
                return Course(items, {item.name: line for item, line in zip(items, lines)}, report, steps, count)

    def learn(self, lines: list[StepLine], strictly: bool) -> bool:
        """Whether a run differs from the guess, which then takes in what is sure: what comes first, and, unless
        strictly, the lines of actors to whom nothing came by a wrong number. Where that was wrong, a later run differs
        there first."""
        walk, missing, differs = Walk(self), iter([*self.missing, (len(lines), None)]), False
        at, lost = next(missing)
        for place, ((item, number), line) in enumerate(zip(self.placed, lines)):
            while lost is not None and at <= place:
                walk.miss(lost)
                at, lost = next(missing)
            sure = walk.take(item, number, line)
            if (line.sent is not None) != self.sends(item.name):
                if sure:
                    self.guess[item.name] = line.sent is not None
                differs = True
                if strictly:
                    break
        return differs


class Walk:
    """A walk through the lines of a run: which records there are, and to whom something came by a wrong number."""

    def __init__(self, search: GuessSearch):
        self.search = search
        self.records: list[tuple[str, bool]] = []
        self.sent: dict[str, StepLine] = {}
        self.wrong: set[str] = set()

    def miss(self, item: Item) -> None:
        """A delivery that was thought to fall away."""
        if item.of in self.sent:
            self.wrong |= receivers(self.sent[item.of])

    def take(self, item: Item, number: int | None, line: StepLine) -> bool:
        """Takes an item and its line; whether the line is sure."""
        who, wrong = actors(line), False
        if number is not None:
            wrong = number >= len(self.records) or self.records[number] != (item.of, True)
            if wrong:
                self.wrong |= who | (receivers(self.sent[item.of]) if item.of in self.sent else set())
        sure = not wrong and not who & self.wrong
        if line.sent is not None:
            self.records.append((item.name, sure))
            self.sent[item.name] = line
            if not self.search.sends(item.name) and self.search.is_extra(item.name):
                self.wrong |= receivers(line)
        return sure


def receivers(line: StepLine) -> set[str]:
    """To whom what this line sent may go."""
    stations = {f"station {number}" for number in range(8)}
    if line.kind == "nas":
        return {"phone", "core"} - {line.who}
    if line.kind == "air":
        return stations if line.who == "phone" else {"phone"}
    return {"core"} if line.kind == "s1" and line.who != "core" else stations
