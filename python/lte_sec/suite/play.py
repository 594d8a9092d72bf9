"""A scenario of the suite, played: each actor of the written machine beside the product's, which is told the same, and
what each row came to."""
from __future__ import annotations

import threading
import time
from typing import Any, NamedTuple

from lte_sec.drive import frames, records
from lte_sec.runs import scenarios
from lte_sec.suite import visits
from lte_sec.drive.network import Network, Told
from lte_sec.drive.peers import Peer, PeerFault
from lte_sec.suite.rows import Visit

SILENT = 3  # so often an actor may be silent for its whole time before it is no longer started


class Case(NamedTuple):
    """A scenario with its name, the steps that are left of it, by their numbers, and what it is cut out for."""

    name: str
    scenario: scenarios.Scenario
    numbers: list[int] | None = None


class Result(NamedTuple):
    """What became of a row at an actor: the scenario and the first step, None for the Setup; `passed`, `differs`,
    `failed`, `timed out` or `not compared`, what differs, and the rows of this actor that came before."""

    visit: Visit
    name: str
    step: int | None
    outcome: str
    told: list[str]
    behind: tuple[Visit, ...] = ()


class Played(NamedTuple):
    """A scenario that was played: what became of the rows, the steps that changed something or sent something, and the
    seconds that it took."""

    results: list[Result]
    busy: set[int]
    seconds: float = 0.0


class Stopped(Exception):
    """The suite was stopped while a scenario was played."""


class Commands:
    """The program of the written machine, and the product's: by role, and by the name of a station. An actor that is
    silent too often is given up."""

    def __init__(self, reference: list[str], product: dict[str, list[str]], seconds: float):
        self.reference, self.product, self.seconds = reference, product, seconds
        self.silent: dict[str, int] = {}
        self.is_stopped = False
        self.lock = threading.Lock()

    def of(self, actor: str) -> list[str] | None:
        role = actor.split()[0]
        return self.product.get(actor, self.product.get(role))

    def is_given_up(self, actor: str) -> bool:
        return self.silent.get(actor.split()[0], 0) >= SILENT

    def was_silent(self, actor: str) -> None:
        with self.lock:
            role = actor.split()[0]
            self.silent[role] = self.silent.get(role, 0) + 1


def is_same(wanted: frames.Reply, got: bytes, by_answer: bool) -> bool:
    """Whether a reply is the wanted one: whole, or where only done and refused are told apart, apart from the cause."""
    if wanted.spelled() == got:
        return True
    if not by_answer or wanted.answer == 0:
        return False
    try:
        reply = frames.read_reply(frames.unframed(got))
    except frames.BadFrame:
        return False
    plain = {"answer": wanted.answer, "values": wanted.values}
    return reply.answer != 0 and frames.Reply(**{**reply.__dict__, **plain}) == wanted


class Pair:
    """One actor: that of the written machine, and the product's where there is one, as long as it is compared."""

    def __init__(self, actor: str, setup: bytes, commands: Commands, case: Case, by_answer: bool):
        self.actor, self.commands, self.case, self.by_answer = actor, commands, case, by_answer
        self.role = actor.split()[0]
        self.watch = visits.watch(self.role)
        self.product: Peer | None = None
        self.has_product = commands.of(actor) is not None
        self.reference = Peer(commands.reference, actor, 60)
        self.setup = setup
        self.results: dict[tuple[Visit, str], Result] = {}
        self.busy: set[int] = set()

    def start(self) -> None:
        """Starts both, and tells the Setup."""
        command = self.commands.of(self.actor)
        if command is not None and not self.commands.is_given_up(self.actor):
            try:
                self.product = Peer(command, self.actor, self.commands.seconds)
            except PeerFault as why:
                self.failed(Visit(self.role, "Setup", "any", "done", ""), None, why)
        self.reference.connect()
        self.reference.send(self.setup)
        if self.product:
            try:
                self.product.connect()
                self.product.send(self.setup)
            except PeerFault as why:
                self.failed(Visit(self.role, "Setup", "any", "done", ""), None, why)
        self.judge(
            Visit(self.role, "Setup", "any", "done", ""),
            None,
            frames.read_reply(frames.unframed(self.reference.reply())),
        )

    def tell(self, step: int, told: Told) -> frames.Reply:
        """Tells both, and judges the product's reply by the other."""
        if self.commands.is_stopped:
            raise Stopped
        self.reference.send(told.body)
        if self.product:
            self.product.send(told.body)
        reply = frames.read_reply(frames.unframed(self.reference.reply()))
        visit = self.watch.visit(frames.read_input(self.role, False, told.body), reply, told.made_by)
        self.judge(visit, step, reply)
        if reply.answer == 0 or reply.record is not None:
            self.busy.add(step)
        return reply

    def judge(self, visit: Visit, step: int | None, wanted: frames.Reply) -> None:
        if self.product is None:
            if step is not None:
                self.note(visit, step, "not compared", [])
            return
        try:
            got = self.product.reply()
        except PeerFault as why:
            self.failed(visit, step, why)
            return
        if is_same(wanted, got, self.by_answer):
            if step is not None:
                self.note(visit, step, "passed", [])
        else:
            self.note(visit, step, "differs", records.differences(wanted.spelled(), got, self.actor))
            self.leave()

    def note(self, visit: Visit, step: int | None, outcome: str, told: list[str]) -> None:
        """Keeps what became of a row, the first time."""
        if self.has_product and (visit, outcome) not in self.results:
            before = tuple(dict.fromkeys(each for each, _ in self.results)) if outcome == "differs" else ()
            self.results[visit, outcome] = Result(visit, self.case.name, step, outcome, told, before)

    def failed(self, visit: Visit, step: int | None, why: PeerFault) -> None:
        if why.is_silent:
            self.commands.was_silent(self.actor)
        said = self.product.words(why.is_silent) if self.product else ""
        self.note(
            visit, step, "timed out" if why.is_silent else "failed", [f"{self.actor}: {why}", *said.splitlines()[-3:]]
        )
        self.leave()

    def leave(self) -> None:
        """The product is compared no longer."""
        if self.product:
            self.product.end()
        self.product = None

    def end(self) -> None:
        self.leave()
        self.reference.end()


def play(case: Case, commands: Commands, by_answer: bool) -> Played:
    """Plays a scenario: what each row comes to, for the actors that the product has."""
    network, began = Network(case.scenario), time.monotonic()
    pairs: dict[str, Pair] = {}

    def tell(place: int, told: Told, step: Any) -> frames.Reply:
        if told.actor not in pairs:
            pair = pairs[told.actor] = Pair(told.actor, network.setup_of(told.actor), commands, case, by_answer)
            pair.start()
        return pairs[told.actor].tell(case.numbers[place] if case.numbers else place, told)

    try:
        network.run(tell)
    finally:
        for pair in pairs.values():
            pair.end()
    results = [result for pair in pairs.values() for result in pair.results.values()]
    return Played(results, set().union(*(pair.busy for pair in pairs.values())), time.monotonic() - began)
