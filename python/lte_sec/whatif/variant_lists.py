"""Variants and outcomes as the proved program `lte_variants` lists them.

It writes `scenario STEPS MESSAGES serving STATION heals HEALS`, a line for each thing that is wrong in the scenario
itself, as `keys differ 33`, a line `message STEP KIND` for each message, a line for each variant, as `late 9 12, lost
14: stuck; not made, heals authentication, serving 1, sent 1101`, and `end VARIANTS`. Variants are numbered in one
order, of which a share takes each N-th.
"""
from __future__ import annotations

import heapq
import os
import signal
import subprocess
from collections.abc import Iterator
from functools import lru_cache
from typing import NamedTuple

from ..runs.courses import ProgramFails
from ..runs.variants import KINDS, Fault
from .healing import Heals

MOST_STEPS, TOO_MANY = 2_000, 11
MOST_NAMED, FEW_FAULTS = 8, 5  # so many messages the program takes by name, and so many faults of all messages


class TooManySteps(Exception):
    """The scenario has more steps than the program takes."""


class Sending(NamedTuple):
    """What is told of the run of a variant and of the probe behind it: the station that serves, and of each line
    whether it sent."""

    serving: int
    sent: str = ""


class Listed(NamedTuple):
    """A variant: its faults, its outcomes, the worst first, what heals it, where that is told, and which lines of its
    run sent."""

    faults: tuple[Fault, ...]
    outcomes: tuple[str, ...]
    heals: Heals | None = None
    sending: Sending | None = None


@lru_cache(maxsize=None)
def fault_of(text: str) -> Fault:
    kind, item, *after = text.split(" ")
    return Fault(kind, item, after[0] if after else None)


@lru_cache(maxsize=None)
def outcomes_of(text: str) -> tuple[str, ...]:
    return tuple(text.split("; "))


@lru_cache(maxsize=None)
def heals_of(text: str) -> Heals | None:
    return Heals.listed(text) if text else None


def variant_of(line: str) -> Listed:
    """The variant of a line."""
    faults, _, told = line.partition(": ")
    told, _, sending = told.partition(", serving ")
    outcomes, _, heals = told.partition(", heals ")
    return Listed(tuple(map(fault_of, faults.split(", "))), outcomes_of(outcomes), heals_of(heals), sending_of(sending))


def sending_of(text: str) -> Sending | None:
    """What is told of a run, as `1, sent 1101`."""
    serving, _, sent = text.partition(", sent ")
    return Sending(int(serving), sent) if text else None


@lru_cache(maxsize=None)
def place(fault: Fault) -> tuple[int, int, int]:
    """The place of a fault among all: by message, kind and place."""
    return int(fault.item), KINDS.index(fault.kind), int(fault.after or 0)


def order(variant: Listed) -> tuple[tuple[int, int, int], ...]:
    return tuple(map(place, variant.faults))


class Lists:
    """What the program lists of a scenario, with faults of these kinds, and of the messages that are named, if some
    are."""

    def __init__(
        self, program: str, scenario: bytes, kinds: tuple[str, ...], packets: bool, named: tuple[str, ...] = ()
    ):
        self.program, self.named = program, named
        self.is_narrow = 0 < len(named) <= MOST_NAMED
        self.options = [
            *kinds,
            "sent",
            *(["--packets"] if packets else []),
            *(["of", *sorted(named, key=int)] if self.is_narrow else []),
        ]
        self.file = os.memfd_create("scenario")
        os.pwrite(self.file, scenario, 0)
        self.serving: int | None = None
        self.heals: Heals | None = None  # what heals the scenario itself
        self.messages: dict[str, str] = {}
        self.itself: list[str] = []  # what is wrong in the scenario itself
        self.count = 0  # of variants that were listed

    def __del__(self) -> None:
        os.close(self.file)

    def all(self, faults: int, part: tuple[int, int] | None, jobs: int) -> Iterator[Listed]:
        """The variants of so many faults, or a part of them, in their order, by so many processes of which each lists a
        share."""
        first, parts = part or (1, 1)
        shares = [self.share(faults, first + parts * job, parts * jobs) for job in range(jobs)]
        return iter(heapq.merge(*shares, key=order)) if jobs > 1 else shares[0]

    def share(self, faults: int, number: int, of: int) -> Iterator[Listed]:
        """The variants of a share."""
        words = [self.program, "sets", str(faults), f"{number}/{of}", *self.options]
        with open(f"/proc/self/fd/{self.file}", "rb") as scenario, subprocess.Popen(
            words, stdin=scenario, stdout=subprocess.PIPE, text=True
        ) as process:
            assert process.stdout
            try:
                yield from self.variants(process.stdout)
                self.ended(process.wait())
            finally:
                process.kill()

    def variants(self, lines: Iterator[str]) -> Iterator[Listed]:
        """The variants of these lines, which have their number behind them; what else they say is kept."""
        count = 0
        for line in lines:
            text = line.rstrip("\n")
            word, _, rest = text.partition(" ")
            if word == "end":
                if rest != str(count):
                    raise ProgramFails(f"lte_variants ends with {rest} variants, and not with {count}")
                return
            if word == "message":
                step, _, name = rest.partition(" ")
                if not self.named or step in self.named:
                    self.messages[step] = name
            elif word == "scenario":
                _, _, _, serving, _, heals = rest.split(" ")
                self.serving, self.heals = int(serving), heals_of(heals)
            elif word in ("keys", "stuck", "packet"):
                if text not in self.itself:
                    self.itself.append(text)
            else:
                count += 1
                variant = variant_of(text)
                if not self.named or all(fault.item in self.named for fault in variant.faults):
                    self.count += 1
                    yield variant

    def ended(self, status: int) -> None:
        """How a process ended."""
        if status == -signal.SIGINT:
            raise KeyboardInterrupt
        if status == TOO_MANY:
            raise TooManySteps(f"the scenario has more than {MOST_STEPS:,} steps")
        if status:
            raise ProgramFails(f"lte_variants ends with status {status}")
