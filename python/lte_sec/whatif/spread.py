"""Variants spread over processes, and shares over machines: as the program lists them, and those that are told run
again."""
from __future__ import annotations

import os
import signal
import time
from collections import Counter
from collections.abc import Callable, Iterable, Iterator
from dataclasses import dataclass
from itertools import combinations, groupby, islice
from math import comb
from pathlib import Path
from typing import TYPE_CHECKING, Any, TypeVar

from ..common.progress import Rate
from ..runs.variants import Fault
from .outcomes import GOES_ON, KEYS_DIFFER, NOT_TOLD, RANK, About
from .saving import save
from .study import Study, Tried, Variant
from .variant_lists import Listed, Lists
from .what_if_document import Answer, line

if TYPE_CHECKING:
    from multiprocessing.pool import Pool

MANY_AT_ONCE = 32
ENDINGS = {signal.SIGINT, signal.SIGTERM}
PR_SET_PDEATHSIG = 1  # of prctl(2): the signal that a process gets where the one that began it ends
Some = TypeVar("Some")
More = TypeVar("More")


@dataclass
class Share:
    """How the variants are spread: so many processes, a part of so many, how many faults at once, where each is saved,
    and whether a line of each is wanted in place of the answer."""

    jobs: int = 1
    part: tuple[int, int] | None = None
    faults: int = 1
    folder: Path | None = None
    lines: bool = False


class Work:
    """What each process does: it runs variants."""

    def __init__(self, study: Study, share: Share):
        self.study, self.share = study, share
        self.has_all = share.folder is not None or study.charts is not None

    def told(self, variants: list[Variant]) -> tuple[list[Variant], int]:
        """Variants of one message and kind, or one of several faults, with what is told of them, and how many runs that
        took."""
        before = self.study.runs.count
        found: list[Variant] = []
        run: Tried | None = None  # the last that was run
        last: Fault | None = None  # that of the variant before, which ends as that, if it is told
        for variant in variants:
            if not self.has_all and RANK[variant.worst] <= RANK[GOES_ON]:
                found.append(variant)
                last = None
                continue
            if run and last and self.is_alike(run, last, variant):
                found.append(self.study.alike(variant.faults, run))
                found[-1].heals = run.variant.heals
            else:
                run = self.tried(variant)
                found.append(run.variant)
            last = variant.faults[0]
        return found, self.study.runs.count - before

    def is_alike(self, before: Tried, last: Fault, variant: Variant) -> bool:
        if (
            self.share.folder
            or list(before.variant.outcomes) != list(variant.outcomes)
            or healed_by(before.variant) != healed_by(variant)
        ):
            return False
        return self.study.is_alike(last, variant.faults[0], before.course)

    def tried(self, variant: Variant) -> Tried:
        """The variant as its run has it, with the outcomes that the program lists, saved where it is to be."""
        tried = self.study.tried(variant.faults, variant.sending)
        take_listed(tried.variant, list(variant.outcomes))
        tried.variant.heals = self.study.healed(variant.heals, tried, variant.sending)
        if self.share.folder:
            save(self.share.folder, self.study, tried.variant, tried.course)
        return tried

    def judged(self, variant: Listed) -> tuple[Listed, int]:
        """The variant with the outcomes of its own run, and how many runs that took."""
        before = self.study.runs.count
        outcomes = self.study.tried(variant.faults, variant.sending).variant.outcomes
        return variant._replace(outcomes=tuple(outcomes), heals=None), self.study.runs.count - before


def unrun(variant: Listed) -> Variant:
    """A variant that was not run."""
    outcomes = dict.fromkeys(variant.outcomes, About())
    return Variant(variant.faults, outcomes, heals=variant.heals, sending=variant.sending)


def take_listed(variant: Variant, listed: list[str]) -> None:
    """Gives a variant the outcomes that the program lists, with what those of its run are about; where its run has
    others, they are kept beside. `keys differ` is the program's alone: the report does not always tell which key was
    made for the phone (docs/WHATIF.md).
    """
    found = variant.outcomes
    if others(found) != others(listed) or KEYS_DIFFER not in (*found, *listed) and list(found) != listed:
        variant.by_run = list(found)
    variant.outcomes = {word: found.get(word, About(NOT_TOLD) if word == KEYS_DIFFER else About()) for word in listed}


def healed_by(variant: Variant) -> str | None:
    """By what it heals."""
    return variant.heals.by if variant.heals else None


def others(outcomes: Iterable[str]) -> list[str]:
    """Those that are told beside `keys differ`."""
    return [word for word in outcomes if word not in (KEYS_DIFFER, "same", GOES_ON)]


work: Work | None = None


def quiet(parent: int, prctl: Callable[[int, int], int]) -> None:
    """A process leaves ctrl-C to the one that began it, and ends where that one ends it or ends itself, whatever it did
    at a signal itself."""
    signal.signal(signal.SIGINT, signal.SIG_IGN)
    signal.signal(signal.SIGTERM, signal.SIG_DFL)
    prctl(PR_SET_PDEATHSIG, signal.SIGTERM)
    signal.pthread_sigmask(signal.SIG_UNBLOCK, ENDINGS)
    if os.getppid() != parent:  # it has ended before
        os._exit(0)


def told(variants: list[Variant]) -> tuple[list[Variant], int]:
    assert work
    return work.told(variants)


def judged(variant: Listed) -> tuple[Listed, int]:
    assert work
    return work.judged(variant)


def begun(jobs: int) -> Pool:
    """So many processes. A signal that comes while one begins waits until that does at it what it is to do, and not what
    this process does."""
    import ctypes  # these load much, and one process needs none of it
    import multiprocessing

    before = signal.pthread_sigmask(signal.SIG_BLOCK, ENDINGS)
    try:
        return multiprocessing.get_context("fork").Pool(jobs, quiet, (os.getpid(), ctypes.CDLL(None).prctl))
    finally:
        signal.pthread_sigmask(signal.SIG_SETMASK, before)


def spread(jobs: int, function: Callable[[Some], More], things: Iterable[Some]) -> Iterator[More]:
    """What a function makes of these things, by so many processes, in their order; by this one alone where they cannot
    be begun, as in a root without /dev/shm, which has the semaphores between them."""
    try:
        pool = begun(jobs) if jobs > 1 else None
    except (ImportError, OSError):
        pool = None
    if pool is None:
        yield from map(function, things)
        return
    rest = iter(things)
    with pool:
        while chunk := list(islice(rest, MANY_AT_ONCE * jobs)):
            yield from pool.imap(function, chunk)


def chain_of(variant: Variant) -> tuple[Any, ...]:
    """What variants that are run one after the other have in common: message and kind; of several faults each is run
    alone."""
    first = variant.faults[0]
    return (first.item, first.kind) if len(variant.faults) == 1 else variant.faults


class Gathering:
    """The answer as it comes in."""

    def __init__(self, study: Study, lists: Lists, share: Share):
        global work
        work = Work(study, share)
        self.study, self.lists, self.share = study, lists, share
        self.answer = Answer({}, {}, part=share.part)
        self.outcomes: dict[tuple[Any, ...], tuple[str, ...]] = {}  # of variants of fewer faults, to know what is new
        self.has_fewer = False  # whether these are there
        self.runs, self.began = study.runs.count, time.monotonic()

    def part(self, part: tuple[int, int]) -> Answer:
        """The answer for another part of the same."""
        before = self.answer
        self.share.part = part
        self.answer = Answer(before.tried, {}, part=part, frames=before.frames, chart=before.chart)
        self.gather()
        self.has_fewer = self.answer.whole
        return self.answer

    def gather(self) -> None:
        """All variants of this share, or those that there are when it is interrupted."""
        try:
            for faults in range(1, self.share.faults + 1):
                self.take(faults)
        except KeyboardInterrupt:
            self.answer.whole = False
        self.answer.messages |= self.study.names(self.lists.messages, self.lists.serving)
        self.answer.itself, self.answer.heals = list(self.lists.itself), self.study.own_healed(self.lists.heals)
        self.answer.sort()

    def take(self, faults: int) -> None:
        """The variants of so many faults; where more are tried at once each part needs them all, and tells its
        share."""
        if self.share.part and faults < self.share.faults and not self.has_fewer:
            self.outcomes |= {each.faults: each.outcomes for each in self.listed(faults, None)}
        kept = self.answer.singles if faults == 1 else self.answer.together
        counts = Counter[str]() if faults == 1 else self.answer.counts.setdefault(faults, Counter())
        at = len(kept)
        alone = sum(len(fewer) == 1 for fewer in self.outcomes)
        rate = Rate(f"variants of {faults} faults", comb(alone, faults) // (self.share.part or (1, 1))[1])
        for variant in self.listed(faults, self.share.part):
            counts[variant.outcomes[0]] += 1
            self.answer.counts[faults] = counts
            if faults < self.share.faults:
                self.outcomes[variant.faults] = variant.outcomes
            if self.share.lines:
                print(line(variant), flush=True)
            if faults == 1 or self.is_new(variant):
                kept.append(unrun(variant))
            rate.one()
        if work and (work.has_all or not self.share.lines):
            self.tell_of(kept, at)

    def listed(self, faults: int, part: tuple[int, int] | None) -> Iterator[Listed]:
        """The variants as the program lists them; where a handover is begun by the station that serves, as their own
        runs have them."""
        variants = self.lists.all(faults, part, self.share.jobs)
        if not self.study.follows:
            yield from variants
            return
        for variant, runs in spread(self.share.jobs, judged, variants):
            self.runs += runs
            yield variant

    def tell_of(self, variants: list[Variant], at: int) -> None:
        """Runs those that are told of these variants, from one place on, and puts what is told of them there."""
        chains = [list(chain) for _, chain in groupby(variants[at:], chain_of)]
        for found, runs in spread(self.share.jobs, told, chains):
            self.runs += runs
            variants[at : at + len(found)] = found
            at += len(found)

    def is_new(self, variant: Listed) -> bool:
        """Whether the faults bring an outcome that no fewer of them bring. A phone that is cut off by one and whose NAS
        comes apart by another is stuck, which is nothing new."""
        new = {word for word in variant.outcomes if RANK[word] > RANK[GOES_ON]}
        known = {word for fault in variant.faults for word in self.outcomes[(fault,)]}
        if {"cut off", "NAS apart"} <= known:
            new.discard("stuck")
        for fewer in combinations(variant.faults, 2) if len(variant.faults) > 2 else ():
            known.update(self.outcomes.get(fewer, ()))
        return bool(new - known)

    def cost(self) -> str:
        """What it took, in words."""
        many = sum(sum(counts.values()) for counts in self.answer.counts.values())
        jobs = f"{self.share.jobs} process{'' if self.share.jobs == 1 else 'es'}"
        return (
            f"{many:,} variants, and {self.runs:,} runs for what is told of them, in "
            f"{time.monotonic() - self.began:.1f} s, by {jobs}"
        )
