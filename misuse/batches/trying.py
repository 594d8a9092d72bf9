"""Tries the edits of crates: many in one check, and by themselves those of which that check does not tell."""
from __future__ import annotations

import concurrent.futures
import dataclasses
import os
import signal
import threading

from batches import plan
from batches.crates import Crate, Unfit, build_libraries, check
from batches.edits import Edit, Placed, Stale, Texts, place
from batches.kept import Kept
from batches.said import Kind, Said, Verdict, judge, read_said

# The memory that a check of one crate is given, in KiB: the largest takes a little less.
MEMORY = 3_500_000

Found = dict[Edit, Verdict]


@dataclasses.dataclass
class Tried:
    """What the edits of a crate came to: how many were tried in this run, in how many checks, and the seconds of
    processor for them."""

    crate: Crate
    found: Found
    tried: int = 0
    checks: int = 0
    seconds: float = 0.0


class Trying:
    """The edits of one crate while they are tried."""

    def __init__(self, crate: Crate, kept: Kept) -> None:
        self.kept = kept
        self.texts: Texts = crate.texts()
        self.done = Tried(crate, {})

    def all(self, edits: list[Edit]) -> Tried:
        """Tries the edits that no earlier run refused."""
        crate, placed = self.done.crate, []
        for edit in edits:
            known = self.kept.find(crate, edit)
            if known:
                self.done.found[edit] = known
                continue
            try:
                placed.append(place(edit, self.texts))
            except Stale as why:
                self.done.found[edit] = Verdict(Kind.BAD, why=str(why))
        self.done.tried = len(placed)
        for batch in plan.batches(placed, self.texts):
            self.batch(batch)
        return self.done

    def batch(self, batch: plan.Batch) -> None:
        """Tries a batch. One that does not compile is halved; an edit of which it does not tell is tried by itself,
        over the whole crate."""
        said = self.said(batch, [name.path for it in batch for name in it.functions])
        if isinstance(said, Verdict):
            self.retry(batch, said)
            return
        for it in batch:
            verdict = judge(said, it.functions, is_by_itself=it.is_alone)
            if verdict.kind in (Kind.PROVED, Kind.UNCLEAR) and not it.is_alone:
                verdict = self.by_itself(it)
            self.done.found[it.edit] = verdict
            self.kept.keep(self.done.crate, it.edit, verdict)

    def retry(self, batch: plan.Batch, why: Verdict) -> None:
        """Tries the halves of a batch that the prover never read, down to the edit that is in the way."""
        if len(batch) == 1:
            self.done.found[batch[0].edit] = why
            return
        for half in plan.halves(batch):
            self.batch(half)

    def by_itself(self, placed: Placed) -> Verdict:
        """Tries one edit over the whole crate: a caller may stand on what it changes."""
        said = self.said((placed,), [])
        return said if isinstance(said, Verdict) else judge(said, placed.functions, is_by_itself=True)

    def said(self, batch: plan.Batch, only: list[str]) -> Said | Verdict:
        """What the prover says of the crate with a batch in it, or why it says nothing of any function."""
        texts = plan.together(batch, self.texts)
        ran = check(self.done.crate, texts, only)
        if ran.status in (2, -signal.SIGKILL):
            # the prover knows a function by another name, or the memory ran out
            ran = check(self.done.crate, texts, [])
        self.done.checks += 1
        self.done.seconds += ran.seconds
        said = read_said(ran.text)
        if ran.status < 0:
            return Verdict(
                Kind.UNTRIED, why=f"its check was ended by signal {-ran.status}, as for want of memory: run this again"
            )
        return said if said.reached else Verdict(Kind.BAD, why=said.first_error)


def try_all(edits: dict[Crate, list[Edit]], kept: Kept, tell: "Tell") -> list[Tried]:
    """Tries the edits of crates side by side, as many crates as there are processors and memory for."""
    lanes = threading.BoundedSemaphore(number_of_lanes())
    libraries = threading.Lock()

    def one(crate: Crate, of_it: list[Edit]) -> Tried:
        with lanes:
            try:
                if not all(kept.find(crate, it) for it in of_it):
                    with libraries:
                        build_libraries(crate)
            except Unfit as why:
                return Tried(crate, {it: Verdict(Kind.UNTRIED, why=str(why)) for it in of_it})
            tried = Trying(crate, kept).all(of_it)
            tell(tried)
            return tried

    # the dearest first, so that none is left over at the end
    order = sorted(edits, key=lambda it: -len(edits[it]) * sum(text.count("\n") for text in it.texts().values()))
    with concurrent.futures.ThreadPoolExecutor(number_of_lanes()) as pool:
        started = [pool.submit(one, it, edits[it]) for it in order]
        return [it.result() for it in started]


class Tell:
    """Tells what the edits of a crate came to, as it is known."""

    def __call__(self, tried: Tried) -> None:
        """Prints a line for a crate of which something was tried."""
        if tried.tried:
            print(
                (
                    f"edits: {tried.crate.name}: {tried.tried} of {len(tried.found)} tried in {tried.checks} checks, "
                    f"{tried.seconds:.0f} s of processor"
                ),
                flush=True,
            )


def number_of_lanes() -> int:
    """How many checks run side by side: RT_JOBS, or one for each processor for which there is memory."""
    named = os.environ.get("RT_JOBS", "")
    if named.isdigit() and int(named):
        return int(named)
    with open("/proc/meminfo", encoding="utf-8") as lines:
        free = next((int(it.split()[1]) for it in lines if it.startswith("MemAvailable:")), MEMORY)
    processors = len(os.sched_getaffinity(0))
    return max(1, processors if processors * MEMORY <= free else free // MEMORY)
