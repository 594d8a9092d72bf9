"""What-if by goal: the smallest sets of faults that have an outcome.

`lte_variants` lists each choice of so many faults once, in its order. So where it lists none of a size with the
outcome, no set of that size has it: of these messages and these kinds, with the faults put in by their order.
"""
from __future__ import annotations

import sys
import time
from collections import Counter
from collections.abc import Iterator
from math import comb
from typing import Any, NamedTuple

from ..common.progress import Rate
from .spread import Gathering, Share, unrun
from .study import Study
from .variant_lists import FEW_FAULTS, MOST_NAMED, Lists
from .what_if_document import Answer, lines_of, tellings

MOST_FAULTS, USUAL_FAULTS, MANY, LONG = 8, 3, 1_000_000, 100_000


class Goal(NamedTuple):
    """An outcome, of how many faults a set has at most, and whether more than a million sets of a size are tried,
    too."""

    outcome: str
    up_to: int
    goes_on: bool


class Search(Gathering):
    """The smallest sets with the outcome as they come in, from one fault on."""

    def __init__(self, study: Study, lists: Lists, share: Share, goal: Goal):
        super().__init__(study, lists, share)
        self.goal = goal
        self.searched = 0  # the greatest size of which each set was tried
        self.choices = 0  # of the next size, where these are not tried
        self.each = 0.0  # seconds for a choice of the size before

    def gather(self) -> None:
        try:
            for faults in range(1, self.goal.up_to + 1):
                if self.is_long(faults) or self.finds(faults):
                    break
        except KeyboardInterrupt:
            self.answer.whole = False
        self.answer.messages |= self.study.names(self.lists.messages, self.lists.serving)
        self.answer.sort()
        self.answer.goal = self.told()

    def alone(self) -> int:
        """How many faults can happen alone."""
        return sum(self.answer.counts.get(1, Counter()).values())

    def is_long(self, faults: int) -> bool:
        """Whether sets of this size are not tried: there are more than are tried unasked, or the program takes so many
        faults of named messages alone."""
        choices = comb(self.alone(), faults)
        is_wide = faults > FEW_FAULTS and not self.lists.is_narrow
        self.choices = choices if choices and is_wide or choices > MANY and not self.goal.goes_on else 0
        return self.choices > 0

    def finds(self, faults: int) -> bool:
        """Tries each set of this size, and tells those that have the outcome."""
        kept = self.answer.singles if faults == 1 else self.answer.together
        counts = self.answer.counts.setdefault(faults, Counter())
        choices, began = comb(self.alone(), faults), time.monotonic()
        if choices > LONG:
            print(
                f"lte_sec: up to {choices:,} sets of {faults} faults, which take about {lasting(choices * self.each)}",
                file=sys.stderr,
            )
        rate = Rate(f"sets of {faults} faults", choices)
        for variant in self.listed(faults, None):
            counts[variant.outcomes[0]] += 1
            if self.goal.outcome in variant.outcomes:
                kept.append(unrun(variant))
            rate.one()
        self.searched = faults
        self.each = (time.monotonic() - began) / max(1, comb(self.alone(), faults))
        self.tell_of(kept, 0)
        return bool(kept)

    def told(self) -> dict[str, Any]:
        sets = [*self.answer.singles, *self.answer.together]
        return {
            "is": self.goal.outcome,
            "up_to": self.goal.up_to,
            "searched": self.searched,
            "smallest": len(sets[0].faults) if sets else None,
            "faults": self.alone(),
            "too_many": self.choices or None,
        }

    def warning(self) -> str:
        """What is said where sets of a size were not tried: how many, and how long they take, or of how many messages
        they are taken."""
        if self.searched >= FEW_FAULTS and not self.lists.is_narrow:
            return (
                f"sets of more than {FEW_FAULTS} faults are tried of {MOST_NAMED} messages at most; name them "
                f"with --messages, or --up-to {FEW_FAULTS} leaves the sets out"
            )
        return (
            f"sets of {self.searched + 1} faults are some {self.choices:,}, which take about "
            f"{lasting(self.choices * self.each)} at the rate so far; --yes tries them, "
            f"--messages and --kinds leave fewer, and --up-to {self.searched or 1} leaves them out"
        )


def lasting(seconds: float) -> str:
    """So long, in words."""
    for unit, size in (("days", 86_400), ("hours", 3_600), ("minutes", 60)):
        if seconds >= 2 * size:
            return f"{seconds / size:,.0f} {unit}"
    return f"{seconds:.0f} seconds"


def table(answer: Answer) -> Iterator[str]:
    """The lines: how large the smallest sets are, each of them, and what was searched."""
    goal, sets = answer.goal or {}, [*answer.singles, *answer.together]
    yield f"{goal['is']}: {found(len(sets), goal['smallest']) if sets else none(goal['searched'], answer.whole)}"
    yield from lines_of([*tellings(answer.singles, answer, -1), *tellings(answer.together, answer, -1)])
    kinds, number = ", ".join(answer.tried["kinds"]), len(answer.messages)
    counts = ", ".join(f"{sum(counts.values()):,} of {faults}" for faults, counts in sorted(answer.counts.items()))
    yield (
        f"searched: faults ({kinds}) of {number} message{'' if number == 1 else 's'}, put in by their order: "
        f"{counts or 'nothing'}"
    )


def found(sets: int, faults: int) -> str:
    if faults == 1:
        return f"{sets:,} fault{' has' if sets == 1 else 's have'} it alone"
    return (
        f"{sets:,} set{'' if sets == 1 else 's'} of {faults} faults {'has' if sets == 1 else 'have'} it, and "
        "none of fewer"
    )


def none(searched: int, whole: bool) -> str:
    so_far = "" if whole else ", and sets of more were not all tried"
    return (
        "no fault was tried"
        if not searched
        else "no fault has it"
        if searched == 1
        else f"no set of up to {searched} faults has it"
    ) + so_far
