"""Two lists of one length, side by side: `zip` with a length that is checked, which Python has from 3.10 on."""
from __future__ import annotations

from collections.abc import Iterable, Iterator
from typing import TypeVar

One = TypeVar("One")
Other = TypeVar("Other")


def paired(one: Iterable[One], other: Iterable[Other]) -> Iterator[tuple[One, Other]]:
    """What stands at one place of both; an error of this package where one is longer."""
    ones, others = list(one), list(other)
    if len(ones) != len(others):
        raise AssertionError(f"{len(ones)} beside {len(others)}, which should be as many")
    return zip(ones, others)
