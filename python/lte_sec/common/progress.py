"""How far a long reading is, on standard error: nothing in the first seconds, then a line each ten."""
from __future__ import annotations

import sys
import time
from collections.abc import Iterable, Iterator
from typing import TypeVar

Unit = TypeVar("Unit")
SECONDS = 10.0
LOOK = 256  # items between two looks at the clock


def told(items: Iterable[Unit], what: str, of: int = 0) -> Iterator[Unit]:
    """The items as they come; how many of them are done is told."""
    last = time.monotonic()
    for number, item in enumerate(items):
        yield item
        if number % LOOK == LOOK - 1 and time.monotonic() - last >= SECONDS:
            last = time.monotonic()
            print(
                f"lte_sec: {number + 1:,}{f' of {of:,}' if of else ''} messages are {what}", file=sys.stderr, flush=True
            )


class Rate:
    """How far a listing is, from time to time: of how many, how fast, and how long it still takes."""

    EACH = 5.0

    def __init__(self, what: str, total: int):
        self.what, self.total, self.done = what, total, 0
        self.began = self.last = time.monotonic()

    def one(self) -> None:
        self.done += 1
        if self.total and self.done % LOOK == 0 and time.monotonic() - self.last >= self.EACH:
            self.last = time.monotonic()
            rate = self.done / (self.last - self.began)
            left = max(0, self.total - self.done) / rate
            print(
                f"lte_sec: {self.done:,} of up to {self.total:,} {self.what}, {rate:,.0f} a second, {left:,.0f} s more",
                file=sys.stderr,
                flush=True,
            )
