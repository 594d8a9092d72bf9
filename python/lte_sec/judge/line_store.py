"""The lines of a reading, in a file but for the newest, so that a long report takes no more memory than a short one."""
from __future__ import annotations

import pickle
from array import array
from collections import Counter
from collections.abc import Callable, Iterable, Iterator, Sequence
from itertools import accumulate

from ..captures.message_store import Spool
from ..common.report import Line, Verdict

BATCH, NEWEST = 256, 512  # lines that are written at once, and that stay in memory


class KeptLines:
    """Lines in the order in which they were made. What is written is not changed any more, but for lines that others
    take the place of."""

    def __init__(self) -> None:
        self.recent: list[Line] = []  # from `begin` on
        self.begin = 0
        self.spool = Spool()
        self.batches: list[tuple[int, int]] = []  # where each stands in the file, and its size
        self.firsts, self.places = array("i"), array("i")  # of what is written, of its frame and of its message
        self.changed: dict[int, Line] = {}  # what takes the place of what is written
        self.counts: Counter[Verdict] = Counter()  # of what is written
        self.is_held = False
        self.last: tuple[int, list[Line]] = -1, []  # the batch that was read last

    def append(self, line: Line) -> None:
        self.recent.append(line)

    def extend(self, lines: Iterable[Line]) -> None:
        self.recent.extend(lines)

    def since(self, before: int) -> Sequence[Line]:
        """The lines from a number on, of which none is written."""
        return self.recent[before - self.begin :]

    def __len__(self) -> int:
        return self.begin + len(self.recent)

    def __getitem__(self, number: int) -> Line:
        if number >= self.begin:
            return self.recent[number - self.begin]
        batch, at = divmod(number, BATCH)
        if self.last[0] != batch:
            self.last = batch, pickle.loads(self.spool.get(*self.batches[batch]))
        return self.changed.get(number) or self.last[1][at]

    def __setitem__(self, number: int, line: Line) -> None:
        if number >= self.begin:
            self.recent[number - self.begin] = line
            return
        self.counts[self[number].verdict] -= 1
        self.counts[line.verdict] += 1
        self.changed[number] = line

    def __iter__(self) -> Iterator[Line]:
        return map(self.__getitem__, range(len(self)))

    def count(self, verdict: Verdict) -> int:
        return self.counts[verdict] + sum(line.verdict == verdict for line in self.recent)

    def verdicts(self) -> Counter[Verdict]:
        """How many lines have each verdict."""
        return self.counts + Counter(line.verdict for line in self.recent)

    def settle(self, first: Callable[[str], int | None]) -> None:
        """Writes what stands long enough; `first` is the place of the first message of a frame."""
        while len(self.recent) > NEWEST + BATCH and not self.is_held:
            lines = self.recent[:BATCH]
            try:
                octets = pickle.dumps(lines, pickle.HIGHEST_PROTOCOL)
            except RecursionError:  # a key that is made from very many others, one after the other
                return self.hold()
            self.batches.append((self.spool.put(octets), len(octets)))
            for line in lines:
                place = first(line.frame)
                self.firsts.append(0 if place is None else place)
                self.places.append(self.firsts[-1] if line.place is None else line.place)
            self.counts.update(line.verdict for line in lines)
            self.begin += BATCH
            del self.recent[:BATCH]

    def hold(self) -> None:
        """Has all lines in memory from now on, where they may be changed."""
        self.put(list(self))

    def put(self, lines: list[Line]) -> None:
        """Has these lines in place of all, in memory."""
        self.recent, self.begin, self.is_held = lines, 0, True
        self.batches, self.firsts, self.places, self.changed, self.counts, self.last = (
            [],
            array("i"),
            array("i"),
            {},
            Counter(),
            (-1, []),
        )

    def sort(self, first: Callable[[str], int | None]) -> tuple[LinesInOrder, LinesInOrder]:
        """The lines in the order of the first messages of their frames; and so in the order of their own messages."""
        firsts, places = self.firsts[:], self.places[:]
        for line in self.recent:
            place = first(line.frame)
            firsts.append(0 if place is None else place)
            places.append(firsts[-1] if line.place is None else line.place)
        by_frame = in_order(range(len(self)), firsts)
        return LinesInOrder(self, by_frame, places), LinesInOrder(self, in_order(by_frame, places), places)


def in_order(numbers: Sequence[int], places: Sequence[int]) -> array[int]:
    """All numbers in the order of their places; those of one place stay as they are. It takes four octets for each."""
    ends = array("i", [0]) * (max(places, default=-1) + 1)
    for place in places:
        ends[place] += 1
    ends, found = array("i", accumulate(ends)), array("i", [0]) * len(numbers)
    for number in reversed(numbers):
        ends[places[number]] -= 1
        found[ends[places[number]]] = number
    return found


class LinesInOrder:
    """Lines of a reading in some order, each with the place of its message."""

    def __init__(self, lines: KeptLines, order: Sequence[int], places: Sequence[int]):
        self.lines, self.order, self.places = lines, order, places

    def __iter__(self) -> Iterator[Line]:
        return map(self.lines.__getitem__, self.order)

    def placed(self) -> Iterator[tuple[int, Line]]:
        return ((self.places[number], self.lines[number]) for number in self.order)

    def verdicts(self) -> Counter[Verdict]:
        return self.lines.verdicts()
