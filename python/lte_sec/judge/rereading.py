"""The search for another reading of a trace: of all that take the offers differently, the one with the fewest
differences counts.

What differs in the first reading and behind an offer is read again with that offer, best first, as far as the bounds
go: so many readings of the messages concerned, and so many steps of a trace. Where a bound was reached, what differs
behind the first offer is not judged. A step is a message that is read, so that no clock decides what is told.
"""
from __future__ import annotations

from collections.abc import Callable, Hashable, Iterator
from dataclasses import dataclass

from ..captures.coverage import listed
from ..captures.stations import station_end
from ..common.causes import Cause
from ..common.report import DIFFERS, RIGHT, UNKNOWN, Line, withdrawn
from .choices import Groups, Offer, Tape
from .trace import Trace

READINGS = 48  # of the messages of phones that share identities
NEAREST = 8  # offers before a difference that are tried
TIMES, LEAST = 4, 8_000  # all readings again take so many steps for each message of the trace, or so many steps
OTHERWISE = "read otherwise than at first sight, as less differs so"


@dataclass
class Reading:
    """What came of some messages in a reading: offers that it met, lines, and the numbers of connections by place."""

    tape: Tape
    offers: list[tuple[int, Offer]]
    lines: list[Line]
    owners: dict[int, int]

    def differing(self) -> list[int]:
        """The places of what differs."""
        return [line.place for line in self.lines if line.verdict == DIFFERS and line.place is not None]

    def cost(self) -> tuple[int, int, int]:
        """The fewest differences first, then the least that is not judged, since a reading that knows nothing has no
        differences; then the fewest offers."""
        return len(self.differing()), sum(line.verdict == UNKNOWN for line in self.lines), len(self.tape)

    def open(self) -> list[tuple[int, Offer]]:
        """The offers that the first difference may depend on, the nearest first: those of its connection behind the
        last line that is right, which says whose its message is, and all connections that may have gone on."""
        first = min(self.differing())
        owner = self.owners.get(first)
        right = [
            line.place
            for line in self.lines
            if line.verdict == RIGHT
            and line.place is not None
            and line.place < first
            and self.owners.get(line.place) == owner
        ]
        sure = max(right, default=-1)
        found = [
            (place, offer)
            for place, offer in self.offers
            if place <= first and (offer is Offer.STAYS or place > sure and self.owners.get(place) == owner)
        ]
        return sorted(found, reverse=True)


def best(first: Reading, again: Callable[[Tape, int], Reading], may_go_on: Callable[[], bool]) -> tuple[Reading, bool]:
    """The reading with the fewest differences, and whether all were tried that these may depend on."""
    queue, chosen, whole, seen = [first], first, True, {first.tape}
    while queue and chosen.differing():
        queue.sort(key=Reading.cost)
        one = queue.pop(0)
        offers = one.open()
        whole &= len(offers) <= NEAREST
        for tape in (one.tape | {offer} for offer in offers[:NEAREST]):
            if tape in seen:
                continue
            if len(seen) > READINGS or not may_go_on():
                return chosen, False
            seen.add(tape)
            other = again(tape, len(one.differing()))
            queue += [other] if other.cost() < one.cost() else []
            chosen = min(chosen, other, key=Reading.cost)
            if not chosen.differing():
                break
    return chosen, whole


def groups(trace: Trace) -> tuple[list[set[int]], set[int]]:
    """The places of messages of phones that share identities or KASMEs, and of those that belong to no phone."""
    joined, first = Groups(), dict[int, Hashable]()
    kasmes: dict[int, set[str]] = {}
    for line in trace.lines:
        if line.place is not None and line.kasme:
            kasmes.setdefault(line.place, set()).add(line.kasme)
    for place in range(len(trace.messages)):
        marks = [*marks_of(trace, place), *(("KASME", name) for name in kasmes.get(place, ()))]
        if marks:
            first[place] = marks[0]
            joined.join(marks)
    found: dict[Hashable, set[int]] = {}
    for place, mark in first.items():
        found.setdefault(joined.root(mark), set()).add(place)
    return list(found.values()), set(range(len(trace.messages))) - set(first)


def marks_of(trace: Trace, place: int) -> Iterator[Hashable]:
    """What tells of which phone a message is."""
    message = trace.messages[place]
    owner = trace.owners.get(place)
    if owner is not None:
        yield "connection", owner
    if message.link == "S1":
        end = station_end(message)
        core = message.target if end == message.source else message.source
        identities = (
            (end, message.enb_id),
            ("core", core, message.mme_id),
            ("container", message.container),
            ("S-TMSI", message.tmsi),
        )
        yield from (one for one in identities if one[-1] is not None)


def reading(trace: Trace, places: set[int]) -> Reading:
    return Reading(
        trace.choices.taken,
        [one for one in trace.choices.met if one[0] in places],
        [line for line in trace.lines if line.place in places],
        {place: number for place, number in trace.owners.items() if place in places},
    )


class Rereading:
    """Reads again what other choices may explain, and tells of it."""

    def __init__(self, trace: Trace):
        self.trace, self.left = trace, max(LEAST, TIMES * len(trace.messages))
        self.taken: list[tuple[int, Offer]] = []
        self.withdrawn = 0

    def may_go_on(self) -> bool:
        return self.left > 0

    def all(self) -> None:
        """Each group of messages in which something differs behind an offer."""
        met = {place for place, _ in self.trace.choices.met}
        if not met or not self.trace.count(DIFFERS):
            return
        self.trace.judge.lines.hold()
        differing = {line.place for line in self.trace.lines if line.verdict == DIFFERS and line.place is not None}
        found, common = groups(self.trace)
        for places in found:
            if places.isdisjoint(met) or places.isdisjoint(differing):
                continue
            first = reading(self.trace, places)
            if first.offers and first.differing() and min(first.offers)[0] <= max(first.differing()):
                self.group(first, places, common)

    def group(self, first: Reading, places: set[int], common: set[int]) -> None:
        traces: dict[Tape, Trace] = {}

        def again(tape: Tape, most: int) -> Reading:
            traces[tape] = self.trace.other(places | common, tape, most)
            self.left -= traces[tape].steps
            return reading(traces[tape], places)

        chosen, whole = best(first, again, self.may_go_on)
        if chosen.tape:
            self.trace.goes_on_from(traces[chosen.tape], places)
            self.taken += sorted(chosen.tape)
        if not whole:
            behind = min(chosen.offers)[0]
            for line in chosen.lines:
                if line.verdict == DIFFERS and line.place is not None and line.place >= behind:
                    withdrawn(line, Cause.SEARCH_ENDED.because())
                    self.withdrawn += 1

    def head(self) -> Iterator[str]:
        """What is told at the head of a report: the choices that were taken, and whether a bound was reached."""
        for offer in Offer:
            frames = [self.trace.messages[place].frame for place, one in sorted(self.taken) if one is offer]
            if frames:
                yield f"{OTHERWISE}: {offer.value}, at frame{'s' if len(frames) > 1 else ''} {listed(frames)}"
        if self.withdrawn:
            yield (
                f"the search for other readings was ended: {self.withdrawn} that "
                "differ are not judged for that reason"
            )


def read_again(trace: Trace) -> list[str]:
    """Reads again what differs and other choices may explain, as far as the steps go that its messages give; the notes
    on it."""
    found = Rereading(trace)
    found.all()
    return list(found.head())
