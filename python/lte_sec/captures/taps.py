"""What several taps and clocks do to a trace: messages that a second tap shows again, and a clock of X2 that is not
that of S1."""
from __future__ import annotations

from collections import Counter
from collections.abc import Iterable, Mapping
from dataclasses import dataclass, replace
from typing import Optional

from .decoding import Message
from .message_store import Kept, Messages, only

APART = 5.0  # seconds between the two taps of a message
DOUBLED = 0.9  # of the messages of one capture that come twice: then it is one tap and another
MANY = 1 << 12  # messages that may come again: of so many and more those that are too old go
LATE = 0.000_001  # seconds by which a clock is moved beyond a bound


def capture_of(message: Message) -> str:
    """The capture of a message: frames of all but the first have its name before them."""
    return message.frame.rpartition(" ")[0]


def alike(message: Message) -> tuple[object, ...]:
    """What two taps show alike of a message: all but frame, time and verification tag."""
    return (
        message.link,
        message.name,
        message.source,
        message.target,
        message.enb_id,
        message.mme_id,
        message.old_x2,
        message.new_x2,
        message.key,
        message.nh,
        message.ncc,
        message.eci,
        message.container,
        message.command,
        message.tmsi,
        tuple(message.nas),
        message.cause,
        message.fault,
    )


class SecondTaps:
    """Finds the messages that a second tap shows again. Of what may come again it keeps no more than a sum, and that
    for as long as it may."""

    def __init__(self, messages: Messages, is_bounded: bool = True):
        self.messages, self.is_bounded = messages, is_bounded
        self.elsewhere: list[int] = []
        self.same: list[tuple[int, str]] = []
        self.last: dict[int, tuple[int, float]] = {}  # place and time, by the sum of what taps show alike
        self.told: Counter[str] = Counter()  # messages of each capture
        self.most = MANY  # messages that are kept, before those that are too old go
        self.newest = self.gone = float("-inf")  # the latest time, and that of what is kept no more
        self.is_sure = True  # all that came was later than what is kept no more

    def take(self, place: int, message: Message) -> None:
        if message.link not in ("S1", "X2"):
            return
        capture, key, time = capture_of(message), alike(message), message.time
        self.told[capture] += 1
        self.is_sure &= time - APART > self.gone
        self.newest = max(self.newest, time)
        mark = hash(key)
        before = self.last.get(mark)
        first = self.messages[before[0]] if before is not None and 0 <= time - before[1] <= APART else None
        if first is not None and alike(first) == key:
            if capture_of(first) == capture:
                self.same.append((place, capture))
            else:
                self.elsewhere.append(place)
            self.last.pop(mark)  # a third one begins anew
        else:
            self.last[mark] = place, time
        if self.is_bounded and len(self.last) > self.most:
            self.forget()

    def forget(self) -> None:
        """What is too old to come again is kept no more."""
        self.gone = self.newest - 2 * APART
        self.last = {key: one for key, one in self.last.items() if one[1] >= self.gone}
        self.most = max(MANY, 2 * len(self.last))

    def left(self) -> set[int]:
        """The places of what is left out."""
        if not self.is_sure:  # times went back
            again = SecondTaps(self.messages, False)
            for place, message in enumerate(self.messages):
                again.take(place, message)
            return again.left()
        again_of = Counter(capture for _, capture in self.same)
        doubled = {name for name, number in again_of.items() if 2 * number >= DOUBLED * self.told[name] and number > 1}
        return {*self.elsewhere, *(place for place, capture in self.same if capture in doubled)}


def without_second_taps(messages: Messages) -> tuple[Messages, str]:
    """The messages without those that a second tap shows again, and a note on them or nothing."""
    taps = SecondTaps(messages)
    for place, message in enumerate(messages):
        taps.take(place, message)
    return without_these(messages, taps.left())


def without_these(messages: Messages, left: set[int]) -> tuple[Messages, str]:
    if not left:
        return messages, ""
    kept = only(messages, (place for place in range(len(messages)) if place not in left))
    return kept, f"{len(left)} messages are shown twice, by two taps of their links, and are left out the second time"


TSNS, FAR = 1 << 32, 1 << 16  # of SCTP, and the widest gap that is taken for one


class Gaps:
    """Finds where the capture lost frames of S1: after one place and before another; SCTP's numbers of DATA chunks go
    on by one (RFC 9260 1.5).

    They are in the order of the second place.
    """

    def __init__(self) -> None:
        self.found: list[tuple[int, int]] = []
        self.last: dict[tuple[str, str, str], tuple[int, int]] = {}

    def take(self, place: int, message: Message) -> None:
        stream = message.source, message.target, message.tag
        for tsn in message.tsns if message.link == "S1" else ():
            before, due = self.last.get(stream, (place, tsn))
            ahead = (tsn - due) % TSNS
            if ahead < FAR:
                if ahead:
                    self.found.append((before, place))
                self.last[stream] = place, (tsn + 1) % TSNS


@dataclass
class Bounds:
    """By how much the clock of X2 may be moved: above the one, below the other."""

    above: float = float("-inf")
    below: float = float("inf")

    def shift(self) -> float:
        """The least shift within the bounds; none where they contradict each other or allow none at all."""
        if self.above >= self.below or self.above < 0 < self.below:
            return 0.0
        room = min(LATE, (self.below - self.above) / 2)
        return self.above + room if self.above >= 0 else self.below - room


class ExchangeTimes:
    """The times of one handover over X2, or of one path switch: the first message and the last."""

    __slots__ = ("begin", "end")

    def __init__(self, begin: float, end: float | None = None):
        self.begin, self.end = begin, end


PhoneAndCell = tuple[Optional[int], Optional[int]]  # the core's identity for a phone, and the cell that it goes to


class Courses:
    """Finds the handovers over X2 (answer, release) and the path switches (request, answer) of each phone to each
    cell."""

    def __init__(self) -> None:
        self.asked: dict[tuple[str, str, int | None], PhoneAndCell] = {}
        self.handovers: dict[PhoneAndCell, list[ExchangeTimes]] = {}
        self.switches: dict[PhoneAndCell, list[ExchangeTimes]] = {}
        self.last: dict[int, ExchangeTimes] = {}

    def take(self, message: Message) -> None:
        if message.link == "X2" and message.name == "HandoverRequest":
            self.asked[message.source, message.target, message.old_x2] = message.mme_id, message.eci
        elif message.link == "X2":
            phone = self.asked.get((message.target, message.source, message.old_x2))
            if phone is not None and message.name == "HandoverRequestAcknowledge":
                self.handovers.setdefault(phone, []).append(ExchangeTimes(message.time))
            elif phone is not None and message.name == "UEContextRelease" and self.handovers.get(phone):
                self.handovers[phone][-1].end = message.time
        elif message.name == "PathSwitchRequest" and message.mme_id is not None:
            self.last[message.mme_id] = ExchangeTimes(message.time)
            self.switches.setdefault((message.mme_id, message.eci), []).append(self.last[message.mme_id])
        elif message.name == "PathSwitchRequestAcknowledge" and message.mme_id in self.last:
            self.last.pop(message.mme_id).end = message.time


def courses(messages: Iterable[Message]) -> Courses:
    found = Courses()
    for message in messages:
        found.take(message)
    return found


def answers(
    messages: Messages,
) -> tuple[dict[PhoneAndCell, list[ExchangeTimes]], dict[PhoneAndCell, list[ExchangeTimes]]]:
    """The same where S1 up is not covered: an answer tells no cell, and is the latest time of its request. It may be
    that of a handover that the trace does not show, so that this only offers a clock."""
    handovers = courses(messages).handovers
    merged: dict[PhoneAndCell, list[ExchangeTimes]] = {}
    switches: dict[PhoneAndCell, list[ExchangeTimes]] = {}
    for (phone, _), done in handovers.items():
        merged.setdefault((phone, None), []).extend(done)
    for message in messages:
        if message.name == "PathSwitchRequestAcknowledge":
            switches.setdefault((message.mme_id, None), []).append(ExchangeTimes(message.time, message.time))
    return {phone: sorted(done, key=lambda one: one.begin) for phone, done in merged.items()}, switches


def bounds(
    handovers: Mapping[PhoneAndCell, list[ExchangeTimes]], switches: Mapping[PhoneAndCell, list[ExchangeTimes]]
) -> Bounds:
    """What each handover over X2 says: its answer comes before the path switch, and its release after the answer to
    that.

    Handovers of a phone to a cell are paired with its path switches from there only where there are as many.
    """
    found = Bounds()
    for phone, done in handovers.items():
        for one, switch in zip(done, switches.get(phone, [])):
            if len(done) == len(switches[phone]) and abs(switch.begin - one.begin) <= APART and one.end is not None:
                found.below = min(found.below, switch.begin - one.begin)
                found.above = max(found.above, switch.end - one.end) if switch.end is not None else found.above
    return found


def on_one_clock(messages: Messages, found: Courses | None = None) -> tuple[Messages, str]:
    """The messages in the order of one clock, and a note on the clock of X2 if that is another than that of S1: by the
    courses that were found, or else by the answers of the core alone."""
    shift = (bounds(found.handovers, found.switches) if found is not None else bounds(*answers(messages))).shift()
    if shift == 0.0:
        return messages, ""
    moved = Kept(replace(one, time=one.time + shift) if one.link == "X2" else one for one in messages)
    return (
        moved.by_time(),
        (
            f"the clock of X2 is {abs(shift) * 1000:.3f} ms or more {'early' if shift > 0 else 'late'} against that "
            "of S1, and is set right"
        ),
    )
