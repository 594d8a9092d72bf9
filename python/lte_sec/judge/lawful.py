"""Blames of keys, asked of the proved program `lte_trace`: whether a lawful history gives what was captured.

The judge says `differs` where it finds no lawful history. Before that is told, the program searches for one of its own:
of the moves of the standard in the cells, at the COUNTs and between the taps of the trace, with so many unseen moves
between two messages. A blame that it explains becomes `not judged`. One that it does not explain is confirmed by proof,
as far as moves and bound go.
"""
from __future__ import annotations

from collections.abc import Iterator
from dataclasses import dataclass, field, replace

from ..common.causes import Cause, Why, every
from ..common.report import DIFFERS, UNKNOWN, Line, unknown_line
from .account import Account, Seen
from .questions import BOUNDS, Phone, Program, is_blamed, program
from .trace import Trace

FAR_BOUND = 6  # unseen moves between two messages, without moves over the air
ASKS = 64  # of a phone: each leaves out one message that no history gives
NOT_BUILT = (
    "blames of keys are not confirmed by proof: the program lte_trace is not built (./lte_sec --prove builds it)"
)


@dataclass(frozen=True)
class Waiting:
    """A blame that no history explains, until it is seen that some history has its message with another key."""

    place: int  # of the message in the question
    bound: int  # within how many unseen moves
    is_closed: bool  # whether no number of them on links does


@dataclass
class Verdicts:
    """What became of the blames of a trace, by the identity of their values."""

    confirmed: dict[int, bool] = field(default_factory=dict)  # whether no number of unseen moves on links gives it
    bounds: dict[int, int] = field(default_factory=dict)  # within how many unseen moves it is confirmed
    explained: dict[int, Why] = field(default_factory=dict)  # what the history rests on that gives it
    never: set[int] = field(
        default_factory=set
    )  # those that no history of any length gives, with moves over the air too
    open: int = 0

    def confirms(self, one: int, blame: Waiting) -> None:
        self.confirmed[one], self.bounds[one] = blame.is_closed, blame.bound

    def head(self, is_proved: bool) -> Iterator[str]:
        """What the head of a report says of its blames."""
        how = "by proof" if is_proved else "by lte_trace, which was built without proof"
        for bound in BOUNDS:
            found = [one for one in self.confirmed if self.bounds[one] == bound]
            closed = sum(self.confirmed[one] for one in found)
            never = sum(one in self.never for one in found)
            if found:
                yield (
                    f"blames of keys confirmed {how}: {len(found)}; no lawful history of these cells and COUNTs with "
                    f"at most {bound} unseen move{'s' if bound > 1 else ''} between two messages gives them"
                    + (f", and for {closed} none without moves over the air, however many go unseen" if closed else "")
                    + (f", and for {never} none of any length, with moves over the air too" if never else "")
                )
        if self.explained:
            yield f"blames of keys withdrawn: {len(self.explained)}; lte_trace finds a lawful history"
        if self.open:
            yield (
                f"blames of keys not confirmed: {self.open}; their search was given up, or no history has the message "
                "whatever its key"
            )


def asked(phone: Phone, taken: Program, verdicts: Verdicts) -> None:
    """Asks for the blames of a phone, the first first. A message whose key no history gives is passed over then, and
    what follows is asked again.

    Where no history has the message at all, whatever its key, the moves of the question are too few to judge by: what
    is left is not confirmed. That one has it is seen with fewer moves, too, where the search with all is given up; and
    what no history of any length gives needs no search.
    """
    waiting: dict[int, Waiting] = {}
    for _ in range(ASKS):
        answer = phone.ask(taken)
        at = answer.explained if answer is not None else 0
        is_cut = answer is None or any(phone.bound < blame.bound for blame in waiting.values())
        far = max(at, phone.some(taken)) if waiting and is_cut else at
        for one, blame in [*waiting.items()]:
            if blame.place < far or is_cut and one in verdicts.never:
                verdicts.confirms(one, blame)
                del waiting[one]
        if answer is None:
            break
        if at >= len(phone.sightings):
            verdicts.explained.update(
                (id(value), why) for value, why in told(phone, taken) if id(value) not in verdicts.confirmed
            )
            break
        first = phone.sightings[at]
        if first.passed or not first.key:
            break
        if first.value is not None:
            if answer.never:
                verdicts.never.add(id(first.value))
            near = taken.ask(phone.question(FAR_BOUND, False, at + 1))
            is_closed = near is not None and near.closed and near.explained == at
            waiting[id(first.value)] = Waiting(at, phone.bound, is_closed)
        first.passed = True
    blamed = (id(one.value) for one in phone.sightings if one.value is not None)
    verdicts.open += sum(one not in verdicts.confirmed and one not in verdicts.explained for one in blamed)


def told(phone: Phone, taken: Program) -> Iterator[tuple[Line, Why]]:
    """The blames of a phone whose messages a history gives, and what it rests on."""
    if not any(one.value is not None and not one.passed for one in phone.sightings):
        return
    answer = phone.ask(taken, told=True)
    grounds = [*phone.grounds(answer.moves if answer is not None else ())]
    for place, one in enumerate(phone.sightings):
        if one.value is not None:
            yield one.value, grounds[place] if place < len(grounds) else Cause.HISTORY_FOUND.because()


def withdrawn(value: Line, why: Why) -> Line:
    """A blame that a lawful history explains."""
    line = unknown_line(value.frame, value.message, value.kind, why, value.found, value.of)
    return replace(value, verdict=UNKNOWN, said=line.said, faults=(), remarks=why, doubt=())


def without_blames(values: tuple[Line, ...], explained: dict[int, Why]) -> tuple[Line, ...]:
    """The lines of a message, with the blames withdrawn that a lawful history explains, and with each what is said of
    the agreement on that key."""
    whys = {value.hex: explained[id(value)] for value in values if id(value) in explained}
    return tuple(
        withdrawn(value, explained[id(value)])
        if id(value) in explained
        else in_doubt(value, whys[value.hex])
        if value.what == "agreement" and value.verdict == DIFFERS and value.hex in whys
        else value
        for value in values
    )


def in_doubt(value: Line, why: Why) -> Line:
    """A line on agreement whose key a lawful history explains: in each the phone makes the key of its station."""
    station = next((one.value("station") for one in every(value.said)), "")
    said = Cause.AGREEMENT_IN_DOUBT.because(move="handover to", station=station, why=why)
    return replace(value, verdict=UNKNOWN, said=said, remarks=why)


def confirmed(trace: Trace, taken: Program | None = None) -> Account:
    """What was seen of a trace, with its blames asked for."""
    seen, taken = trace.seen, taken or program()
    if not seen.verdicts()[DIFFERS]:
        return seen
    phones: dict[int, list[Seen]] = {}
    for one in seen.messages:
        if one.phone is not None:
            phones.setdefault(one.phone, []).append(one)
    to_ask = [
        messages for messages in phones.values() if any(is_blamed(value) for one in messages for value in one.values)
    ]
    if not to_ask:
        return seen
    if taken is None:
        return replace(seen, head=(*seen.head, NOT_BUILT))
    verdicts = Verdicts()
    for messages in to_ask:
        asked(Phone(trace, messages), taken, verdicts)
    found = tuple(replace(one, values=without_blames(one.values, verdicts.explained)) for one in seen.messages)
    return replace(seen, messages=found, told=None, head=(*seen.head, *verdicts.head(taken.is_proved)))
