"""What all readings of a trace stand on: its messages, what is known of its network, and what of these a reading asks
for again and again."""
from __future__ import annotations

from array import array
from bisect import bisect_left
from collections.abc import Iterable, Iterator
from dataclasses import dataclass

from ..captures.cells import Cells
from ..captures.coverage import Coverage
from ..captures.decoding import Command, Message
from ..captures.message_store import Messages, links_of
from ..captures.stations import Stations, station_end
from ..captures.taps import Gaps
from ..common.report import Line
from ..common.terms import Derivations
from .ended import EndedConnections
from .search import DerivationSearch
from .told_cells import Learning


class FirstPlaces:
    """The place of the first message of each frame."""

    def __init__(self) -> None:
        self.numbers, self.places = array("q"), array("i")  # of frames that come in their order, which most do
        self.others: dict[str, int] = {}

    def take(self, place: int, frame: str) -> None:
        number = number_of(frame)
        if number is None or self.numbers and number < self.numbers[-1]:
            if self.get(frame) is None:
                self.others[frame] = place
        elif not self.numbers or number > self.numbers[-1]:
            self.numbers.append(number)
            self.places.append(place)

    def get(self, frame: str) -> int | None:
        number = number_of(frame)
        at = len(self.numbers) if number is None else bisect_left(self.numbers, number)
        return self.places[at] if at < len(self.numbers) and self.numbers[at] == number else self.others.get(frame)


def number_of(frame: str) -> int | None:
    """The number of a frame that is written as one."""
    return (
        int(frame)
        if frame.isdecimal() and frame.isascii() and (frame[0] != "0" or frame == "0") and len(frame) < 19
        else None
    )


class Index:
    """What of the messages of a trace a reading asks for again and again."""

    def __init__(self) -> None:
        self.first = FirstPlaces()
        self.gaps = Gaps()
        # by place, of a message of S1 the next one of its station and eNB-UE-S1AP-ID, of a request for a handover over X2
        # its answer; 0 is none
        self.next = array("i")
        self.asked: dict[tuple[str, str, int | None], int] = {}
        self.legs: dict[tuple[str, int], int] = {}  # the last message of each

    def take(self, place: int, message: Message) -> None:
        self.first.take(place, message.frame)
        self.gaps.take(place, message)
        self.next.append(0)
        if message.link == "S1" and message.enb_id is not None:
            leg = station_end(message), message.enb_id
            if leg in self.legs:
                self.next[self.legs[leg]] = place
            self.legs[leg] = place
        elif message.link == "X2" and message.name == "HandoverRequest":
            self.asked[message.source, message.target, message.old_x2] = place
        elif message.link == "X2" and message.name == "HandoverRequestAcknowledge" and message.command is not None:
            request = self.asked.pop((message.target, message.source, message.old_x2), None)
            if request is not None:
                self.next[request] = place

    def done(self) -> None:
        """All messages were taken."""
        self.asked, self.legs = {}, {}


class Groundwork:
    """What is learnt of all messages of a trace before any is judged."""

    def __init__(self, cells: Cells, messages: Messages):
        self.cells, self.messages = cells, messages
        self.learning, self.stations, self.index = Learning(cells), Stations(cells, messages), Index()

    def take(self, place: int, message: Message) -> None:
        self.learning.take(place, message)
        self.index.take(place, self.stations.take(place, message))

    def done(self) -> list[Line]:
        """What is to be said of it, once all messages were taken."""
        faults = self.learning.done()
        self.stations.done()
        self.index.done()
        return faults


@dataclass
class Grounds:
    """What all readings of a trace stand on, whatever they choose."""

    work: Groundwork
    derivations: Derivations
    firsts: dict[str, int]  # by core, the number of the first NH that it sends
    budget: int
    coverage: Coverage

    def __post_init__(self) -> None:
        self.messages, self.cells, self.stations, self.index = (
            self.work.messages,
            self.work.cells,
            self.work.stations,
            self.work.index,
        )
        self.first, self.links, self.ended = self.index.first, links_of(self.messages), EndedConnections()
        self.search = DerivationSearch(self.derivations, self.cells, budget=self.budget)

    def reply(self, place: int) -> Command | None:
        """The command that answers the handover over X2 that is asked for at this place."""
        answer = self.index.next[place]
        return self.messages[answer].command if answer else None


class Places:
    """A number for each place of a trace, or none."""

    def __init__(self, size: int = 0) -> None:
        self.numbers = array("i", [-1]) * size

    def __setitem__(self, place: int, number: int) -> None:
        self.numbers[place] = number

    def get(self, place: int) -> int | None:
        return self.numbers[place] if self.numbers[place] >= 0 else None

    def items(self) -> Iterator[tuple[int, int]]:
        """Places and their numbers, in the order of the places."""
        return ((place, number) for place, number in enumerate(self.numbers) if number >= 0)

    def takes(self, other: Places, places: Iterable[int]) -> None:
        """Has the numbers of another at these places."""
        for place in places:
            self.numbers[place] = other.numbers[place]
