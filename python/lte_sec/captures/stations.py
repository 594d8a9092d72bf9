"""Which station each message of a trace is of: by names that stations tell, by the cells of phones, and by the phones
that stand there.

Behind one end of S1 there may be several stations (a gateway of home stations): there each association of a phone has
its own.
"""
from __future__ import annotations

from array import array
from collections import Counter
from collections.abc import Iterator, Mapping
from dataclasses import dataclass, replace

from .cells import Cells
from .coverage import DOWN, UP, LinkSeen, presupposes
from .decoding import Message
from .message_store import Messages

FROM_STATION = {  # S1AP messages that a station sends (TS 36.413 9.1)
    "InitialUEMessage",
    "UplinkNASTransport",
    "NASNonDeliveryIndication",
    "InitialContextSetupResponse",
    "InitialContextSetupFailure",
    "UEContextReleaseRequest",
    "UEContextReleaseComplete",
    "UEContextModificationResponse",
    "UEContextModificationFailure",
    "UEContextModificationIndication",
    "HandoverRequired",
    "HandoverRequestAcknowledge",
    "HandoverFailure",
    "HandoverNotify",
    "HandoverCancel",
    "ENBStatusTransfer",
    "PathSwitchRequest",
    "S1SetupRequest",
    "ENBConfigurationUpdate",
    "UECapabilityInfoIndication",
    "E_RABSetupResponse",
    "E_RABModifyResponse",
    "E_RABReleaseResponse",
    "E_RABReleaseIndication",
    "E_RABModificationIndication",
    "LocationReport",
    "UEContextSuspendRequest",
    "UEContextResumeRequest",
    "CellTrafficTrace",
    "UERadioCapabilityMatchResponse",
}
TELLS_CELL = ("InitialUEMessage", "UplinkNASTransport", "PathSwitchRequest", "HandoverNotify")
NAMED = ("S1SetupRequest", "X2SetupRequest", "X2SetupResponse")
BACK = (
    "HandoverRequestAcknowledge",
    "HandoverPreparationFailure",
    "UEContextRelease",
    "RetrieveUEContextRequest",
)  # of X2AP, from target to source


def station_end(message: Message) -> str:
    """The station's end of a message of S1."""
    return message.source if message.name in FROM_STATION else message.target


def host(end: str) -> str:
    """The address of an end, without its port."""
    return end.rpartition(":")[0]


@dataclass(frozen=True)
class Stand:
    """The cell in which a phone stands as X2 shows it, and that which it is on its way to."""

    eci: int | None = None
    target: int | None = None


@dataclass(frozen=True)
class Known:
    """A station by a cell that a message tells, where it tells one, and else by its end."""

    eci: int | None
    end: str

    def name(self, cells: Cells) -> str:
        return cells.station(self.eci) or cells.addresses.get(self.end) or self.end


class LinksSeen:
    """The links of messages, counted before all ends have names."""

    def __init__(self) -> None:
        self.counts: dict[
            tuple[str, Known, Known | str], int
        ] = {}  # of S1 by station and direction, of X2 by source and target
        self.presupposed: set[tuple[str, Known, Known | str]] = set()
        self.switched: set[tuple[str, int | None]] = set()  # identities that a path switch brought
        self.pairs: dict[tuple[str, str, int | None], tuple[Known, Known]] = {}

    def of_s1(self, message: Message, eci: int | None, end: str) -> None:
        way = UP if message.name in FROM_STATION else DOWN
        key = "S1", Known(eci, end), way
        self.counts[key] = self.counts.get(key, 0) + 1
        if message.name == "PathSwitchRequest":
            self.switched.add((message.source, message.enb_id))
        elif key not in self.presupposed and presupposes(
            message, way, (message.source, message.enb_id) in self.switched
        ):
            self.presupposed.add(key)

    def of_x2(self, message: Message) -> None:
        is_back = message.name in BACK
        source, target = (message.target, message.source) if is_back else (message.source, message.target)
        if message.name == "HandoverRequest":
            self.pairs[source, target, message.old_x2] = Known(message.source_eci, source), Known(message.eci, target)
        one, other = self.pairs.get((source, target, message.old_x2)) or (Known(None, source), Known(None, target))
        key = ("X2", other, one) if is_back else ("X2", one, other)
        self.counts[key] = self.counts.get(key, 0) + 1

    def done(self) -> None:
        """All messages were taken."""
        self.switched, self.pairs = set(), {}

    def links(self, cells: Cells) -> Iterator[LinkSeen]:
        for key, number in self.counts.items():
            kind, one, other = key
            yield LinkSeen(
                kind,
                one.name(cells),
                other if isinstance(other, str) else other.name(cells),
                number,
                key in self.presupposed,
            )


class Passing:
    """What of associations and phones is known for as long as messages are taken."""

    def __init__(self) -> None:
        self.legs: dict[tuple[str, int], int] = {}  # cells by station's end and eNB-UE-S1AP-ID
        self.stands: dict[int, Stand] = {}  # by MME-UE-S1AP-ID
        self.asked: dict[tuple[str, str, int | None], tuple[int, int | None]] = {}


class Stations:
    """The ends and the station of each message, before anything is judged."""

    def __init__(self, cells: Cells, messages: Messages):
        self.cells, self.messages = cells, messages
        self.ends: dict[str, str] = {}  # by SCTP's verification tag
        self.alias: dict[str, str] = {}
        self.changed: list[tuple[int, str, str]] = []  # places of messages whose ends have other names, and these
        self.gummeis: dict[tuple[int, int], str] = {}  # core's ends by MME group and code
        self.cores: dict[str, str] = {}  # names of cores by their ends
        self.told: set[str] = set()  # ends that told a name or a cell
        self.votes: dict[str, Counter[int]] = {}  # cells of phones by station's end, in the order of the ends
        self.hosts: dict[str, Counter[int]] = {}  # cells of X2 by host
        self.numbers: dict[int, int] = {}  # of the cells that are told, from 1 on
        self.names: list[str] = []  # of their stations
        self.told_at = array(
            "i"
        )  # of each message of S1 the number of the cell that it or its association told, else 0
        self.passing = Passing()
        self.seen = LinksSeen()

    @classmethod
    def of(cls, cells: Cells, messages: Messages) -> Stations:
        """The stations of messages."""
        found = cls(cells, messages)
        for place, message in enumerate(messages):
            found.take(place, message)
        found.done()
        return found

    def done(self) -> None:
        """Names the stations, once all messages were taken."""
        for place, source, target in self.changed:
            self.messages[place] = replace(self.messages[place], source=source, target=target)
        for end, found in self.votes.items():
            votes = self.hosts.get(host(end)) or found
            if end and end not in self.told and votes:
                self.cells.addresses.setdefault(end, self.elected(votes))
        self.names = [self.cells.station(eci) for eci in self.numbers]
        self.passing = Passing()
        self.seen.done()

    def elected(self, votes: Mapping[int, int]) -> str:
        """The station that has most of these cells."""
        stations = Counter[str]()
        for eci, number in votes.items():
            stations[self.cells.station(eci)] += number
        return stations.most_common(1)[0][0]

    def take(self, place: int, message: Message) -> Message:
        """Gives both ends of an association one name each: a verification tag names an end with several addresses."""
        if message.tag:
            known = self.ends.setdefault(message.tag, message.target)
            if known != message.target:
                self.alias[message.target] = known
        if message.source in self.alias or message.target in self.alias:
            message = replace(
                message,
                source=self.alias.get(message.source, message.source),
                target=self.alias.get(message.target, message.target),
            )
            self.changed.append((place, message.source, message.target))
        self.learn(message)
        self.told_at.append(0)
        if message.link == "S1":
            self.of_s1(place, message)
        elif message.link == "X2":
            self.of_x2(message)
        return message

    def learn(self, message: Message) -> None:
        """What a message tells of names."""
        names = self.cells.addresses
        if message.name in NAMED and message.station is not None:
            names[message.source] = self.cells.names.setdefault(
                message.station, message.station_name or f"eNB {message.station:x}"
            )
            self.told.add(message.source)
        elif message.link == "S1" and message.name in TELLS_CELL and message.eci is not None:
            names.setdefault(message.source, self.cells.station(message.eci))
            self.told.add(message.source)
        elif message.name in ("S1SetupResponse", "MMEConfigurationUpdate"):
            if message.core_name:
                self.cores.setdefault(message.source, message.core_name)
            for one in message.gummeis:
                self.gummeis[one] = message.source

    def of_s1(self, place: int, message: Message) -> None:
        """The cell of a message of S1, which tells its station: that which it or its association told."""
        end, eci, legs = station_end(message), message.eci, self.passing.legs
        votes = self.votes.setdefault(end, Counter())
        leg = None if message.enb_id is None else (end, message.enb_id)
        if eci is not None and (message.name in TELLS_CELL or message.name == "HandoverRequest"):
            votes[eci] += 1
            if leg is not None:
                legs[leg] = eci
        else:
            eci = None if leg is None else legs.get(leg)
        if eci is not None:
            self.told_at[place] = self.numbers.setdefault(eci, len(self.numbers) + 1)
        stand = None if message.mme_id is None else self.passing.stands.get(message.mme_id)
        if stand is not None:
            is_answer = message.name == "PathSwitchRequestAcknowledge"
            stands_in = stand.eci if stand.target is None else stand.target if is_answer else None
            if stands_in is not None:
                votes[stands_in] += 1
        self.seen.of_s1(message, eci, end)

    def of_x2(self, message: Message) -> None:
        """Where a phone is, as X2 shows it."""
        self.seen.of_x2(message)
        asked, stands = self.passing.asked, self.passing.stands
        if message.name == "HandoverRequest" and message.mme_id is not None:
            asked[message.source, message.target, message.old_x2] = message.mme_id, message.eci
            for end, eci in ((message.source, message.source_eci), (message.target, message.eci)):
                if eci is not None:
                    self.hosts.setdefault(host(end), Counter())[eci] += 1
            stands[message.mme_id] = Stand(message.source_eci)
            return
        if message.name == "RetrieveUEContextResponse" and message.mme_id is not None:
            stands[message.mme_id] = Stand()
        request = asked.get((message.target, message.source, message.old_x2))
        if request is not None and message.name in ("HandoverRequestAcknowledge", "UEContextRelease"):
            phone, target = request
            stands[phone] = Stand(None, target) if message.name == "HandoverRequestAcknowledge" else Stand(target)

    def at(self, place: int, message: Message) -> str:
        """The station of a message of S1 at this place."""
        number, end = self.told_at[place], station_end(message)
        return self.names[number - 1] if number else self.cells.addresses.get(end) or end

    def links(self) -> Iterator[LinkSeen]:
        """The links of the messages, in the order in which they are seen first."""
        return self.seen.links(self.cells)
