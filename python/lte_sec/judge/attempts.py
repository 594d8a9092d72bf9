"""What a trace has of handovers so far: which wait, and of which connection each message is."""
from __future__ import annotations

from array import array
from typing import Optional

from ..captures.cells import Cells
from ..captures.message_store import Messages
from ..common.terms import Derivations
from ..nas.service import ServiceBook
from .grounds import Places
from .key_judge import KeyJudge
from .state import Attempt, Connection

ANY_CORE = ""  # the end of a core that no message has told yet
Leg = tuple[str, Optional[int]]
PreparedAttempt = tuple[Connection, Attempt]


class Attempts:
    """What a trace has of handovers so far."""

    messages: Messages
    derivations: Derivations
    cells: Cells
    judge: KeyJudge
    book: ServiceBook
    connections: dict[int, Connection]  # by their numbers, but for those that are forgotten
    order: array[int]  # the numbers of all
    legs: dict[Leg, Connection]  # by station's end of S1 and eNB-UE-S1AP-ID
    mmes: dict[int, dict[str, Connection]]  # by MME-UE-S1AP-ID and core's end
    gummeis: dict[tuple[int, int], str]  # core's ends by MME group and code

    def __init__(self) -> None:
        self.at = 0  # the place of the message that is read
        self.owner: Connection | None = None  # its connection
        self.owners, self.handovers = Places(), Places()  # numbers of connections and handovers by places of messages
        self.sources: dict[bytes, list[Connection]] = {}  # that wait, by the container of a handover over S1
        self.targets: dict[Leg, PreparedAttempt] = {}  # by core's end and the target's MME-UE-S1AP-ID
        self.answers: dict[bytes, list[PreparedAttempt]] = {}  # by the container that comes back
        self.x2: dict[tuple[str, str, int | None], PreparedAttempt] = {}
        self.retrieved: dict[
            tuple[str, str, int | None], int | None
        ] = {}  # cells that phones resume in, by the ends and the new station's identity
        self.commands: list[PreparedAttempt] = []  # RRC may still show their command

    def new(self, station: str, eci: int | None = None) -> Connection:
        connection = Connection(eci=eci)
        self.judge.moves.came(connection, station)
        self.connections[connection.number] = connection
        self.order.append(connection.number)
        return connection

    def belongs(self, connection: Connection, attempt: Attempt | None = None) -> None:
        """The message that is read is of this connection, and of this handover."""
        self.owner, self.owners[self.at] = connection, connection.number
        if attempt is not None:
            self.handovers[self.at] = attempt.number

    def arrived(self, connection: Connection, station: str, frame: str) -> None:
        """The phone is at the target of a handover whose end the trace lacks, or where no handover that it shows leads
        to."""
        if station == connection.station or not station:
            return
        there = [attempt for attempt in connection.open_attempts() if attempt.station == station]
        if there:
            self.judge.moved(connection, there[-1])
            self.unasked(connection, there[-1])
        elif connection.station:
            self.judge.came_unseen(connection, frame, station)
        else:
            self.judge.moves.came(connection, station)

    def unasked(self, connection: Connection, attempt: Attempt) -> None:
        """A handover over X2 is done and the trace shows no path switch for it yet: the core was asked all the same."""
        if attempt.kind == "X2":
            connection.asked += 1
            attempt.over = "unasked"
