"""Connections and key changes of a capture as steps: what begins, ends and renews them."""
from __future__ import annotations

from collections.abc import Iterable, Iterator
from dataclasses import dataclass, field

from ..captures.cells import Cell
from ..common.causes import Cause
from ..common.report import DIFFERS
from ..common.terms import NONE, counted
from ..nas.findings import NOT_GIVEN
from .chain_steps import ReplayedConnection, kenb, star
from .recording import KeySeen, Met
from .s1_steps import S1Steps
from .script import At

FAR = 200  # messages of a connection that are looked at behind one


def without(what: str, names: Iterable[str]) -> str:
    """A name for what has none in a capture: none of the names that it has."""
    taken = set(names)
    while what in taken:
        what += "'"
    return what


def due(key: KeySeen | None) -> tuple[str, int] | None:
    """The KASME and COUNT of the KeNB that was due, where the KASME is told."""
    if key is None:
        return None
    differs = key.verdict == DIFFERS
    count = counted(key.wanted if differs else key.term)
    return None if count < 0 else ("" if differs else key.kasme, count)


@dataclass
class ConnectionSteps(S1Steps):
    """What the run has of connections, too."""

    met: list[Met] = field(default_factory=list)
    place: int = 0
    told_cells: dict[int, Cell] = field(default_factory=dict)  # of each connection the phone's cell
    told_stations: dict[int, str] = field(default_factory=dict)
    begun: set[int] = field(default_factory=set)  # connections whose beginning is dealt with

    def is_of(self, met: Met) -> bool:
        return self.link is not None and self.link.connection == met.connection

    def after(self, met: Met) -> Iterator[Met]:
        seen = 0
        for one in self.met[self.place + 1 :]:
            if one.connection == met.connection and one is not met:
                seen += 1
                yield one
            if seen == FAR:
                return

    # -- connections

    def end(self, at: At) -> None:
        """The connection ends: the core's release, and the phone leaves."""
        self.close_asks()
        if self.link is not None:
            self.link = None
            self.script.deliver(self.script.act({"do": "release"}, at), at, False)
            self.script.act({"do": "idle"}, at)
        self.lost, self.unanswered = (), []
        if self.held is not None:
            self.release_held(at, False)

    def setup(self, met: Met, at: At) -> None:
        """Initial Context Setup Request: its KeNB tells KASME and COUNT."""
        if met.key is None:
            return
        told = due(met.key)
        if told is None:
            self.end(at)
            self.lost = NOT_GIVEN if met.key.term == NONE else met.key.why or Cause.NO_ORIGIN.because()
            return self.not_replayed(met, self.lost)
        kasme = told[0] or (self.context.kasme if self.context is not None else met.key.kasme)
        if self.link is not None:
            self.end(at)
        if not self.asked_for(kasme, told[1], met):
            return self.not_replayed(met, self.lost)
        self.lost = ()
        self.connects(met, at, kasme, told[1])

    def asked_for(self, kasme: str, count: int, met: Met) -> bool:
        """Whether the core is to make KeNB at this COUNT, if need be by a request that the capture lacks."""
        if not self.has(kasme, met):
            self.lost = Cause.KASME_COMES_BACK.because() if kasme in self.used else NOT_GIVEN
            return False
        if self.trigger == (kasme, count):
            return True
        at = self.script.assume(
            met.frame,
            (
                f"the message with uplink COUNT {count} that brought the connection is not in {self.whole}, or its "
                "MAC is wrong"
            ),
        )
        if not self.service(count, at):
            self.lost = Cause.COUNT_HAS_PASSED.because(count=count)
            return False
        return True

    def connects(self, met: Met, at: At, kasme: str, count: int) -> None:
        assert met.connection is not None
        station = met.station or self.nameless("the station")
        cell = self.known_cell(met.connection, station, met.frame)
        item = self.script.act({"do": "connect", "cell": self.script.cell(station, cell)}, at)
        self.row(met, item)
        self.trigger, base = None, kenb(count)
        uses = {base} | ({met.key.term} if met.key is not None else set())
        self.link = ReplayedConnection(met.connection, station, cell, base, kasme, uses)
        self.begun.add(met.connection)
        command = self.script.deliver(item, at)
        if not any(one.message.name == "InitialContextSetupFailure" for one in self.answers(met)):
            self.script.deliver(self.script.deliver(command, at), at, False)

    def answers(self, met: Met) -> Iterator[Met]:
        """What comes after a request up to the next one of its kind."""
        for one in self.after(met):
            if one.message.name == met.message.name:
                return
            yield one

    def known_cell(self, connection: int, station: str, frame: str) -> Cell:
        """The phone's cell at a station; a cell that no key needs is made up."""
        if connection in self.told_cells and self.told_stations.get(connection) in ("", station):
            return self.told_cells[connection]
        sites = self.sites(station)
        if sites:
            return sites[0]
        if self.script.stations.get(station):
            return self.script.stations[station][0]
        cell = self.script.made_up(station)
        self.script.assume(
            frame,
            f"the cell of {station} is not known; ({cell[0]},{cell[1]}) stands for it, and no key of a line needs it",
        )
        return cell

    def released(self, met: Met, at: At) -> None:
        """A release at the station that serves; at the source of a handover over S1 it ends no connection."""
        link = self.link
        if link is None or not self.is_of(met) or met.station and met.station != link.station:
            return
        made = link.open
        if made is not None and made.kind == "S1" and made.acked:
            return
        self.end(at)

    # -- key changes

    def changes(self, met: Met, at: At) -> None:
        """UE Context Modification with a key: the station makes KeNB* of it for the phone's cell (TS 33.401
        7.2.9.2)."""
        link, told = self.link, due(met.key)
        if met.key is None:
            return
        if link is None or self.lost or told is None:
            self.lost = self.lost or (Cause.NO_ORIGIN.because() if told else NOT_GIVEN)
            return self.not_replayed(met, self.lost)
        if any(one.message.name == "UEContextModificationFailure" for one in self.answers(met)):
            return self.not_replayed(met, Cause.CHANGE_REFUSED.because())
        kasme = told[0] or (self.context.kasme if self.context is not None else "")
        if kasme == link.kasme or told[1] != 0 or not self.has(kasme, met) or self.held is None:
            self.lost = (
                Cause.KENB_ON_THE_FLY.because() if kasme == link.kasme or told[1] else Cause.KASME_COMES_BACK.because()
            )
            return self.not_replayed(met, self.lost)
        cell = self.told_cells.get(link.connection or 0)
        if (
            cell is not None
            and cell != link.cell
            and cell in self.own(link.station)
            and self.told_stations.get(link.connection or 0) == link.station
        ):
            self.step_within(
                cell,
                self.script.assume(
                    met.frame,
                    (
                        f"the phone is in cell ({cell[0]},{cell[1]}) of {link.station}, "
                        "to which S1 and X2 show no handover"
                    ),
                ),
            )
        self.row(met, self.change(at))
        if link.cell in self.script.invented:
            self.lost = Cause.CHANGE_CELL_UNKNOWN.because(station=link.station)

    def change(self, at: At) -> str:
        """The key change, with all that waits for it; answers the item with which the core makes KeNB."""
        link = self.link
        assert link is not None and self.context is not None
        self.cancel(at)
        self.close_asks()
        waiting, self.held = self.held or [], None
        item = self.completed(at, True)
        self.script.deliver(self.script.deliver(self.script.deliver(item, at), at), at, False)
        self.trigger = None
        link.base, link.kasme = kenb(0), self.context.kasme
        link.uses, link.pairs, link.told = {star(link.base, link.cell)}, set(), 0
        self.unanswered = []
        for each in waiting:
            each()
        return item

    def change_now(self, at: At) -> None:
        """A key change that nothing of the capture shows."""
        if self.link is None:
            self.release_held(at, False)
        else:
            self.change(
                self.script.assume(
                    at.frame, "the key change to the KASME in use for NAS is not in the capture before this"
                )
            )

    def changed_unseen(self, met: Met) -> None:
        """A key under the KASME of NAS, where the capture shows no key change to it."""
        key, link = met.key, self.link
        if (
            key is None
            or link is None
            or self.lost
            or key.verdict == DIFFERS
            or not key.kasme
            or key.kasme == link.kasme
        ):
            return
        if self.has(key.kasme, met) and self.held is not None:
            self.change_now(At(met.frame, met.title))

    def nameless(self, what: str) -> str:
        """A name for a station that the capture does not name."""
        return without(
            what,
            [*(one.station for one in self.met), *(self.station_of(site.eci) for site in self.cells.sites.values())],
        )
