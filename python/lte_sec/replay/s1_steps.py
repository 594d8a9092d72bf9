"""Handovers over S1 of a capture as steps."""
from __future__ import annotations

from ..captures.cells import Cell
from ..common.causes import Cause
from ..common.terms import NONE
from .chain_steps import Open, nh
from .handover_steps import HandoverSteps
from .recording import Met
from .script import At


class S1Steps(HandoverSteps):
    """What the run has of handovers over S1, too."""

    def required(self, met: Met, at: At) -> None:
        link, cell = self.link, self.cell_of(met.message.eci)
        if link is None or self.lost:
            return
        self.cancel(at)
        if cell is None:
            self.lost = Cause.REPLAY_CELL_UNKNOWN.because()
            return
        self.begin_s1(self.station_of(met.message.eci), self.came_to(met, cell), at)

    def begin_s1(self, station: str, cell: Cell, at: At) -> None:
        link = self.link
        assert link is not None
        begin = self.script.act(
            {"do": "s1", "station": self.script.station(link.station), "cell": self.script.cell(station, cell)}, at
        )
        asked = self.ask(at, begin, link.station)
        given = self.script.block()
        asked.behind.append(given)
        link.open = Open("S1", station, cell, begin, None, set(), given, "", ask=asked, frame=at.frame)

    def handover_request(self, met: Met, at: At) -> None:
        link = self.link
        cell = self.cell_of(met.message.eci)
        if link is None or self.lost or met.key is None:
            return self.not_replayed(met, self.lost or Cause.NO_ORIGIN.because())
        if cell is None:
            return self.not_replayed(met, Cause.REPLAY_CELL_UNKNOWN.because())
        cell = self.came_to(met, cell)
        if link.open is None or link.open.kind != "S1" or link.open.cell != cell:
            assumed = self.script.assume(met.frame, "the Handover Required is not in the capture")
            self.cancel(assumed)
            self.begin_s1(self.station_of(met.message.eci), cell, assumed)
        assert link.open is not None
        asked = self.answered(met.key)
        if asked is None:
            return self.not_replayed(met, Cause.NO_REQUIRED.because())
        self.row(met, asked.got)
        made = link.open
        made.handover, made.frame = met.handover, met.frame
        made.bases = {met.key.term, met.key.wanted} - {NONE}
        made.request = self.script.deliver(asked.got, at, True, made.given)

    def came_to(self, met: Met, cell: Cell) -> Cell:
        """The cell of the target to which the phone comes, where it is another than the prepared one: the request is
        made for it at once."""
        for after in self.after(met):
            if after.message.name == "HandoverNotify":
                came = self.cell_of(after.message.eci)
                same = self.station_of(after.message.eci) == self.station_of(met.message.eci)
                if came is None or came == cell or not same or self.is_nested(after, cell):
                    return cell
                self.script.assume(
                    met.frame,
                    (
                        f"the request is made for cell ({came[0]},{came[1]}), where the phone came to, and not for "
                        f"({cell[0]},{cell[1]})"
                    ),
                )
                return came
            if (
                after.message.name == "HandoverRequired"
                or after.message.link == "X2"
                and after.message.name == "HandoverRequest"
            ):
                break
        return cell

    def command(self, met: Met, at: At) -> None:
        made = self.link.open if self.link is not None else None
        if made is not None and made.kind == "S1" and not made.acked and made.given.items:
            self.acknowledged(at)

    def notify(self, met: Met, at: At) -> None:
        link = self.link
        if link is None or self.lost:
            return
        made = link.open
        if made is None or made.kind != "S1":
            if met.station and met.station != link.station:
                self.lost = Cause.HANDOVER_NOT_REPLAYED.because()
            return
        if not made.given.items:
            self.requested(made, self.script.assume(met.frame, "the Handover Request is not in the capture"))
        self.obeyed(at)

    def requested(self, made: Open, at: At) -> None:
        """A Handover Request that the capture lacks: NH is the next of the chain."""
        assert made.ask is not None and self.link is not None
        made.request = self.script.deliver(made.ask.got, at, True, made.given)
        made.bases = {nh(self.link.told + 1 if self.link.told else self.script.first_ncc)}

    def refused(self, met: Met, at: At) -> None:
        """Handover Failure: the target keeps nothing. The Preparation Failure to the source follows."""
        made = self.link.open if self.link is not None else None
        if made is not None and made.kind == "S1":
            made.given.clear()

    def cancelled(self, met: Met, at: At) -> None:
        made = self.link.open if self.link is not None else None
        if made is not None and made.kind == "S1":
            self.cancel(at)
