"""Handovers over X2 and within a station of a capture as steps, and the way of the phone. The command and the phone's
Complete come only where the capture shows that the phone obeyed, so that a handover that fails can be cancelled: the
machine takes no cancel behind the command."""
from __future__ import annotations

from collections.abc import Iterator
from dataclasses import dataclass, field

from ..captures.cells import Cell, Cells
from ..common.causes import Cause
from ..common.escaped import shown
from ..common.report import DIFFERS
from ..common.terms import NONE, Term, numbered
from .chain_steps import ChainSteps, Open, above, star
from .nas_steps import ReplayedKey
from .recording import KeySeen, Met
from .script import At

DEEPEST = 20  # steps within a station that a key may tell of


@dataclass
class HandoverSteps(ChainSteps):
    """What the run has of the phone's way and of handovers over X2, too."""

    cells: Cells = field(default_factory=Cells)

    # -- cells

    def cell_of(self, eci: int | None) -> Cell | None:
        site = self.cells.at(eci) if eci is not None else None
        return (site.pci, site.earfcn) if site else None

    def station_of(self, eci: int | None) -> str:
        """The name of the station that has a cell, as lines have it."""
        return shown(self.cells.station(eci))

    def sites(self, station: str) -> list[Cell]:
        """The cells of a station."""
        known = [
            self.cells.at(site.eci) or site
            for site in self.cells.sites.values()
            if self.station_of(site.eci) == station
        ]
        return [(site.pci, site.earfcn) for site in known]

    def own(self, station: str) -> set[Cell]:
        return set(self.sites(station)) | set(self.script.stations.get(station, []))

    # -- the way of the phone

    def comes_to(self, station: str, at: At) -> None:
        """A message shows that a station serves the phone: the end of a handover there may not be in the capture."""
        link = self.link
        if link is None or self.lost or not station or station == link.station:
            return
        if link.open is not None and link.open.station == station:
            what = "the path switch" if link.open.kind == "X2" else "the Handover Notify"
            self.obeyed(
                self.script.assume(at.frame, f"{what} is not in the capture and is taken as the standard has it")
            )
        else:
            self.lost = Cause.HANDOVER_NOT_REPLAYED.because()

    def obeyed(self, at: At) -> None:
        """The phone obeys: the target has its Complete. After X2 the path switch asks the core, after S1 the Notify
        tells it."""
        link = self.link
        assert link is not None and link.open is not None
        made = link.open
        if not made.acked:
            self.acknowledged(at)
        command = self.script.act({"do": "command", "station": self.script.station(link.station)}, at)
        complete = self.script.deliver(self.script.deliver(command, at), at)
        link.source, link.station, link.cell = link.station, made.station, made.cell
        link.uses, link.pairs, link.open, link.release = {star(base, made.cell) for base in made.bases}, set(), None, ""
        link.came = made.kind == "X2"
        if made.kind == "X2":
            link.unasked = self.ask(at, complete, made.station)
        else:
            self.script.deliver(complete, at, False)

    def acknowledged(self, at: At) -> None:
        """The target's answer comes to the source, over S1 through the core."""
        assert self.link is not None and self.link.open is not None
        made = self.link.open
        answer = self.script.deliver(made.request, at) if made.kind == "S1" else made.request
        made.acked = self.script.deliver(answer, at, False)

    def cancel(self, at: At) -> None:
        """A handover is given up."""
        link = self.link
        if link is None or link.open is None:
            return
        made, link.open = link.open, None
        block = self.script.block()
        item = self.script.act({"do": "cancel", "station": self.script.station(link.station)}, at)
        if made.kind == "X2":
            if made.given.items:
                self.script.deliver(item, at, False)
            return
        assert made.ask is not None
        block = self.script.block()
        made.ask.behind.append(block)
        passed = self.script.deliver(item, at, True, block)
        if made.given.items:
            self.script.deliver(passed, at, False, block)

    def elsewhere(self, met: Met, at: At) -> None:
        """The phone came to another cell of the target than was prepared (TS 33.401 7.4.3): the handover is made for
        that cell."""
        link, cell = self.link, self.cell_of(met.message.eci)
        if (
            link is None
            or link.open is None
            or cell is None
            or cell == link.open.cell
            or self.station_of(met.message.eci) != link.open.station
        ):
            return
        if self.is_nested(met, link.open.cell):
            return
        station, bases = link.open.station, link.open.bases
        assumed = self.script.assume(
            at.frame, f"the phone came to cell ({cell[0]},{cell[1]}), for which the source makes the handover anew"
        )
        self.cancel(assumed)
        self.begin_x2(station, cell, bases, assumed, None)

    # -- over X2

    def begin_x2(self, station: str, cell: Cell, bases: set[Term], at: At, handover: int | None) -> str:
        link = self.link
        assert link is not None
        source = self.script.station(link.station)
        begin = self.script.act({"do": "x2", "station": source, "cell": self.script.cell(station, cell)}, at)
        given = self.script.block()
        request = self.script.deliver(begin, at, True, given)
        link.open = Open("X2", station, cell, begin, handover, bases, given, request, frame=at.frame)
        return begin

    def x2_request(self, met: Met, at: At) -> None:
        link, message = self.link, met.message
        cell = self.cell_of(message.eci)
        if link is None or self.lost:
            return self.not_replayed(met, self.lost or Cause.NO_ORIGIN.because())
        if cell is None:
            self.cancel(at)
            return self.not_replayed(met, Cause.REPLAY_CELL_UNKNOWN.because())
        begin = self.begin_x2(self.target(met), cell, set(link.pairs or link.uses), at, met.handover)
        self.row(met, begin)

    def steps_before(self, met: Met, at: At) -> None:
        """What the KeNB* of a request tells of what came before it."""
        cell = self.cell_of(met.message.eci)
        if self.link is not None and not self.lost and met.key is not None and cell is not None:
            self.made_from(met.key, cell, at)

    def for_reestablishment(self, met: Met, at: At) -> None:
        """KeNB* of each cell that is prepared for re-establishment (TS 33.401 7.4.3): a handover to it that is
        cancelled makes the same."""
        link = self.link
        for key in met.more:
            one = next((one for one in met.message.reestablishment if one.key == key.value), None)
            cell = self.cell_of(one.eci) if one is not None else None
            station = self.station_of(one.eci) if one is not None else ""
            if link is None or self.lost or one is None or cell is None or station == link.station:
                self.not_replayed(met, self.lost or Cause.CELLS_NOT_REPLAYED.because(), key)
                continue
            assumed = self.script.assume(
                met.frame, "KeNB* of a cell for re-establishment is made by a handover to it that is cancelled"
            )
            begin = self.begin_x2(station, cell, set(link.pairs or link.uses), assumed, None)
            if link.open is not None:
                link.open.given.clear()
            self.cancel(assumed)
            self.rows.append(ReplayedKey(met, key, begin))

    def target(self, met: Met) -> str:
        return self.station_of(met.message.eci) or shown(met.message.target)

    def made_from(self, key: KeySeen, cell: Cell, at: At) -> None:
        """What a KeNB* is made from may tell of steps in cells of the source itself, and of an answer that the capture
        lacks."""
        link = self.link
        made = above(key.term)
        if link is None or made is None or made[1] != cell or key.verdict == DIFFERS or key.kasme != link.kasme:
            return
        rest, within = made[0], list[Cell]()
        own = self.own(link.station)
        for _ in range(DEEPEST):
            if rest in link.uses | link.pairs or rest.kind == "nh":
                break
            inner = above(rest)
            if inner is None or inner[1] not in own:
                return
            rest = inner[0]
            within.insert(0, inner[1])
        if rest not in link.uses | link.pairs and not self.told_by_star(numbered(rest), at):
            return
        for one in within:
            self.step_within(
                one,
                self.script.assume(
                    at.frame,
                    (
                        f"the phone was refreshed in cell ({one[0]},{one[1]}) of {link.station} before, which S1 and "
                        "X2 do not show"
                    ),
                ),
            )

    def step_within(self, cell: Cell, at: At) -> None:
        """A handover within the station, which stands for a re-establishment too: both make KeNB* for the cell."""
        link = self.link
        assert link is not None
        number = self.script.station(link.station)
        self.script.act({"do": "intra", "station": number, "cell": self.script.cell(link.station, cell)}, at)
        self.script.deliver(
            self.script.deliver(self.script.act({"do": "command", "station": number}, at), at), at, False
        )
        link.uses, link.pairs, link.cell = {star(base, cell) for base in link.pairs or link.uses}, set(), cell

    def x2_answered(self, met: Met, at: At) -> None:
        made = self.link.open if self.link is not None else None
        if made is not None and made.kind == "X2" and made.handover == met.handover and not made.acked:
            self.acknowledged(at)

    def x2_refused(self, met: Met, at: At) -> None:
        made = self.link.open if self.link is not None else None
        if made is not None and made.kind == "X2" and made.handover == met.handover:
            if met.message.name == "HandoverPreparationFailure":
                made.given.clear()
            self.cancel(at)

    def x2_released(self, met: Met, at: At) -> None:
        """The target tells the source to release the phone: it is there."""
        link = self.link
        if link is None or self.lost:
            return
        if link.open is not None and link.open.kind == "X2" and link.open.handover == met.handover:
            self.obeyed(
                self.script.assume(
                    met.frame, "the path switch is not in the capture and is taken as the standard has it"
                )
            )
        elif link.release:
            self.script.deliver(link.release, at, False)
            link.release = ""

    def path_switch(self, met: Met, at: At) -> None:
        link = self.link
        if link is None or self.lost:
            return
        here = link.open is not None and link.open.kind == "X2" and link.open.station == met.station
        if here:
            self.elsewhere(met, at)
            self.obeyed(at)
            link.unasked = None
        elif met.station == link.station and link.unasked is not None:
            link.unasked.at, link.unasked = at, None
        elif met.station == link.station:
            if link.came:
                of = self.script.act({"do": "ask", "station": self.script.station(link.station)}, at)
                self.ask(at, of, link.station)
        else:
            self.unseen(met, at)

    def unseen(self, met: Met, at: At) -> None:
        """A handover over X2 whose messages between the stations the capture lacks."""
        link, cell = self.link, self.cell_of(met.message.eci)
        assert link is not None
        if cell is None:
            self.lost = Cause.REPLAY_CELL_UNKNOWN.because()
            return
        assumed = self.script.assume(
            met.frame, f"a handover over X2 to {met.station} whose messages between the stations are not in the capture"
        )
        self.cancel(assumed)
        self.begin_x2(met.station, cell, set(link.pairs or link.uses), assumed, None)
        self.obeyed(assumed)
        link.unasked = None

    def is_nested(self, met: Met, prepared: Cell) -> bool:
        """Whether the next KeNB* is made from that of the prepared cell: the phone went on from there."""
        for after in self.after(met):
            made = above(after.key.term) if after.key is not None and after.message.link == "X2" else None
            if made is not None:
                within = above(made[0])
                inner = above(within[0]) if within is not None else None
                return inner is not None and inner[1] == prepared or within is not None and within[1] == prepared
        return False

    def after(self, met: Met) -> Iterator[Met]:
        """What comes after a message in its connection, not far."""
        raise NotImplementedError

    def answer(self, met: Met, at: At) -> None:
        """The answer to a path switch."""
        link = self.link
        if link is None or self.lost or met.key is None:
            return self.not_replayed(met, self.lost or Cause.NO_ORIGIN.because())
        asked = self.answered(met.key)
        if asked is None and link.came:
            asked = self.again(
                self.script.assume(
                    met.frame, "the path switch is not in the capture and is taken as the standard has it"
                )
            )
            link.told = numbered(met.key.term) or link.told + 1
        if asked is None:
            return self.not_replayed(met, Cause.NO_PATH_SWITCH.because())
        self.row(met, asked.got)
        link.unasked = None
        self.give(asked, at, {met.key.term} if met.key.term != NONE else {met.key.wanted})
