"""The cells that a trace tells: X2 Setup first, and of the others what the commands to go there say."""
from __future__ import annotations

from collections.abc import Iterable

from ..captures.cells import RANGES, Cells, Site, is_cell
from ..captures.decoding import Message, title
from ..common.causes import Cause
from ..common.report import Line, note_line

LAST = 1 << 62  # behind all places of a trace


class Learning:
    """Takes in the cells of messages; a line for each that is none."""

    def __init__(self, cells: Cells):
        self.cells, cells.now = cells, LAST
        self.faults: list[Line] = []
        self.asked: dict[object, int] = {}
        self.said: dict[int, Site] = {}  # what the first command to go to a cell says of it

    def take(self, place: int, message: Message) -> None:
        cells = self.cells
        for site in message.sites:
            known = cells.at(site.eci)
            if not is_cell(site.pci, site.earfcn):
                why = Cause.TELLS_NO_CELL.because(
                    message=title(message), eci=f"{site.eci:07x}", pci=site.pci, earfcn=site.earfcn, ranges=RANGES
                )
                self.faults.append(note_line(message.frame, why))
            elif (
                known is None
                or site.up is None
                or known.up is None
                or (known.pci, known.earfcn) == (site.pci, site.earfcn)
                or site.eci in cells.given
            ):
                cells.learn(site)
            else:  # a station says that a cell of its own is another now
                cells.changed(site, place)
        self.command(message)

    def command(self, message: Message) -> None:
        """What a command says of the cell that was asked for."""
        eci = None
        if message.link == "X2" and message.name == "HandoverRequest" and message.eci is not None:
            self.asked[message.source, message.target, message.old_x2] = message.eci
        elif message.link == "X2" and message.name == "HandoverRequestAcknowledge":
            eci = self.asked.get((message.target, message.source, message.old_x2))
        elif message.name == "HandoverRequired" and message.eci is not None:
            self.asked[message.source, message.enb_id] = message.eci
        elif message.name == "HandoverCommand":
            eci = self.asked.get((message.target, message.enb_id))
        told = message.command
        if (
            eci is not None
            and eci not in self.said
            and told is not None
            and told.pci is not None
            and told.earfcn is not None
            and is_cell(told.pci, told.earfcn)
        ):
            self.said[eci] = Site(eci, told.pci, told.earfcn)

    def done(self) -> list[Line]:
        for eci, site in self.said.items():
            if eci not in self.cells.sites:
                self.cells.learn(site)
        self.asked = {}
        return self.faults


def learn(cells: Cells, messages: Iterable[Message]) -> list[Line]:
    """Takes in the cells of messages."""
    learning = Learning(cells)
    for place, message in enumerate(messages):
        learning.take(place, message)
    return learning.done()
