"""The steps of a scenario as they are written for a capture: each with its frame, and what is assumed of it.

An act or a delivery is an item of `courses`: a delivery names the item whose record it delivers. What a later message
of the capture decides has a block of its own, which is filled or emptied then.
"""
from __future__ import annotations

from collections.abc import Iterator
from dataclasses import dataclass, field

from ..captures.cells import GREATEST_EARFCN, GREATEST_PCI, Cell
from ..runs.courses import Course, Item, Runs, act, delivery
from ..runs.scenarios import Step, setup_text

STATIONS, CELLS = 8, 4  # that a scenario has at most, cells of one station
SILENT = ("auth", "skip", "idle", "intra")  # acts that send nothing


class Full(Exception):
    """A scenario has no room for a station or cell more."""


@dataclass(frozen=True)
class At:
    """Where in the capture a step comes from: a frame, and what it is."""

    frame: str
    text: str

    def __str__(self) -> str:
        return f"frame {self.frame}: {self.text}"


@dataclass
class ItemBlock:
    """Items that stand together."""

    items: list[Item] = field(default_factory=list)

    def clear(self) -> None:
        self.items.clear()


@dataclass
class Script:
    """The scenario of one phone, or of a part of what it does."""

    caps: str = ""
    null_ciphering: bool = False
    first_ncc: int = 2
    stations: dict[str, list[Cell]] = field(default_factory=dict)
    blocks: list[ItemBlock] = field(default_factory=lambda: [ItemBlock()])
    at: dict[str, At] = field(default_factory=dict)  # by item
    sends: dict[str, bool] = field(default_factory=dict)
    assumed: list[At] = field(default_factory=list)
    invented: set[Cell] = field(default_factory=set)  # cells that are made up
    count: int = 0

    # -- stations and cells

    def station(self, name: str) -> int:
        if name not in self.stations:
            if len(self.stations) == STATIONS:
                raise Full(f"more than {STATIONS} stations")
            self.stations[name] = []
        return list(self.stations).index(name)

    def cell(self, name: str, cell: Cell) -> list[int]:
        """A cell of a station, which from here on has it."""
        number = self.station(name)
        if cell not in self.stations[name]:
            if any(cell in cells for cells in self.stations.values()):
                raise Full(f"two stations with PCI {cell[0]} and EARFCN {cell[1]}")
            if len(self.stations[name]) == CELLS:
                raise Full(f"more than {CELLS} cells of {name}")
            list(self.stations.values())[number].append(cell)
        return list(cell)

    def made_up(self, name: str) -> Cell:
        """A cell for a station none of whose cells is known."""
        taken = {cell for cells in self.stations.values() for cell in cells}
        cell = next(
            (pci, GREATEST_EARFCN) for pci in range(GREATEST_PCI, -1, -1) if (pci, GREATEST_EARFCN) not in taken
        )
        self.cell(name, cell)
        self.invented.add(cell)
        return cell

    # -- steps

    def name(self) -> str:
        self.count += 1
        return str(self.count - 1)

    def block(self) -> ItemBlock:
        """A block here, which may be filled later; what comes after it stands behind it."""
        made = ItemBlock()
        self.blocks += [made, ItemBlock()]
        return made

    def act(self, step: Step, at: At, block: ItemBlock | None = None) -> str:
        item = act(self.name(), step)
        return self.put(item, at, step["do"] not in SILENT, block)

    def deliver(self, of: str, at: At, sends: bool = True, block: ItemBlock | None = None, name: str = "") -> str:
        """The delivery of what an item sent; `sends` is a guess of whether something is sent on it."""
        return self.put(delivery(name or self.name(), of), at, sends, block)

    def put(self, item: Item, at: At, sends: bool, block: ItemBlock | None) -> str:
        (block or self.blocks[-1]).items.append(item)
        self.at[item.name], self.sends[item.name] = at, sends
        return item.name

    def assume(self, frame: str, text: str) -> At:
        """Notes what is assumed; answers where its steps come from."""
        if At(frame, text) not in self.assumed:
            self.assumed.append(At(frame, text))
        return At(frame, f"assumed: {text}")

    # -- the whole

    def items(self) -> Iterator[Item]:
        return (item for block in self.blocks for item in block.items)

    def setup(self) -> str:
        if not self.stations:
            self.made_up("a station")
        setup: dict[str, object] = {"phone": {"caps": self.caps}}
        core: dict[str, object] = {"priority": [0, 2]} if self.null_ciphering else {}
        setup["core"] = core | {"first_ncc": self.first_ncc}
        setup["station"] = [
            {"id": number, "cells": [list(cell) for cell in cells]}
            for number, cells in enumerate(self.stations.values())
        ]
        return setup_text(setup)

    def run(self, program: str) -> Course:
        """The course of the steps. What the capture does not show is not delivered, so all are taken to send in the
        scenario."""
        items = list(self.items())
        return Runs(program, self.setup()).course(items, {item.name: True for item in items}, self.sends)
