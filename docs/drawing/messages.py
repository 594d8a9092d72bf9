"""The messages of a report of `run`, with the scenario that was run.

Each arrow is a delivery, at the step that brought it. A report does not say what a record is, so a message has its name
by what made its sender send it.
"""
from __future__ import annotations

import re
import textwrap
from collections.abc import Mapping
from typing import Any

from lte_sec.whatif.chart import Charted, lanes_of, octets, said, steps_of
from lte_sec.runs.ladders import names_of
from lte_sec.pages.picture import INK, MONO, PALE, RED, Picture
from lte_sec.runs.remarks import named
from lte_sec.runs.run_report import NotedKey, StepLine, rows_of

from . import NotDrawn

KEY_FILLS = [
    "#cfe3ff",
    "#ffe8c7",
    "#cdeed6",
    "#f6d5e6",
    "#e3d9f7",
    "#f3f0b5",
    "#c9eef0",
    "#f5cfc5",
    "#d9e8c4",
    "#d7dbe0",
]


LANE, LETTER, MARGIN = (
    262,
    0.62,
    880,
)  # the distance between lanes; a letter's width by its size; the width of what stands above them
INJECTED = 104  # the length of an arrow that no actor sends; it stands right of the numbers of steps
SCREEN, HEIGHT = 900, 44  # the actors' names stand again after so much, and take so much
HEAD = (
    (
        "Each arrow is a delivery, at its step, with the number of the record. A key that an actor comes by or tells "
        "stands on its line,"
    ),
    "with its kind, its row of the ladder, NCC and way. One number is one key.",
)


def draw(text: str, scenario: Mapping[str, Any], name: str, frames: Mapping[int, str]) -> str:
    """The picture of a report of this scenario, under its name and with the frames of its steps."""
    report = text.splitlines()
    if not report or StepLine.read(report[0]) is None:
        raise NotDrawn("it has no steps")
    ends = [line.split()[1] for line in report if re.fullmatch(r"end \d+ \d+ \d+", line)]
    steps = len(scenario.get("step", []))
    if ends and int(ends[0]) != steps:
        raise NotDrawn(f"it has {ends[0]} steps, and the scenario {steps}")
    return picture_of(report, scenario, name, frames)


def picture_of(report: list[str], scenario: Mapping[str, Any], name: str, frames: Mapping[int, str]) -> str:
    steps = steps_of(report, scenario)
    lanes = lanes_of(scenario, steps)
    x_of = {lane: 150 + LANE * place for place, lane in enumerate(lanes)}
    right = x_of[lanes[-1]] + 150
    picture, drawn = Picture(), Steps(x_of, names_of(rows_of(report).values()))
    delivered = {step.came.record for step in steps if step.came}
    picture.text(
        20, 26, textwrap.shorten(name, int(max(right, MARGIN) / LETTER / 16), placeholder=" .."), 16, weight="bold"
    )
    for place, words in enumerate(HEAD):
        picture.text(20, 45 + 15 * place, words, 11, colour="#52606d")
    begin = y = screen = 78
    heads = [begin]
    y += HEIGHT
    for number, step in enumerate(steps):
        if y - screen > SCREEN:
            heads.append(y - 14)
            screen, y = y, y + HEIGHT
        drawn.text(20, y + 4, named(number, frames), 11, MONO, "#52606d")
        y = drawn.draw(step, y, step.sent is not None and step.sent.record not in delivered)
    for lane in lanes:
        picture.line([(x_of[lane], begin + 26), (x_of[lane], y)], PALE, arrow=False)
        for head in heads:
            picture.box(x_of[lane] - 52, head, 104, 26, "#e4e7eb")
            picture.text(x_of[lane], head + 17, lane, 12.5, weight="bold", anchor="middle")
    picture.put(drawn)
    for text in report[len(steps) :]:
        if " coincidence " in text:
            picture.text(
                20,
                y + 16,
                text.split(" coincidence ")[0] + " coincidence: the run ends here",
                12,
                colour=RED,
                weight="bold",
            )
    picture.reach(right, y)
    return picture.svg(name)


class Steps(Picture):
    """The steps, which are put on the lanes of the actors; keys have names, and each a colour."""

    def __init__(self, x_of: Mapping[str, int], names: Mapping[str, str]):
        super().__init__()
        self.x_of, self.names = x_of, names
        self.fills: dict[str, str] = {}

    def draw(self, step: Charted, y: int, is_lost: bool) -> int:
        """Draws a step; where the next one stands."""
        line = step.line
        if line.who == "both":
            at = [self.x_of["phone"], next(x for lane, x in self.x_of.items() if lane.startswith("core"))]
        else:
            at = [self.x_of.get(line.who, self.x_of["phone"])]
        self.draw_cause(step, at, y)
        x, below = at[0], y + 7
        if line.answer != "done":
            below += 14
            self.beside(x, below, line.answer, RED, "bold")
        if line.text is not None:
            below += 14
            self.beside(x, below, f"opens to {octets(line.text)}")
        if line.note:
            self.draw_key(x, below + 4, line.note)
            below += 24
        if step.sent and is_lost:
            below += 16
            self.beside(x, below, f"{step.sent.record} {step.sent.name}, not delivered", PALE)
        return max(y + 30, below + (26 if line.text is not None else 20))

    def draw_cause(self, step: Charted, at: list[int], y: int) -> None:
        """What brings a step: a delivery, or what an actor does of its own."""
        if step.came:
            self.arrow(self.x_of[step.came.sender], at[0], y, f"{step.came.record} {step.came.name}")
        elif step.event["do"] == "inject":
            self.arrow(at[0] - INJECTED, at[0], y, "injected octets")
        else:
            for x in at:
                self.parts.append(f'<circle cx="{x}" cy="{y}" r="4" fill="{INK}"/>')
                self.beside(x, y, said(step.event) if step.event["do"] != "deliver" else "no such record")

    def arrow(self, source: float, target: float, y: int, words: str) -> None:
        if source == target:
            self.line([(source, y), (source + 30, y), (source + 30, y + 8), (source, y + 8)])
            self.text(source + 38, y + 4, words, 11)
        else:
            inner = 1 if target > source else -1
            self.line([(source, y), (target - inner, y)])
            self.text((source + target) / 2, y - 5, words, 11, anchor="middle")

    def beside(self, x: float, y: int, words: str, colour: str = INK, weight: str = "normal") -> None:
        self.text(x + 9, y + 4, words, 11, colour=colour, weight=weight)

    def draw_key(self, x: int, y: int, note: NotedKey) -> None:
        fill = self.fills.setdefault(note.key, KEY_FILLS[len(self.fills) % len(KEY_FILLS)])
        self.box(x - 116, y, 232, 18, fill)
        self.text(x - 110, y + 13, f"{self.names.get(note.key, '')} {note.key[:8]}..".strip(), 10.5, MONO)
        self.text(x + 110, y + 13, f"NCC {note.ncc}, {note.way}", 10.5, anchor="end")
