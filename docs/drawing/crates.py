"""The crates by the layers of docs/MAP.md, each layer a box. Lines join crates of one layer; those of other layers that
a crate stands on are named in it."""
from __future__ import annotations

import math
import re
import textwrap
from collections.abc import Mapping
from typing import Union

from lte_sec.pages.picture import PALE, Picture

from . import NotDrawn

Part = Union[str, tuple[str, list["Part"]]]  # a layer, or parts and how they lie
Point = tuple[str, int]  # a crate, or where a line passes a row; and the row
Line = tuple[Point, Point]  # from a row to the one below
Room = tuple[float, float, float, float]  # left, top, width and height

CRATE, BETWEEN, LANE = 138, 14, 16  # the widths of a crate, of the room between two, and of a line that passes a row
NAME, WORDS, LETTERS = (
    22,
    11,
    24,
)  # the heights of a crate's name and of a line of small words, and the letters of such a line
ROWS_APART, TITLE, EDGE = (
    30,
    30,
    14,
)  # the room between rows, that of a layer's title, and that around and inside a layer
FILLS = ["#f3f0b5", "#cfe3ff", "#c9eef0", "#cdeed6", "#e3d9f7", "#f6d5e6", "#ffe8c7", "#d9e8c4", "#f5cfc5", "#e4e7eb"]
# How the layers lie: parts side by side, the lower layer left, or parts from the lowest up
PLACES: Part = (
    "up",
    [
        ("across", ["Outside", "Keys and ciphers"]),
        ("across", ["Protection and chain", ("up", ["Records", ("across", ["Machine", "Actors"])])]),
        ("across", ["World", "Texts"]),
        ("across", ["Commands", "Tests"]),
    ],
)
WIDEST = {"Tests": 4}  # so many crates in a row; elsewhere 6


def named_by(text: str) -> dict[str, set[str]]:
    """The crates that each crate of crates.txt names."""
    lines = [line.partition(":") for line in text.splitlines() if line.strip() and not line.startswith("#")]
    given = {name.split()[0]: names.split() for name, _, names in lines}
    return {name: {other for other in names if other in given} for name, names in given.items()}


def stands_of(named: dict[str, set[str]]) -> dict[str, list[str]]:
    """The crates that each crate stands on, without those below another of them."""

    def below(name: str) -> set[str]:
        return named[name].union(*map(below, named[name]))

    return {name: sorted(others.difference(*map(below, others))) for name, others in named.items()}


def layers_of(page: str) -> dict[str, list[str]]:
    """The layers of the map, from the first to the last, each with its crates."""
    layers: dict[str, list[str]] = {}
    for line in page.partition("\n## Crates, by layer\n")[2].partition("\n## ")[0].splitlines():
        if line.startswith("### "):
            layers[line[4:]] = []
        elif line.startswith(("| [", "| `")):
            layers[list(layers)[-1]] += re.findall(r"\[(\w+)\]\(", line.split("|")[1]) or re.findall(
                r"`(\w+)`", line.split("|")[1]
            )
    return layers


def rows_from_below(crates: list[str], stands: dict[str, list[str]], widest: int) -> list[list[str]]:
    """The rows of a layer, from the lowest up: each crate above all of the layer that it stands on."""
    rows, left = list[list[str]](), crates
    while left:
        row = [name for name in left if not set(stands[name]) & set(left)][:widest]
        rows.append(row)
        left = [name for name in left if name not in row]
    return rows


def set_out(wanted: dict[Point, float], widths: Mapping[Point, float]) -> dict[Point, float]:
    """Places for the things of a row, in the order of the places wanted and as near to these as their widths allow."""
    groups: list[
        tuple[list[Point], float, float]
    ] = []  # those that touch: what is in it, its width, and where its left side is wanted
    for point in sorted(wanted, key=lambda point: wanted[point]):
        groups.append(([point], widths[point], wanted[point] - widths[point] / 2))
        while len(groups) > 1 and groups[-2][2] + groups[-2][1] > groups[-1][2]:
            (points, width, left), (more, wider, right) = groups[-2:]
            groups[-2:] = [
                (
                    points + more,
                    width + wider,
                    (left * len(points) + (right - width) * len(more)) / (len(points) + len(more)),
                )
            ]
    places = {}
    for points, _, left in groups:
        for point in points:
            places[point] = left + widths[point] / 2
            left += widths[point]
    return places


def closed(x_of: dict[Point, float], widths: Mapping[Point, float]) -> dict[Point, float]:
    """The same places, with the room taken out that no row uses."""
    places, out = dict[Point, float](), 0.0
    end: float | None = None
    for point in sorted(x_of, key=lambda point: x_of[point] - widths[point] / 2):
        left = x_of[point] - widths[point] / 2
        if end is not None and left > end:
            out += left - end
        places[point] = x_of[point] - out
        end = max(end or left, x_of[point] + widths[point] / 2)
    return places


def lines_between(rows: list[list[str]], stands: dict[str, list[str]]) -> list[Line]:
    """The lines from each row of a layer to the one below, between crates (name, row) and places where a line passes a
    row."""
    row_of = {name: at for at, row in enumerate(rows) for name in row}
    lines = set[Line]()
    for name in row_of:
        for other in set(stands[name]) & set(row_of):
            for at in range(row_of[name], row_of[other], -1):
                lines.add(((name if at == row_of[name] else other, at), (other, at - 1)))
    return sorted(lines)


def fault_of(layers: dict[str, list[str]], named: dict[str, set[str]]) -> str | None:
    """Why the map does not fit crates.txt or this picture, or None."""
    if sorted(layers) != sorted(leaves(PLACES)):
        return "its layers are others than those of docs/drawing/crates.py"
    order = {name: place for place, crates in enumerate(layers.values()) for name in crates}
    for name in sorted(set(order) ^ set(named)):
        return f"{name} has no layer there" if name in named else f"{name} of docs/MAP.md is missing"
    for name, others in named.items():
        for other in others:
            if order[other] > order[name]:
                return f"{name} stands on {other}, which has a later layer there"
    return None


def draw(text: str, page: str) -> str:
    """The picture of crates.txt by the layers of the map."""
    layers, named = layers_of(page), named_by(text)
    fault = fault_of(layers, named)
    if fault:
        raise NotDrawn(fault)
    return picture_of(layers, stands_of(named))


def picture_of(layers: dict[str, list[str]], stands: dict[str, list[str]]) -> str:
    boxes = {name: Layer(name, crates, stands, fill) for (name, crates), fill in zip(layers.items(), FILLS)}
    picture, (width, height) = Picture(), size_of(PLACES, boxes)
    picture.text(20, 26, "The crates by layer", 16, weight="bold")
    picture.text(
        20,
        45,
        (
            "A line goes down to a crate of the same layer that a crate stands on. Small words name those of lower "
            "layers, which are below or to the left."
        ),
        11,
        colour="#52606d",
    )
    picture.text(20, 60, "What a crate stands on only through another one is left out.", 11, colour="#52606d")
    place(PLACES, boxes, picture, (14, 74, width, height))
    return picture.svg("The crates by layer")


# -- how the layers lie


def leaves(part: Part) -> list[str]:
    return [part] if isinstance(part, str) else [name for one in part[1] for name in leaves(one)]


def size_of(part: Part, boxes: dict[str, Layer]) -> tuple[float, float]:
    if isinstance(part, str):
        return boxes[part].width, boxes[part].height
    sizes, gaps = [size_of(one, boxes) for one in part[1]], EDGE * (len(part[1]) - 1)
    if part[0] == "across":
        return sum(width for width, _ in sizes) + gaps, max(height for _, height in sizes)
    return max(width for width, _ in sizes), sum(height for _, height in sizes) + gaps


def place(part: Part, boxes: dict[str, Layer], picture: Picture, room: Room) -> None:
    """Draws layers into a room. What is left over of it is shared."""
    left, top, width, height = room
    if isinstance(part, str):
        boxes[part].draw(picture, room)
        return
    own, sizes = size_of(part, boxes), [size_of(one, boxes) for one in part[1]]
    gaps = EDGE * (len(sizes) - 1)
    if part[0] == "across":
        share = (width - gaps) / (own[0] - gaps)
        for one, (wide, _) in zip(part[1], sizes):
            place(one, boxes, picture, (left, top, wide * share, height))
            left += wide * share + EDGE
    else:
        share = (height - gaps) / (own[1] - gaps)
        for one, (_, high) in reversed(list(zip(part[1], sizes))):
            place(one, boxes, picture, (left, top, width, high * share))
            top += high * share + EDGE


# -- a layer


class Layer:
    """A layer: its rows from the lowest up, its lines, and where its crates and lines lie from left to right."""

    def __init__(self, name: str, crates: list[str], stands: dict[str, list[str]], fill: str):
        self.name, self.fill = name, fill
        self.rows = rows_from_below(crates, stands, WIDEST.get(name, 6))
        self.lines = lines_between(self.rows, stands)
        self.others = {
            one: textwrap.wrap(", ".join(other for other in stands[one] if other not in crates), LETTERS)
            for one in crates
        }
        self.crates = {(one, at) for at, row in enumerate(self.rows) for one in row}
        self.x_of = self.set_out()
        edges = {
            one: (x, x + CRATE) if one in self.crates else (x + (CRATE - LANE) / 2, x + (CRATE + LANE) / 2)
            for one, x in self.x_of.items()
        }
        first = min(left for left, _ in edges.values())
        self.x_of = {one: x - first for one, x in self.x_of.items()}
        self.inner = max(right for _, right in edges.values()) - first
        self.heights = [NAME + 4 + WORDS * max(len(self.others[one]) for one in row) for row in self.rows]
        self.width, self.height = self.inner + 2 * EDGE, TITLE + EDGE + sum(self.heights) + ROWS_APART * (
            len(self.rows) - 1
        )

    def set_out(self) -> dict[Point, float]:
        points = sorted(self.crates.union(*self.lines))
        widths = {point: CRATE + BETWEEN if point in self.crates else LANE for point in points}
        near = {point: [b if a == point else a for a, b in self.lines if point in (a, b)] for point in points}
        levels = [[point for point in points if point[1] == at] for at in range(len(self.rows))]
        x_of: dict[Point, float] = {}
        for row in levels:
            x_of.update(set_out({point: CRATE * (place - len(row) / 2) for place, point in enumerate(row)}, widths))
        for turn in range(200):
            for row in levels if turn % 2 == 0 else levels[::-1]:
                wanted = {
                    point: math.fsum(x_of[other] for other in near[point]) / len(near[point])
                    if near[point]
                    else x_of[point]
                    for point in row
                }
                x_of.update(set_out(wanted, widths))
        return closed(x_of, widths)

    def draw(self, picture: Picture, room: Room) -> None:
        left, top, width, height = room
        picture.box(round(left), round(top), round(width), round(height), self.fill + "55", "none")
        picture.text(round(left) + 10, round(top) + 18, self.name, 12, weight="bold")
        shift, below = left + (width - self.inner) / 2 + CRATE / 2, top + height - EDGE - (height - self.height) / 2
        tops = []
        for high in self.heights:
            tops.append(round(below - high))
            below -= high + ROWS_APART
        for upper, lower in self.lines:
            (x, low), (end, high) = (
                (round(self.x_of[one] + shift), self.edge_of(one, tops, side))
                for one, side in ((upper, "bottom"), (lower, "top"))
            )
            passes = [] if lower in self.crates else [(end, tops[lower[1]] + self.heights[lower[1]])]
            picture.line([(x, low), (end, high), *passes], PALE, arrow=False, width=1.1)
        for name, at in sorted(self.crates):
            self.draw_crate(picture, name, round(self.x_of[name, at] + shift), tops[at])

    def height_of(self, name: str) -> int:
        return NAME + (4 + WORDS * len(self.others[name]) if self.others[name] else 0)

    def edge_of(self, point: Point, tops: list[int], side: str) -> int:
        """Where a line leaves a point of a row below, or meets it above."""
        name, at = point
        if side == "top":
            return tops[at]
        return tops[at] + (self.height_of(name) if point in self.crates else self.heights[at])

    def draw_crate(self, picture: Picture, name: str, x: int, top: int) -> None:
        picture.box(x - CRATE // 2, top, CRATE, self.height_of(name), self.fill)
        picture.text(x, top + 15, name, 11, anchor="middle")
        for place, words in enumerate(self.others[name]):
            picture.text(x, top + NAME + 7 + WORDS * place, words, 9, anchor="middle", colour="#52606d")
