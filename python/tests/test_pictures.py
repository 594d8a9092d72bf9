"""In Chromium no two texts of a picture overlap, and none leaves its box or the picture: the pictures of docs, and
`draw` of scenarios with long names."""
from __future__ import annotations

import subprocess
import sys
import tempfile
import unittest
from collections.abc import Iterator
from pathlib import Path

from .browser import Browser, browser, found

TOP = Path(__file__).resolve().parents[2]
LONG = (
    "A phone is handed over between stations whose acknowledgements are late, and the name of its scenario goes "
    "on and on, as names of products' scenarios do"
)
SCENARIOS = (
    "run/ordinary",
    "run/eight-ahead",
    "run/key-change",
    "run/cancelled-s1",
    "run/bidding-down",
    "run/counts-spent",
    "worked/rejects",
    "worked/wide-earfcn",
    "worked/injected",
    "worked/zeros",
)
# Of each text its words and the room that its letters take: a fifth of its box is room between lines. Then the boxes,
# and the picture.
MEASURES = """(() => {
    const room = (it, less) => { const at = it.getBBox(); return [at.x, at.y + at.height * less, at.x + at.width, at.y + at.height * (1 - less)]; };
    const boxes = [...document.querySelectorAll('rect')].map(it => room(it, 0));
    return {texts: [...document.querySelectorAll('text')].filter(it => it.textContent.trim()).map(it => [it.textContent, room(it, 0.1)]), boxes: boxes.slice(1), picture: boxes[0]};
})()"""
Room = tuple[float, float, float, float]


def meet(one: Room, other: Room, by: float = 1) -> bool:
    """Whether two rooms have more in common than an edge."""
    return min(one[2], other[2]) - max(one[0], other[0]) > by and min(one[3], other[3]) - max(one[1], other[1]) > by


def faults_of(texts: list[tuple[str, Room]], boxes: list[Room], picture: Room) -> Iterator[str]:
    """Texts that overlap, and those that leave the smallest box that their middle is in, or the picture."""
    for place, (words, room) in enumerate(texts):
        yield from (f"'{words}' and '{others}' overlap" for others, other in texts[place + 1 :] if meet(room, other))
        x, y = (room[0] + room[2]) / 2, (room[1] + room[3]) / 2
        around = [box for box in boxes if box[0] <= x <= box[2] and box[1] <= y <= box[3]]
        box = min(around, key=lambda it: (it[2] - it[0]) * (it[3] - it[1]), default=picture)
        for name, edge in (("its box", box), ("the picture", picture)):
            if room[0] < edge[0] - 1 or room[1] < edge[1] - 1 or room[2] > edge[2] + 1 or room[3] > edge[3] + 1:
                yield f"'{words}' leaves {name}"


def measured(one: Browser, file: Path) -> list[str]:
    one.open(file)
    told = one.ask(MEASURES)
    return list(
        faults_of(
            [(words, room_of(room)) for words, room in told["texts"]],
            [room_of(box) for box in told["boxes"]],
            room_of(told["picture"]),
        )
    )


def room_of(edges: list[float]) -> Room:
    left, top, right, bottom = edges
    return left, top, right, bottom


def drawn(folder: Path) -> Iterator[tuple[str, Path]]:
    """Pictures of scenarios with a long name."""
    scenario, picture = folder / "scenario.toml", folder / "drawn.svg"
    for name in SCENARIOS:
        report = (TOP / f"examples/{name}.out").read_bytes()
        scenario.write_text(f"# {LONG}\n" + (TOP / f"examples/{name}.toml").read_text())
        for kind in ("messages", "ladder"):
            picture.write_bytes(
                subprocess.run(
                    [sys.executable, TOP / "docs/draw", kind, scenario],
                    input=report,
                    stdout=subprocess.PIPE,
                    check=True,
                ).stdout
            )
            yield f"{name} {kind}", picture


class Measures(unittest.TestCase):
    def test_what_overlaps_and_what_leaves_is_told(self) -> None:
        picture, box = (0.0, 0.0, 100.0, 100.0), (10.0, 10.0, 60.0, 30.0)
        self.assertEqual([], list(faults_of([("a", (12, 12, 40, 20)), ("b", (12, 20, 40, 28))], [box], picture)))
        self.assertEqual(
            ["'a' and 'b' overlap"], list(faults_of([("a", (12, 12, 40, 20)), ("b", (38, 12, 50, 20))], [box], picture))
        )
        self.assertEqual(["'a' leaves its box"], list(faults_of([("a", (12, 12, 70, 20))], [box], picture)))
        self.assertEqual(
            ["'a' leaves the picture"] * 2,
            [it.replace("its box", "the picture") for it in faults_of([("a", (70, 70, 120, 80))], [box], picture)],
        )


@unittest.skipUnless(found(), "chromium is not here")
class Pictures(unittest.TestCase):
    def test_texts_of_pages_have_room(self) -> None:
        with browser() as one:
            for file in sorted((TOP / "docs").glob("*.svg")):
                self.assertEqual([], measured(one, file), file.name)

    def test_a_text_that_is_moved_is_told(self) -> None:
        text = (TOP / "docs/ordinary-ladder.svg").read_text()
        with browser() as one, tempfile.TemporaryDirectory() as room:
            file = Path(room) / "moved.svg"
            file.write_text(text.replace('y="45"', 'y="28"', 1))
            self.assertNotEqual([], measured(one, file))

    def test_texts_have_room_under_a_long_name(self) -> None:
        with browser() as one, tempfile.TemporaryDirectory() as room:
            for name, file in drawn(Path(room)):
                with self.subTest(name):
                    self.assertEqual([], measured(one, file))


if __name__ == "__main__":
    unittest.main()
