"""Messages that a capture has in another order than they were sent: near ones of two associations are swapped. Nothing
differs then."""
from __future__ import annotations

import copy
import os
import unittest
from collections.abc import Iterator
from dataclasses import replace

from lte_sec.captures.cells import Cells
from lte_sec.captures.decoding import Message
from lte_sec.judge.reading import check
from lte_sec.common.report import DIFFERS, Line
from lte_sec.common.terms import Derivations, Kasme

from . import test_faults, test_simulated
from .in_views import WORLDS
from .simulated import CALLS, CELLS
from .situations import KASMES
from .sound_worlds import late_answer

EVERY = 1 if os.environ.get("EVERY_PLACE") else 7  # the gate tries a sample
LONG = 100  # messages; longer worlds say the same again and again


def lines_of(messages: list[Message]) -> list[Line]:
    named = [Kasme(f"k{place}", kasme) for place, kasme in enumerate(KASMES[:4])]
    return check(Derivations(CALLS, named), Cells(CELLS), copy.deepcopy(messages), budget=300).lines


def swapped(messages: list[Message]) -> Iterator[tuple[int, list[Message]]]:
    """The messages with each two neighbours swapped that go between other ends: one association keeps its order
    (SCTP)."""
    for place, (one, other) in enumerate(zip(messages, messages[1:])):
        if {one.source, one.target} != {other.source, other.target} and "RRC" not in (one.link, other.link):
            yield place, [
                *messages[:place],
                replace(other, time=one.time),
                replace(one, time=other.time),
                *messages[place + 2 :],
            ]


class Swapped(unittest.TestCase):
    def test_nothing_differs(self) -> None:
        tried = place = 0
        for name, made in WORLDS.items():
            world = made()
            for at, messages in swapped(world.messages) if not world.apart and len(world.messages) < LONG else ():
                place += 1
                if place % EVERY:
                    continue
                tried += 1
                with self.subTest(world=name, behind=messages[at].frame):
                    self.assertEqual([str(line) for line in lines_of(messages) if line.verdict == DIFFERS], [])
        print(f"{tried} swaps", end=" ", flush=True)

    def test_a_fault_is_told_all_the_same(self) -> None:
        told = alone = tried = place = 0
        for made, _ in [*test_simulated.BROKEN.values(), *test_faults.BROKEN.values()]:
            world = made()
            for _, messages in swapped(world.messages) if len(world.messages) < LONG else ():
                place += 1
                if place % EVERY:
                    continue
                tried += 1
                frames = {
                    line.frame for line in lines_of(messages) if line.verdict == DIFFERS and line.what != "agreement"
                }
                told += world.faults[0] in frames
                alone += frames == {world.faults[0]}
        print(f"{told} of {tried} faults told behind swaps, {alone} of them alone", end=" ", flush=True)
        self.assertGreaterEqual(told, 0.9 * tried)
        self.assertGreaterEqual(alone, 0.9 * tried)

    def test_a_late_answer_says_nothing_of_where_the_phone_is(self) -> None:
        texts = [str(line) for line in lines_of(late_answer().messages)]
        self.assertTrue(any("NH right: nh(2) NCC 2 (late)" in text or "(late)" in text for text in texts), texts)
        self.assertEqual([text for text in texts if "that the trace does not show" in text], [])


if __name__ == "__main__":
    unittest.main()
