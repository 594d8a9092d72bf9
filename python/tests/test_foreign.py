"""Service Requests of phones whose KASMEs are not given, between those of one that is known: nobody is blamed, and the
work stays small."""
from __future__ import annotations

import os
import random
import unittest

from lte_sec.captures.cells import Cells
from lte_sec.judge.reading import check
from lte_sec.common.report import DIFFERS
from lte_sec.common.terms import Derivations, Kasme

from .rarer import RarerWorld
from .simulated import CELLS, Phone
from .standin import StandIn

MANY = 3_000 if os.environ.get("EVERY_PLACE") else 600
ECIS = [site.eci for site in CELLS]


class Counted(StandIn):
    """The calls in pure Python, counted."""

    made = 0

    def kenb(self, kasme: bytes, count: int) -> bytes:
        self.made += 1
        return super().kenb(kasme, count)

    def eia2(self, key: bytes, count: int, bearer: int, direction: int, text: bytes) -> bytes:
        self.made += 1
        return super().eia2(key, count, bearer, direction, text)


def world(many: int, with_tmsi: bool, with_kenb: bool) -> RarerWorld:
    chance, made = random.Random(many), RarerWorld()
    phone = Phone("known", bytes([1]) * 32, ksi=2)
    made.attach(phone, ECIS[0])
    for place in range(many):
        other = Phone("foreign", chance.randbytes(32), ksi=place % 7, tmsi=0xD0000000 + place if with_tmsi else 0)
        other.up = chance.randrange(2_000)
        made.service(other, chance.choice(ECIS))
        begin = made.messages[-3]
        begin.tmsi = other.tmsi or None
        if not with_kenb and place % 2:
            del made.messages[-2:]
        made.release(other)
        if place % 50 == 0:
            made.release(phone)
            made.service(phone, chance.choice(ECIS))
            made.nas_up(phone)
            made.nas_down(phone)
    for place, message in enumerate(made.messages):
        message.frame = str(place + 1)
    return made


class Foreign(unittest.TestCase):
    def test_nobody_is_blamed(self) -> None:
        for with_tmsi, with_kenb in ((True, True), (False, True), (True, False)):
            with self.subTest(with_tmsi=with_tmsi, with_kenb=with_kenb):
                lines = check(
                    Derivations(StandIn(), [Kasme("known", bytes([1]) * 32)]),
                    Cells(CELLS),
                    world(MANY, with_tmsi, with_kenb).messages,
                    budget=2_000,
                ).lines
                self.assertEqual([line.text for line in lines if line.verdict == DIFFERS], [])
                self.assertEqual(
                    sum(line.text.endswith("MAC right Service request") for line in lines), len(range(0, MANY, 50))
                )

    def test_work_grows_with_frames_only(self) -> None:
        made = []
        for many in (40, 80):
            calls = Counted()
            kasmes = [Kasme(f"k{place}", bytes([place + 1]) * 32) for place in range(10)]
            check(Derivations(calls, kasmes), Cells(CELLS), world(many, True, True).messages, budget=200)
            made.append(calls.made)
        self.assertLess(made[1] - made[0], 40 * 250, made)
        self.assertLess(made[1], 2.2 * made[0])


if __name__ == "__main__":
    unittest.main()
