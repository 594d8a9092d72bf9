"""Phones at random, as the standard has them, with KASMEs that are not given, and with a frame lost: nothing ever
differs."""
from __future__ import annotations

import os
import random
import unittest
from collections.abc import Callable

from lte_sec.captures.cells import Cells
from lte_sec.judge.reading import check
from lte_sec.common.report import DIFFERS
from lte_sec.common.terms import Derivations, Kasme

from .rarer import RarerWorld
from .simulated import CALLS, CELLS, Phone, cell_of

WORLDS = 1_500 if os.environ.get("EVERY_PLACE") else 60
KASMES = [bytes([number]) * 32 for number in range(1, 4)]


def renewed(world: RarerWorld, phone: Phone, eci: int, chance: random.Random, spare: list[bytes]) -> None:
    """An authentication, and its KASME comes into use for the keys of stations."""
    if spare and phone.as_kasme == phone.kasme:
        world.reauthenticate(phone, spare.pop())
        if chance.random() < 0.5:
            world.change_key(phone)
        else:
            world.again(phone, eci)


def suspended(world: RarerWorld, phone: Phone, eci: int, chance: random.Random) -> None:
    world.suspend(phone)
    if chance.random() < 0.5:
        world.resume(phone, chance.random() < 0.5)
    else:
        world.resume_at(phone, eci)


def made(seed: int) -> tuple[RarerWorld, list[bytes]]:
    """A world, and the KASMEs that are given: most of them."""
    chance = random.Random(seed)
    world, spare = RarerWorld(chance.choice((1, 2, 2))), [bytes([number]) * 32 for number in range(100, 108)]
    given = [*KASMES, *(kasme for kasme in spare if chance.random() < 0.8)]
    phones = [Phone(f"phone {place}", kasme, ksi=place) for place, kasme in enumerate(KASMES)]
    for phone in phones:
        world.attach(phone, chance.choice(CELLS).eci)
    acts: list[Callable[[Phone, int, int], object]] = [
        *3 * [lambda phone, eci, own: world.x2(phone, eci)],
        lambda phone, eci, own: world.s1(phone, eci),
        lambda phone, eci, own: world.nas_up(phone),
        lambda phone, eci, own: world.nas_down(phone),
        lambda phone, eci, own: world.again(phone, eci),
        lambda phone, eci, own: renewed(world, phone, eci, chance, spare),
        lambda phone, eci, own: world.refresh(phone),
        lambda phone, eci, own: world.refresh(phone, own),
        lambda phone, eci, own: suspended(world, phone, eci, chance),
        lambda phone, eci, own: world.x2(phone, eci, switch=False),
    ]
    for _ in range(chance.randrange(20, 60)):
        phone = chance.choice(phones)
        here = cell_of(phone.eci).station
        away, own = ([site.eci for site in CELLS if (site.station == here) == near] for near in (False, True))
        chance.choice(acts)(phone, chance.choice(away), chance.choice(own))
    return world, given


class Random(unittest.TestCase):
    def test_what_keeps_the_standard_is_never_blamed(self) -> None:
        tried = 0
        for seed in range(WORLDS):
            try:
                world, given = made(seed)
            except AssertionError:  # a core eight steps ahead of its phone: they come apart
                continue
            if world.apart:
                continue
            tried += 1
            lost = random.Random(seed).randrange(len(world.messages)) if seed % 2 else None
            messages = [message for place, message in enumerate(world.messages) if place != lost]
            lines = check(
                Derivations(CALLS, [Kasme(f"k{place}", kasme) for place, kasme in enumerate(given)]),
                Cells(CELLS),
                messages,
                budget=200,
            ).lines
            with self.subTest(seed=seed, lost=lost):
                self.assertEqual([str(line) for line in lines if line.verdict == DIFFERS], [])
        print(f"{tried} worlds", end=" ", flush=True)


if __name__ == "__main__":
    unittest.main()
