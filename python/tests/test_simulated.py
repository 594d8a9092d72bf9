"""Traces of phones, stations and a core that keep TS 33.401, or break it in one place: what is planted is told, and
nothing else."""
from __future__ import annotations

import random
import unittest
from collections.abc import Callable

from lte_sec.captures.decoding import Command
from lte_sec.common.report import DIFFERS, UNKNOWN, Line

from .simulated import CALLS, CELLS, Phone, World, cell_of
from .sound_worlds import (
    ENB1,
    ENB2,
    ENB3,
    KASMES,
    SOUND,
    attached,
    handovers,
    lines_of,
    lost_answers,
    star,
    within_a_station,
)


# -- what breaks it: each function plants one fault, and the line says what is found


def at_second_handover(**planted: object) -> Callable[[], World]:
    def made() -> World:
        world, phone = attached()
        world.x2(phone, ENB2)
        side = phone.stations["enb2"]
        assert side.pair is not None
        ways = {"nh": side.pair[0], "kenb": side.key}
        how = {name: (value(ways) if callable(value) else value) for name, value in planted.items()}
        world.x2(phone, ENB1, **how)
        world.x2(phone, ENB2)
        world.x2(phone, ENB3)
        return world

    return made


def used_nh_again() -> World:
    world, phone = attached()
    world.s1(phone, ENB2)
    world.x2(phone, ENB1, key=star(phone.core_sync, ENB1))
    world.x2(phone, ENB2)
    return world


def at_service(key: Callable[[Phone], bytes]) -> Callable[[], World]:
    def made() -> World:
        world, phone = attached()
        other = Phone("other", KASMES[1])
        world.attach(other, ENB1)
        world.release(phone)
        world.service(phone, ENB2, key=key(phone))
        world.x2(phone, ENB1)
        world.x2(phone, ENB2)
        return world

    return made


def old_kasme_at_the_change() -> World:
    world, phone = attached()
    world.reauthenticate(phone, KASMES[1])
    world.change_key(phone, key=CALLS.kenb(KASMES[0], 2))
    world.x2(phone, ENB2)
    world.x2(phone, ENB1)
    return world


def old_chain_after_the_change() -> World:
    world, phone = attached()
    world.x2(phone, ENB2)
    old = phone.core_sync
    world.reauthenticate(phone, KASMES[1])
    world.change_key(phone)
    world.x2(phone, ENB1, nh=CALLS.nh(KASMES[0], old))
    world.x2(phone, ENB2)
    return world


def s1_with(**planted: object) -> Callable[[], World]:
    def made() -> World:
        world, phone = attached()
        world.x2(phone, ENB2)
        world.s1(phone, ENB1, **planted)  # type: ignore[arg-type]
        world.x2(phone, ENB3)
        return world

    return made


def nas_with(**planted: object) -> Callable[[], World]:
    def made() -> World:
        world, phone = attached()
        world.fault(world.nas_up(phone, **planted))  # type: ignore[arg-type]
        phone.up = max(phone.up, 3)
        world.nas_up(phone)
        world.nas_down(phone)
        return world

    return made


def complete_with_header_2() -> World:
    world, phone = attached()
    phone.kasme, phone.ksi, phone.up, phone.down = KASMES[1], 1, 0, 0
    world.nas_down(phone, bytes([7, 0x5D, 0x22, 1, 2, 0xF0, 0x70]), 3)
    phone.trigger = 0
    world.fault(world.nas_up(phone, b"\x07\x5e", 2))
    world.change_key(phone)
    world.nas_up(phone)
    return world


def key_of_another_handover() -> World:
    """KeNB* that is right for another phone."""
    world, phone = attached()
    other = Phone("other", KASMES[1])
    world.attach(other, ENB1)
    world.x2(phone, ENB2, key=star(other.own.key, ENB2))
    world.x2(phone, ENB1)
    return world


def wrapped_without_overflow() -> World:
    world, phone = attached()
    while phone.up < 256:
        world.nas_up(phone)
    world.fault(world.nas_up(phone, count=0))
    phone.up = 257
    world.nas_up(phone)
    return world


SITE1, SITE3 = cell_of(ENB1), cell_of(ENB3)
BROKEN: dict[str, tuple[Callable[[], World], str]] = {
    "another PCI": (
        at_second_handover(key=lambda has: star(has["nh"], ENB1, pci=11)),
        "is star(nh(2),11,100), wanted star(nh(2),10,100)",
    ),
    "another EARFCN": (
        at_second_handover(key=lambda has: star(has["nh"], ENB1, earfcn=6300)),
        "is star(nh(2),10,6300), wanted star(nh(2),10,100)",
    ),
    "an EARFCN of no cell": (
        at_second_handover(key=lambda has: star(has["nh"], ENB1, earfcn=777)),
        "is star(nh(2),10,777), wanted star(nh(2),10,100)",
    ),
    "the uplink EARFCN": (
        at_second_handover(key=lambda has: star(has["nh"], ENB1, earfcn=18100)),
        "is star(nh(2),10,18100), wanted",
    ),
    "a mixed cell": (
        at_second_handover(key=lambda has: star(has["nh"], ENB1, pci=301)),
        "is star(nh(2),301,100), wanted star(nh(2),10,100)",
    ),
    "horizontal, vertical was owed": (
        at_second_handover(key=lambda has: star(has["kenb"], ENB1)),
        "is star(star(kenb(0),301,6300),10,100), wanted star(nh(2),10,100)",
    ),
    "vertical, horizontal was owed": (used_nh_again, "is star(nh(2),10,100), wanted star(star(nh(2),301,6300),10,100)"),
    "KeNB* of KeNB*": (
        at_second_handover(key=lambda has: star(star(has["nh"], ENB1), ENB1)),
        "is star(star(nh(2),10,100),10,100), wanted",
    ),
    "another NCC beside KeNB*": (at_second_handover(ncc=5), "NCC differs: is 5, wanted 2; KeNB* is star(nh(2),10,100)"),
    "another NCC in the command": (
        at_second_handover(told=Command(4, 10, 100, False, b"")),
        "command differs: NCC is 4, wanted 2",
    ),
    "another cell in the command": (
        at_second_handover(told=Command(2, 10, 6300, False, b"")),
        "command differs: cell is (10,6300), wanted (10,100)",
    ),
    "NH skipped": (
        at_second_handover(steps=2),
        "NH differs: is nh(4), wanted nh(3) of k0; NCC differs: is 4, wanted 3",
    ),
    "another NCC beside NH": (at_second_handover(nh_ncc=7), "NCC differs: is 7, wanted 3; NH is nh(3)"),
    "KeNB* as SYNC-input": (
        at_second_handover(nh=lambda has: CALLS.nh(KASMES[0], has["kenb"])),
        "is nh(1) on star(kenb(0),301,6300), wanted nh(3) on kenb(0) of k0",
    ),
    "NH of another KASME": (
        at_second_handover(nh=lambda has: CALLS.nh(KASMES[1], has["nh"])),
        "is nh(3) of k1, wanted nh(3) of k0",
    ),
    "KeNB of another COUNT": (
        at_service(lambda phone: CALLS.kenb(KASMES[0], phone.up + 1)),
        "is kenb(3), wanted kenb(2) of k0",
    ),
    "KeNB of another phone": (
        at_service(lambda phone: CALLS.kenb(KASMES[1], phone.up)),
        "is kenb(2) of k1, wanted kenb(2) of k0",
    ),
    "KeNB* of another phone": (
        key_of_another_handover,
        "is star(kenb(0),301,6300) of k1, wanted star(kenb(0),301,6300) of k0",
    ),
    "the old KASME at a key change": (old_kasme_at_the_change, "is kenb(2) of k0, wanted kenb(0) of k1"),
    "the old chain after a key change": (old_chain_after_the_change, "is nh(3) of k0, wanted nh(2) of k1"),
    "another cell in the command over S1": (
        s1_with(told=Command(3, 10, 6300, False, b"")),
        "command differs: cell is (10,6300), wanted (10,100)",
    ),
    "another NCC beside NH over S1": (s1_with(ncc=6), "NCC differs: is 6, wanted 3"),
    "another NCC over the air": (lambda: within_a_station(True, 6), "RRC command differs: NCC is 6, wanted 2"),
    "a key that nothing gives": (s1_with(nh=bytes(32)), "NH differs: is none, wanted nh(3)"),
    "a MAC of another KASME": (nas_with(kasme=KASMES[2], count=2), "it is that of k2 at COUNT 2"),
    "a Complete with another header type": (complete_with_header_2, "header type differs: is 2, wanted 4"),
    "a COUNT used twice": (nas_with(count=1), "COUNT used twice"),
    "COUNT without its overflow": (wrapped_without_overflow, "COUNT used twice"),
}


class Simulated(unittest.TestCase):
    def told(self, lines: list[Line]) -> tuple[list[str], list[str]]:
        differing = [line.frame for line in lines if line.verdict == DIFFERS and line.what != "agreement"]
        return differing, [line.frame for line in lines if line.verdict == DIFFERS and line.what == "agreement"]

    def test_what_keeps_the_standard_is_right(self) -> None:
        for name, made in SOUND.items():
            with self.subTest(name):
                world = made()
                lines = lines_of(world)
                self.assertEqual(self.told(lines), ([], world.apart), [str(line) for line in lines])
                self.assertEqual([str(line) for line in lines if line.verdict == UNKNOWN], [])

    def test_each_fault_is_one_difference(self) -> None:
        for name, (made, text) in BROKEN.items():
            with self.subTest(name):
                world = made()
                lines = lines_of(world)
                self.assertEqual(self.told(lines), (world.faults, world.apart), [str(line) for line in lines])
                self.assertEqual(len(world.faults), 1)
                self.assertIn(
                    text, next(line.text for line in lines if line.verdict == DIFFERS and line.what != "agreement")
                )

    def test_seven_steps_ahead_warns_and_eight_come_apart(self) -> None:
        self.assertEqual(lost_answers(6).apart, [])
        world = lost_answers(7)
        lines = lines_of(world)
        self.assertEqual(len(world.apart), 2)
        self.assertTrue(any("warning: the core is 8 steps" in line.text for line in lines))
        self.assertTrue(
            any("phone and enb2 come apart here: the phone takes star(star(" in line.text for line in lines),
            [str(line) for line in lines],
        )

    def test_several_phones_in_turns(self) -> None:
        for seed in range(12):
            chance, world = random.Random(seed), World()
            phones = [Phone(f"phone {place}", kasme, ksi=place % 3) for place, kasme in enumerate(KASMES)]
            for phone in phones:
                world.attach(phone, chance.choice(CELLS).eci)
            for _ in range(40):
                phone = chance.choice(phones)
                ecis = [site.eci for site in CELLS if site.station != cell_of(phone.eci).station]
                acts: list[Callable[[Phone, int], object]] = [
                    world.x2,
                    world.s1,
                    lambda one, eci: world.nas_up(one),
                    world.again,
                ]
                chance.choice(acts)(phone, chance.choice(ecis))
            lines = lines_of(world)
            self.assertEqual(
                self.told(lines), ([], []), (seed, [str(line) for line in lines if line.verdict == DIFFERS])
            )
            self.assertEqual({line.kasme for line in lines if line.kasme}, {f"k{place}" for place in range(4)})

    def test_a_phone_without_its_kasme_is_not_judged(self) -> None:
        lines = lines_of(handovers(2), [KASMES[3]])
        self.assertEqual([str(line) for line in lines if line.verdict == DIFFERS], [])
        self.assertEqual({line.verdict for line in lines if line.what in ("MAC", "KeNB", "NH")}, {UNKNOWN})

    def test_a_trace_that_begins_late_tells_nothing_wrong(self) -> None:
        whole = handovers(2)
        for begin in range(1, len(whole.messages)):
            world = World()
            world.messages = whole.messages[begin:]
            lines = lines_of(world)
            self.assertEqual([str(line) for line in lines if line.verdict == DIFFERS], [], begin)


if __name__ == "__main__":
    unittest.main()
