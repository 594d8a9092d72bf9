"""Worlds of phones, stations and a core that keep TS 33.401: handovers, changes of KASME, COUNTs that wrap."""
from __future__ import annotations

import copy
from collections.abc import Callable

from lte_sec.captures.cells import Cells
from lte_sec.common.report import Line
from lte_sec.common.terms import Derivations, Kasme
from lte_sec.judge.reading import check

from .simulated import CALLS, CELLS, Phone, World, cell_of

ENB1, ENB2, ENB2_SECOND, ENB3, ENB3_SECOND = (site.eci for site in CELLS)
KASMES = [bytes([number]) * 32 for number in range(1, 5)]


def star(key: bytes, eci: int, pci: int | None = None, earfcn: int | None = None) -> bytes:
    site = cell_of(eci)
    return CALLS.kenb_star(key, site.pci if pci is None else pci, site.earfcn if earfcn is None else earfcn)


def attached(first: int = 2, eea: int = 2) -> tuple[World, Phone]:
    world, phone = World(first), Phone("phone", KASMES[0], eea=eea)
    world.attach(phone, ENB1)
    return world, phone


def lines_of(world: World, kasmes: list[bytes] | None = None) -> list[Line]:
    named = [Kasme(f"k{place}", kasme) for place, kasme in enumerate(kasmes or KASMES)]
    return check(Derivations(CALLS, named), Cells(CELLS), copy.deepcopy(world.messages), budget=20_000).lines


# -- what keeps the standard


def handovers(first: int) -> World:
    world, phone = attached(first)
    for eci in (ENB2, ENB1):
        world.x2(phone, eci)
    world.s1(phone, ENB2_SECOND)
    world.x2(phone, ENB3)
    world.s1(phone, ENB1)
    world.release(phone)
    world.service(phone, ENB3_SECOND)
    world.x2(phone, ENB2)
    return world


def cancelled() -> World:
    world, phone = attached()
    world.s1(phone, ENB2_SECOND, cancel="late")
    world.x2(phone, ENB2)
    world.x2(phone, ENB3, switch=False)
    world.x2(phone, ENB1, ack=False)
    world.s1(phone, ENB1, cancel="early")
    world.x2(phone, ENB1)
    world.s1(phone, ENB3)
    return world


def lost_answers(lost: int) -> World:
    world, phone = attached(first=1)
    for place in range(lost):
        world.x2(phone, (ENB2, ENB1)[place % 2], answered=False)
    world.x2(phone, ENB3)
    world.x2(phone, ENB2)
    world.x2(phone, ENB1)
    return world


def late_answer() -> World:
    """The answer to the first path switch comes after the answer to the second."""
    world, phone = attached()
    world.x2(phone, ENB2)
    world.x2(phone, ENB1)
    at = next(place for place, message in enumerate(world.messages) if message.name == "PathSwitchRequestAcknowledge")
    late = world.messages[at]
    again = World()
    phone = Phone("phone", KASMES[0])
    again.attach(phone, ENB1)
    again.x2(phone, ENB2, answered=False)
    again.x2(phone, ENB1)
    again.messages.insert(-1, late)
    for place, message in enumerate(again.messages):
        message.frame = str(place + 1)
    return again


def new_kasme() -> World:
    world, phone = attached()
    world.x2(phone, ENB2)
    world.reauthenticate(phone, KASMES[1])
    world.x2(phone, ENB3)
    world.change_key(phone)
    world.x2(phone, ENB1)
    world.nas_up(phone)
    world.release(phone)
    world.service(phone, ENB2)
    world.reauthenticate(phone, KASMES[2])
    world.release(phone)
    world.service(phone, ENB2)
    return world


def counts_that_wrap(eea: int) -> World:
    world, phone = attached(eea=eea)
    for _ in range(270):
        world.nas_up(phone)
        world.nas_down(phone)
    world.release(phone)
    world.service(phone, ENB2)
    world.x2(phone, ENB1)
    return world


def without_the_complete() -> World:
    """The trace lacks a Security Mode Complete, and another time the Command."""
    world, phone = attached()
    world.reauthenticate(phone, KASMES[1])
    del world.messages[-1]
    world.change_key(phone)
    world.reauthenticate(phone, KASMES[2])
    del world.messages[-2]
    world.change_key(phone)
    world.x2(phone, ENB2)
    return world


def within_a_station(shown: bool, ncc: int | None = None) -> World:
    """A handover to another cell of the station; the trace shows its command, or the next handover names the cell."""
    world, phone = attached()
    world.x2(phone, ENB2)
    message = world.within(phone, ENB2_SECOND, ncc)
    if not shown:
        world.messages.remove(message)
    world.x2(phone, ENB1)
    world.x2(phone, ENB3)
    return world


SOUND: dict[str, Callable[[], World]] = {
    "handovers, a core that begins with 2": lambda: handovers(2),
    "handovers, a core that begins with 1": lambda: handovers(1),
    "handovers that are cancelled or refused": cancelled,
    "six lost answers": lambda: lost_answers(6),
    "seven lost answers": lambda: lost_answers(7),
    "a late answer": late_answer,
    "a handover within a station": lambda: within_a_station(True),
    "the same without RRC": lambda: within_a_station(False),
    "new KASMEs": new_kasme,
    "COUNTs that wrap, EEA2": lambda: counts_that_wrap(2),
    "COUNTs that wrap, EEA0": lambda: counts_that_wrap(0),
    "a trace without Security Mode messages": without_the_complete,
}
