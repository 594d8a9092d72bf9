"""Situations of keys, KASMEs, COUNTs and cores, for `test_situations`: worlds as the standard has them, and broken at
one place."""
from __future__ import annotations

import copy
from collections.abc import Callable

from lte_sec.captures.decoding import Message

from .rarer import RarerWorld
from .simulated import CALLS, CELLS, ENDS, Phone, World, cell_of

ENB1, ENB2, ENB2_SECOND, ENB3, ENB3_SECOND = (site.eci for site in CELLS)
KASMES = [bytes([number]) * 32 for number in range(1, 6)]
Made = Callable[[], World]


def star(key: bytes, eci: int) -> bytes:
    return CALLS.kenb_star(key, cell_of(eci).pci, cell_of(eci).earfcn)


def attached(first: int = 2, eci: int = ENB1, eea: int = 2) -> tuple[RarerWorld, Phone]:
    world, phone = RarerWorld(first), Phone("phone", KASMES[0], eea=eea)
    world.attach(phone, eci)
    return world, phone


# -- no false alarm: keys


def refreshed(times: int, vertical: bool, broken: bool = False) -> Made:
    def made() -> World:
        world, phone = attached()
        world.x2(phone, ENB2)
        if not vertical:
            phone.stations["enb2"].pair = None
            world.messages = [one for one in world.messages if one.name != "PathSwitchRequestAcknowledge"]
            phone.core_sync, phone.core_number = phone.own.sync, 0
        for _ in range(times):
            world.refresh(phone)
        wrong = star(star(phone.stations["enb2"].key, ENB3), ENB1) if broken else None
        world.x2(phone, ENB1, key=wrong)
        world.x2(phone, ENB3)
        return world

    return made


def through_cells() -> World:
    world, phone = attached(eci=ENB2)
    for eci in (ENB2_SECOND, ENB2, ENB2_SECOND):
        world.refresh(phone, eci)
    world.x2(phone, ENB1)
    world.x2(phone, ENB3)
    return world


def other_cell(keeps: bool) -> Made:
    def made() -> World:
        world, phone = attached()
        world.elsewhere(phone, ENB2, ENB2_SECOND, ENB3, keeps)
        world.x2(phone, ENB1)
        return world

    return made


def other_cell_over_s1(broken: bool) -> Made:
    def made() -> World:
        world, phone = attached()
        before = copy.deepcopy(phone.own)
        world.s1(phone, ENB2)
        notify = next(one for one in reversed(world.messages) if one.name == "HandoverNotify")
        notify.eci = phone.eci = ENB2_SECOND
        phone.own, now = before, phone.own
        site = cell_of(ENB2_SECOND)
        phone.own = world.command(phone, now.ncc, site.pci, site.earfcn)
        phone.stations["enb2"].key = star(phone.core_sync, ENB2 if broken else ENB2_SECOND)
        asked = world.x2(phone, ENB3)
        if broken:
            world.fault(asked)
        world.x2(phone, ENB1)
        return world

    return made


def suspended(steps: int = 0, with_nh: bool = True, other: bool = False) -> Made:
    def made() -> World:
        world, phone = attached(eci=ENB2)
        world.suspend(phone, with_nh, steps)
        world.resume(phone, with_nh, ENB2_SECOND if other else None)
        world.x2(phone, ENB1)
        world.suspend(phone)
        world.resume_at(phone, ENB3)
        world.x2(phone, ENB1)
        return world

    return made


def resumed_with_another_key() -> World:
    world, phone = attached()
    world.suspend(phone)
    world.resume_at(phone, ENB3, key=star(phone.own.key, ENB3))
    world.x2(phone, ENB1)
    return world


def first_nh(key: int, ncc: int, then: int) -> Made:
    """The first answer to a path switch has NH of one number and NCC of another; the next goes on from `then`."""

    def made() -> World:
        world, phone = attached()
        chain = [phone.own.sync]
        for _ in range(5):
            chain.append(CALLS.nh(KASMES[0], chain[-1]))
        world.x2(phone, ENB2, answered=False)
        answer = world.down(phone, "PathSwitchRequestAcknowledge", nh=chain[key], ncc=ncc)
        if key != ncc:
            world.fault(answer)
        phone.stations["enb2"].pair = (chain[key], ncc)
        phone.core_sync, phone.core_number = chain[then], then
        world.x2(phone, ENB1)
        world.x2(phone, ENB3)
        return world

    return made


# -- no false alarm: KASMEs and COUNTs


def unknown_kasme(broken: bool, change: bool) -> Made:
    """An authentication brings a KASME that is not given; later one that is given comes."""

    def made() -> World:
        world, phone = attached()
        world.x2(phone, ENB2)
        world.reauthenticate(phone, KASMES[4])
        world.nas_up(phone)
        world.nas_down(phone)
        if change:
            world.change_key(phone)
            world.x2(phone, ENB1)
        world.release(phone)
        world.service(phone, ENB2)
        world.nas_up(phone)
        world.tracking(phone, ENB2)
        world.service(phone, ENB2)
        world.reauthenticate(phone, KASMES[1])
        world.change_key(phone)
        bad = world.nas_up(phone, kasme=KASMES[3]) if broken else world.nas_up(phone)
        if broken:
            world.fault(bad)
        world.nas_up(phone)
        return world

    return made


def numbered(messages: list[Message], first: int = 1) -> None:
    """Gives the messages of S1 the numbers that SCTP gives them, so that those which are lost later show."""
    following: dict[tuple[str, str], int] = {}
    for one in messages:
        if one.link == "S1":
            number = following.get((one.source, one.target), first)
            one.tsns, following[one.source, one.target] = (number % (1 << 32),), number + 1


def without_commands(kasme: int, broken: bool = False) -> Made:
    """The capture lost both Security Mode messages of an authentication."""

    def made() -> World:
        world, phone = attached()
        world.x2(phone, ENB2)
        world.reauthenticate(phone, KASMES[kasme])
        lost = len(world.messages) - 2
        world.nas_down(phone)
        world.nas_up(phone)
        world.change_key(phone)
        world.x2(phone, ENB1)
        if broken:
            world.fault(world.nas_up(phone, kasme=KASMES[2]))
        world.nas_up(phone)
        world.release(phone)
        world.service(phone, ENB2)
        numbered(world.messages)
        del world.messages[lost : lost + 2]
        return world

    return made


def attach_without_commands() -> World:
    world, phone = attached()
    world.release(phone)
    world.service(phone, ENB2)
    world.x2(phone, ENB1)
    numbered(world.messages)
    del world.messages[1:3]
    return world


def high(up: int, down: int, begin: str, broken: bool = False) -> Made:
    """A trace that begins when COUNTs are high, with a Service Request or in the middle of a connection."""

    def made() -> World:
        world, phone = attached()
        world.release(phone)
        phone.up, phone.down = up, down
        if begin == "service":
            world.messages.clear()
            world.service(phone, ENB2)
        else:
            world.service(phone, ENB2)
            world.messages.clear()
        world.nas_down(phone)
        world.nas_up(phone)
        if broken:
            world.fault(world.nas_up(phone, kasme=KASMES[1]))
        world.nas_up(phone)
        world.release(phone)
        world.service(phone, ENB1)
        world.x2(phone, ENB2)
        return world

    return made


def gap() -> World:
    """The trace lacks some thousands of messages of a phone."""
    world, phone = attached()
    phone.up, phone.down = 5_003, 9_002
    world.nas_up(phone)
    world.nas_down(phone)
    return world


def foreign(broken: bool) -> Made:
    """Service Requests of phones whose KASMEs are not given, with short MACs that fit the phone that is known."""

    def made() -> World:
        world, phone = attached()
        world.release(phone)
        for place in range(6):
            other = Phone("other", KASMES[4], ksi=0, tmsi=0xD0000000 + place)
            other.up = phone.up
            world.service(other, ENB1)
            asked = next(one for one in reversed(world.messages) if one.name == "InitialUEMessage")
            head = asked.nas[0][:2]
            asked.nas = [head + CALLS.eia2(CALLS.algorithm_key(KASMES[0], 2, 2)[16:], phone.up, 0, 0, head)[2:4]]
            asked.tmsi = None if place == 5 else asked.tmsi
            world.release(other)
        world.service(phone, ENB2)
        if broken:
            asked = next(one for one in reversed(world.messages) if one.name == "InitialUEMessage")
            asked.nas = [asked.nas[0][:2] + b"\0\0"]
            world.fault(asked)
        world.x2(phone, ENB1)
        return world

    return made


# -- no false alarm: several cores


def pool(broken: bool, named: bool = True) -> Made:
    """Two phones at one station have the same MME-UE-S1AP-ID at two cores."""

    def made() -> World:
        world, phones = RarerWorld(), [Phone("one", KASMES[0]), Phone("two", KASMES[1])]
        ids = 0
        for place, phone in enumerate(phones):
            world.core = f"10.0.0.{place + 1}:36412"
            if named:
                world.add("S1", "S1SetupResponse", world.core, ENDS["enb1"], gummeis=[(32769, place + 1)])
            world.attach(phone, ENB1)
            ids = ids or phone.mme_id
            for message in world.messages:
                message.mme_id = ids if message.mme_id == phone.mme_id else message.mme_id
            phone.mme_id = ids
        for place in (0, 1, 0):
            phone, world.core = phones[place], f"10.0.0.{place + 1}:36412"
            wrong = star(phones[1 - place].own.key, ENB2) if broken and place == 1 else None
            asked = world.x2(phone, ENB2 if phone.eci == ENB1 else ENB1, key=wrong)
            asked.gummeis = [(32769, place + 1)] if named else []
        return world

    return made


def alike(broken: bool) -> Made:
    """Two phones are handed over S1 at one time, in containers of the same octets."""

    def made() -> World:
        world, phones = RarerWorld(), [Phone("one", KASMES[0]), Phone("two", KASMES[1])]
        for phone in phones:
            world.attach(phone, ENB1)
        begin, turns = len(world.messages), []
        for phone in phones:
            world.s1(phone, ENB2, nh=bytes(32) if broken and phone is phones[1] else None)
            turns.append(world.messages[begin:])
            del world.messages[begin:]
        one, two = turns
        for message in one + two:
            message.container = message.container and message.container.split()[0]
        world.messages += [one[0], two[0], two[1], one[1], two[2], one[2], one[3], two[3], *one[4:], *two[4:]]
        if broken:
            world.faults = world.apart = [str(world.messages.index(two[1]) + 1)]
        for place, message in enumerate(world.messages):
            message.frame, message.time = str(place + 1), float(place + 1)
        world.x2(phones[0], ENB3)
        return world

    return made


def again(broken: bool, other_core: bool) -> Made:
    """A Service Request that comes again: at another core after Reroute NAS Request, or in a new connection."""

    def made() -> World:
        world, phone = attached()
        world.release(phone)
        world.service(phone, ENB2)
        if other_core:
            world.rerouted(phone, "10.0.0.2:36412")
        else:
            asked = world.messages[-3]
            world.messages.insert(
                -2,
                Message(
                    "",
                    0.0,
                    "S1",
                    "InitialUEMessage",
                    asked.source,
                    asked.target,
                    enb_id=asked.enb_id,
                    eci=asked.eci,
                    nas=list(asked.nas),
                    tmsi=asked.tmsi,
                ),
            )
            for place, one in enumerate(world.messages):
                one.frame = str(place + 1)
        if broken:
            late = world.messages[-3]
            late.nas = [late.nas[0][:2] + b"\0\0"]
            world.fault(late)
        world.x2(phone, ENB1)
        return world

    return made
