"""The scenarios of `gen`, as texts: a phone with traffic and handovers among four stations, by the draws of a seed
(docs/SCENARIOS.md)."""
from __future__ import annotations

import dataclasses

from ..runs.scenarios import Scenario, Step

FACTOR, SUMMAND = 6364136223846793005, 1442695040888963407  # of the generator of 64 bits
KASME = bytes(range(32)).hex()
ARRIVES: Step = {"do": "deliver", "record": -1}
BEHIND_X2 = {True: 5, False: 3}  # records that arrive behind the command, by whether the answer to the path switch does
SETUP = {
    "phone": {"caps": "a020"},
    "core": {"first_ncc": 2},
    "station": [{"id": number, "cells": [[10 + number, 100 + number]]} for number in range(4)],
}


def opening() -> list[Step]:
    """Authentication, the Security Mode of NAS, and a connection at station 0."""
    return [
        {"do": "auth", "ksi": 0, "kasme": KASME},
        {"do": "smc"},
        ARRIVES,
        ARRIVES,
        {"do": "connect", "cell": [10, 100]},
        ARRIVES,
        ARRIVES,
        ARRIVES,
    ]


def handover(way: str, source: int, target: int, before: int, behind: int) -> list[Step]:
    """A handover, with so many arrivals before its command and behind it."""
    start = {"do": way, "station": source, "cell": [10 + target, 100 + target]}
    return [start, *[ARRIVES] * before, {"do": "command", "station": source}, *[ARRIVES] * behind]


@dataclasses.dataclass
class Journey:
    """Where the draws stand, the station that serves, and whether the answer to the last change of station was left
    undelivered."""

    state: int
    serving: int = 0
    is_unanswered: bool = False

    def draw(self, below: int) -> int:
        self.state = (self.state * FACTOR + SUMMAND) % (1 << 64)
        return (self.state >> 33) % below

    def turn(self) -> list[Step]:
        """The steps of the next turn: a packet up or down, or a handover."""
        choice = self.draw(6)
        if choice < 2:
            return self.packet(choice == 0)
        if choice == 5:
            return handover("intra", self.serving, self.serving, 0, 2)
        is_answered = choice != 3 or self.is_unanswered
        source, self.serving = self.serving, (self.serving + 1 + self.draw(3)) % 4
        self.is_unanswered = not is_answered
        return (
            handover("s1", source, self.serving, 4, 3)
            if choice == 4
            else handover("x2", source, self.serving, 2, BEHIND_X2[is_answered])
        )

    def packet(self, is_up: bool) -> list[Step]:
        self.draw(2)
        sender: Step = {"from": "phone"} if is_up else {"from": "station", "station": self.serving}
        return [{"do": "user", **sender, "bearer": "drb1", "text": self.state.to_bytes(8, "big").hex()}, ARRIVES]


def generated(steps: int, seed: int) -> Scenario:
    """The first so many steps that a seed gives; the core sends NCC 2 first, as TS 33.401 7.2.8.1.1 has it, and not NCC
    1 as that of `gen` does."""
    found, journey = opening(), Journey(seed)
    while len(found) < steps:
        found += journey.turn()
    return Scenario(dict(SETUP), found[:steps])
