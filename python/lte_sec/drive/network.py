"""A scenario over actors that are served: who is told what at each step, and where the records go (docs/FRAMES.md).

The steps are those of `run` (docs/SCENARIOS.md), and three more: `octets` over `s1` or `x2`, which nobody sent;
`repeat`, which does its steps so many `times`.
"""
from __future__ import annotations

import struct
from typing import Any, Callable, Iterator, NamedTuple

from lte_sec.drive import frames
from lte_sec.runs import scenarios

BEARERS = {name: octet for octet, name in frames.BEARERS.items()}
# Acts by what an actor is told then: phone and core, a station, and who sends something.
BARE = {
    "service": ("phone", "ServiceRequest"),
    "resend": ("phone", "ResendComplete"),
    "idle": ("phone", "GoIdle"),
    "smc": ("core", "StartSmc"),
    "release": ("core", "Release"),
}
OF_STATION = {"command": "Command", "cancel": "Cancel", "ask": "Ask"}
SENDS = {"user": "SendUser", "rrc": "SendRrc", "nas": "SendNas"}
WAYS = {"x2": 0, "s1": 1, "intra": 2}


class NoRecord(Exception):
    """A step delivers a record that nobody sent."""


class SentRecord(NamedTuple):
    """A record that was sent: its address, its octets, and the name of the input on which it was sent."""

    to: bytes
    octets: bytes
    made_by: str


class Told(NamedTuple):
    """What an actor is told: its name, as `station 0`, the frame's kind and body, and by which input its record was
    made."""

    actor: str
    body: bytes
    made_by: str = ""


def steps_of(steps: list[scenarios.Step]) -> Iterator[scenarios.Step]:
    """The steps one after the other, with those that are repeated."""
    for step in steps:
        if step["do"] == "repeat":
            for _ in range(step["times"]):
                yield from steps_of(step["step"])
        else:
            yield step


def cell_of(pair: list[int]) -> bytes:
    return frames.spelled_cell((pair[0], pair[1]))


def number(value: int) -> bytes:
    return struct.pack(">I", value)


def kind(name: str) -> bytes:
    """The first octet of what an actor is told."""
    return bytes([frames.KINDS[name]])


def named(step: scenarios.Step, field: str) -> str:
    """The actor that a field of a step names."""
    return f"station {step['station']}" if step[field] == "station" else str(step[field])


def act(step: scenarios.Step) -> Told | None:
    """Who is told what at an act of one actor; None at another step."""
    do = step["do"]
    if do in BARE:
        actor, name = BARE[do]
        return Told(actor, kind(name))
    if do in OF_STATION:
        return Told(f"station {step['station']}", kind(OF_STATION[do]))
    if do in WAYS:
        return Told(f"station {step['station']}", kind("Start") + bytes([WAYS[do]]) + cell_of(step["cell"]))
    if do in SENDS:
        bearer = b"" if do == "nas" else bytes([BEARERS[step["bearer"]]])
        return Told(named(step, "from"), kind(SENDS[do]) + bearer + bytes.fromhex(step["text"]))
    if do == "connect":
        return Told("core", kind("Connect") + cell_of(step["cell"]))
    if do == "skip":
        return Told(named(step, "who"), kind("Skip") + bytes([BEARERS[step["bearer"]]]) + number(step["n"]))
    return None


class Network:
    """The setup, and the records that were sent."""

    def __init__(self, scenario: scenarios.Scenario):
        self.setup, self.steps = scenario.setup, scenario.steps
        self.records: list[SentRecord] = []

    def setup_of(self, actor: str) -> bytes:
        """The Setup of an actor."""
        if actor == "phone":
            return b"\0" + bytes.fromhex(self.setup["phone"]["caps"])
        table = self.setup.get("core", {})
        if actor != "core":
            table = next(station for station in self.setup["station"] if actor == f"station {station['id']}")
        cells = [
            bytes([station["id"]]) + cell_of(cell) for station in self.setup["station"] for cell in station["cells"]
        ]
        algorithms = bytes(table.get("priority", [2, 0]))
        kind = 6 if actor == "core" and table.get("first_ncc") == 2 else 0
        return (
            bytes([kind, len(algorithms)])
            + algorithms
            + number(table.get("first", 1))
            + bytes([len(cells)])
            + b"".join(cells)
        )

    def told(self, step: scenarios.Step) -> list[Told]:
        """Who is told what at a step."""
        of_act = act(step)
        if of_act is not None:
            return [of_act]
        found: list[Told] = getattr(self, f"told_{step['do']}")(step)
        return found

    def told_auth(self, step: scenarios.Step) -> list[Told]:
        body = kind("Auth") + bytes([step["ksi"]]) + bytes.fromhex(step["kasme"])
        return [Told("phone", body), Told("core", body + bytes.fromhex(step.get("caps", self.setup["phone"]["caps"])))]

    def told_inject(self, step: scenarios.Step) -> list[Told]:
        octets = bytes.fromhex(step["octets"])
        if step["bearer"] == "nas":
            return [Told(step["to"], kind("Nas") + octets)]
        place = number(step["air"]) + bytes([BEARERS[step["bearer"]]])
        if step["to"] == "phone":
            return [Told("phone", kind("Air") + bytes([step["station"]]) + place + octets)]
        return [Told(f"station {step['station']}", kind("Air") + place + octets)]

    def told_octets(self, step: scenarios.Step) -> list[Told]:
        return [Told(named(step, "to"), kind(step["over"].upper()) + bytes.fromhex(step["octets"]))]

    def told_deliver(self, step: scenarios.Step) -> list[Told]:
        place = step["record"]
        if not -len(self.records) <= place < len(self.records):
            raise NoRecord(f"there is no record {place}")
        record = self.records[place]
        tag, rest = record.to[0], record.to[1:]
        role, told, field = {
            0: ("phone", "Air", rest),
            1: ("phone", "Nas", b""),
            2: ("core", "Nas", b""),
            3: ("core", "S1", b""),
            4: ("station", "Air", rest[1:]),
            5: ("station", "S1", b""),
            6: ("station", "X2", b""),
        }[tag]
        actor = f"station {rest[0]}" if role == "station" else role
        return [Told(actor, kind(told) + field + record.octets, record.made_by)]

    def run(self, tell: Callable[[int, Told, Any], Any]) -> None:
        """All steps: `tell` is given each step's number, what is told and the step, and gives the reply of the written
        machine."""
        for place, step in enumerate(steps_of(self.steps)):
            for told in self.told(step):
                reply: frames.Reply = tell(place, told, step)
                if reply.record is not None:
                    self.records.append(SentRecord(reply.to, reply.record, made_by_of(told)))


def made_by_of(told: Told) -> str:
    """The name of the input by which a record is made."""
    role = told.actor.split()[0]
    return str(frames.INPUTS[role][told.body[0]][0])
