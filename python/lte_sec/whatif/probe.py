"""What is tried behind each variant: to see what became of phone, stations and core.

In this order: a packet up, a packet down from each station, a NAS text up and one down; the serving station cancels an
open handover, as its timer would; a handover over X2 to another station with its path switch, or within the station
where there is no other; the phone leaves its connection, asks for service, is given a connection, and sends a packet.

Where that packet does not arrive, `lte_variants` tries an authentication and its Security Mode behind the probe, and
then the same once more. Here a run of its own has these where they do not heal, for the reason.
"""
from __future__ import annotations

from itertools import takewhile

from ..runs.courses import Course, Item, Runs, act, delivery
from ..runs.scenarios import Scenario, Step
from .variant_lists import Sending

UP, DOWN, NAS_UP, NAS_DOWN, AGAIN = (
    "7570",
    "646f776e",
    "6e6173207570",
    "6e617320646f776e",
    "616761696e",
)  # up, down, nas up, nas down, again
ANEW, KASME = b"anew".hex(), b"a KASME of the probe, 32 octets.".hex()
PROBE = "probe "
HANDOVER = (
    "begin",
    "request",
    "acknowledge",
    "command",
    "reconfiguration",
    "complete",
    "switch",
    "switched",
    "release",
)


def named(name: str) -> str:
    return PROBE + name


class ProbeItems:
    """Items of the probe, in order."""

    def __init__(self) -> None:
        self.items: list[Item] = []

    def act(self, name: str, step: Step, *deliveries: str) -> None:
        """An act, and the deliveries of what it sends, of what comes of that, and so on."""
        self.items.append(act(named(name), step))
        of = named(name)
        for each in deliveries:
            self.items.append(delivery(named(each), of))
            of = named(each)


def probe(scenario: Scenario, serving: int) -> list[Item]:
    """The items of the probe, where this station serves the phone."""
    chain, stations = ProbeItems(), scenario.stations
    chain.act("up", {"do": "user", "from": "phone", "bearer": "drb1", "text": UP}, "up arrives")
    for station in stations:
        step = {"do": "user", "from": "station", "station": station, "bearer": "drb1", "text": DOWN}
        chain.act(f"down {station}", step, f"down {station} arrives")
    chain.act("nas up", {"do": "nas", "from": "phone", "text": NAS_UP}, "nas up arrives")
    chain.act("nas down", {"do": "nas", "from": "core", "text": NAS_DOWN}, "nas down arrives")
    chain.act("cancel", {"do": "cancel", "station": serving}, "cancel arrives", "cancel goes on")
    other = next((station for station in stations if station != serving), None)
    if other is None:
        chain.act("begin", {"do": "intra", "station": serving, "cell": stations[serving]})
        chain.act("command", {"do": "command", "station": serving}, "reconfiguration", "complete")
    else:
        chain.act("begin", {"do": "x2", "station": serving, "cell": stations[other]}, "request", "acknowledge")
        chain.act(
            "command",
            {"do": "command", "station": serving},
            "reconfiguration",
            "complete",
            "switch",
            "switched",
            "release",
        )
    chain.act("idle", {"do": "idle"})
    chain.act("service", {"do": "service"}, "service arrives")
    chain.act("connect", {"do": "connect", "cell": stations[serving]}, "setup", "security", "secure")
    chain.act("again", {"do": "user", "from": "phone", "bearer": "drb1", "text": AGAIN}, "again arrives")
    return chain.items


def renewal(scenario: Scenario, serving: int) -> list[Item]:
    """The items of an authentication and of a reconnection, where this station serves the phone."""
    chain = ProbeItems()
    chain.act("authentication", {"do": "auth", "ksi": 0, "kasme": KASME})
    chain.act("security mode", {"do": "smc"}, "command arrives", "complete arrives")
    chain.act("idle anew", {"do": "idle"})
    chain.act("service anew", {"do": "service"}, "service anew arrives")
    chain.act(
        "connect anew",
        {"do": "connect", "cell": scenario.stations[serving]},
        "setup anew",
        "security anew",
        "secure anew",
    )
    chain.act("anew", {"do": "user", "from": "phone", "bearer": "drb1", "text": ANEW}, "anew arrives")
    return chain.items


def serving_of(course: Course) -> int | None:
    """The station to which the phone's packet went."""
    line = course.lines.get(named("up arrives"))
    return int(line.who[8:]) if line and line.who.startswith("station") else None


def sends_before_serving(course: Course) -> dict[str, bool]:
    """Of each item whether it sent, but those of the probe at the station that serves: at another one they may send
    otherwise."""
    return dict(takewhile(lambda sent: sent[0] != named("cancel"), course.sends().items()))


def opens(course: Course, name: str, text: str) -> bool:
    """Whether a packet of the probe is opened to this text."""
    line = course.lines.get(named(name))
    return line is not None and (line.answer, line.text) == ("done", text)


class Prober:
    """Runs items with the probe behind them."""

    def __init__(self, runs: Runs, scenario: Scenario):
        self.runs, self.scenario = runs, scenario
        self.probes = {station: probe(scenario, station) for station in scenario.stations}
        self.renewals = {station: renewal(scenario, station) for station in scenario.stations}

    def probed(
        self, items: list[Item], usual: dict[str, bool], guess: dict[str, bool], sending: Sending, otherwise: int
    ) -> tuple[Course, int]:
        """The course of the items and the probe, and the station that serves the phone, by a guess of which it is and
        of what sends; the other one where the phone's packet comes to none."""
        count = 0
        while True:
            course = self.runs.course([*items, *self.probes[sending.serving]], usual, guess, sending.sent)
            count += course.runs
            found = serving_of(course)
            found = otherwise if found is None else found
            if found == sending.serving:
                break
            sending, guess = Sending(found), sends_before_serving(course)
        course.runs = count
        return course, found

    def refusal(
        self, items: list[Item], usual: dict[str, bool], guess: dict[str, bool], sending: Sending
    ) -> str | None:
        """The first refusal of an authentication and a reconnection behind the items and the probe, or that the packet
        behind them does not arrive. None where it does."""
        behind = self.renewals[sending.serving]
        sources = {item.of for item in behind}
        course = self.runs.course(
            [*items, *self.probes[sending.serving], *behind],
            usual,
            guess | {item.name: item.name in sources for item in behind},
            sending.sent,
        )
        for item in behind:
            line = course.lines.get(item.name)
            if line is not None and line.answer != "done":
                return f"{line.who} {line.answer}"
        return None if opens(course, "anew arrives", ANEW) else "the packet behind it does not arrive"
