"""Views of a trace: the messages that are left where a tap lacks some links."""
from __future__ import annotations

from collections.abc import Iterator

from lte_sec.captures.decoding import Message
from lte_sec.captures.stations import FROM_STATION, station_end

from .simulated import ENDS

STATIONS = {end: name for name, end in ENDS.items()}


def link(message: Message) -> tuple[str, ...]:
    """The link of a message with its direction."""
    if message.link == "S1":
        return (
            "S1",
            STATIONS.get(station_end(message), station_end(message)),
            "up" if message.name in FROM_STATION else "down",
        )
    return message.link, STATIONS.get(message.source, ""), STATIONS.get(message.target, "")


def views(messages: list[Message]) -> Iterator[tuple[str, list[Message]]]:
    """Each view, with a name: S1 of a station lacks, in both directions or in one; X2 of a pair; all but the S1 of one
    station and its X2."""
    links = {id(one): link(one) for one in messages}
    stations = sorted({way[1] for way in links.values() if way[0] == "S1"})
    pairs = sorted({way[1:] for way in links.values() if way[0] == "X2"})
    lacking: list[tuple[str, set[tuple[str, ...]]]] = []
    for station in stations:
        up, down = ("S1", station, "up"), ("S1", station, "down")
        lacking += [
            (f"without S1 of {station}", {up, down}),
            (f"without S1 of {station}, up", {up}),
            (f"without S1 of {station}, down", {down}),
        ]
        others = {way for way in links.values() if way[0] == "S1" and way[1] != station}
        far = {way for way in links.values() if way[0] == "X2" and station not in way}
        lacking += [
            (f"only at {station}", others | far),
            (f"only S1 of {station}", others | {way for way in links.values() if way[0] == "X2"}),
        ]
        lacking.append((f"only S1 of {station}, and all of X2", others))
    for pair in pairs:
        lacking += [
            (f"without X2 from {pair[0]} to {pair[1]}", {("X2", *pair)}),
            (f"without X2 of {pair[0]} and {pair[1]}", {("X2", *pair), ("X2", *pair[::-1])}),
        ]
    lacking.append(("without S1 up", {way for way in links.values() if way[0] == "S1" and way[2] == "up"}))
    lacking.append(("without S1 down", {way for way in links.values() if way[0] == "S1" and way[2] == "down"}))
    for name, lacks in lacking:
        yield name, [one for one in messages if links[id(one)] not in lacks]
