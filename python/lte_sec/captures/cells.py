"""Cells and stations: from a file, and from what a trace itself tells of them (X2 Setup, S1 Setup, handover
commands)."""
from __future__ import annotations

from collections.abc import Iterable, Iterator
from dataclasses import dataclass
from pathlib import Path

from ..common.inputs import of_file
from ..common.terms import TraceError

GREATEST_PCI, GREATEST_EARFCN = 503, 262143
RANGES = f"PCI is 0 to {GREATEST_PCI}, EARFCN-DL 0 to {GREATEST_EARFCN}"
WIDE, DOWN_EXTENSION, TDD_EXTENSION = 65535, 96, 94  # TS 36.423 9.3.7: id-DL-EARFCNExtension, id-eARFCNExtension

Cell = tuple[int, int]  # its PCI and EARFCN-DL, of which KeNB* is derived (TS 33.401 A.5)


@dataclass(frozen=True)
class Site:
    """A cell: its identity (28 bits), PCI, EARFCN-DL, and EARFCN-UL where it is told."""

    eci: int
    pci: int
    earfcn: int
    up: int | None = None
    station: str = ""


def is_cell(pci: int, earfcn: int) -> bool:
    """Whether a cell may have this PCI and EARFCN-DL."""
    return 0 <= pci <= GREATEST_PCI and 0 <= earfcn <= GREATEST_EARFCN


class Cells:
    """The cells that are known, and which station has which cell and address."""

    def __init__(self, sites: Iterable[Site] = ()):
        self.sites: dict[int, Site] = {}
        self.given: set[int] = set()
        self.names: dict[int, str] = {}  # by eNB identity
        self.addresses: dict[str, str] = {}
        self.changes: dict[int, list[tuple[int, Site]]] = {}  # of a cell, from places of the trace on
        self.now = 0  # the place that is read
        for site in sites:
            self.learn(site)
            self.given.add(site.eci)

    def learn(self, site: Site) -> None:
        """Takes a cell in; what a file says stays, and what a station says of its own cells rather than of a
        neighbour's."""
        if site.eci not in self.given and (site.up is not None or site.eci not in self.sites):
            self.sites[site.eci] = site
            if site.station:
                self.names.setdefault(site.eci >> 8, site.station)

    def changed(self, site: Site, place: int) -> None:
        """From this place of the trace on a cell has another PCI or EARFCN."""
        self.changes.setdefault(site.eci, []).append((place, site))

    def at(self, eci: int) -> Site | None:
        """A cell as it is at the place that is read."""
        return next(
            (site for place, site in reversed(self.changes.get(eci, [])) if place <= self.now), self.sites.get(eci)
        )

    def station(self, eci: int | None) -> str:
        """The name of the station that has a cell."""
        if eci is None:
            return ""
        site = self.sites.get(eci)
        return (
            site.station
            if site and site.station
            else self.names.get(eci >> 8) or self.names.get(eci) or f"eNB {eci >> 8:x}"
        )

    def of(self, station: str) -> list[Site]:
        return [self.at(site.eci) or site for site in self.sites.values() if self.station(site.eci) == station]

    def every(self) -> list[Site]:
        """All cells, with what they were before and after."""
        return [*self.sites.values(), *(site for changes in self.changes.values() for _, site in changes)]

    def pcis(self) -> list[int]:
        return sorted({site.pci for site in self.every()})

    def earfcns(self) -> list[int]:
        """EARFCN-DLs, and what is taken in their place: EARFCN-ULs, and of wide ones the low 16 bits and 65535."""
        down = {site.earfcn for site in self.every()}
        wide = {earfcn for earfcn in down if earfcn > WIDE}
        return sorted(
            down
            | {site.up for site in self.every() if site.up is not None and site.up <= GREATEST_EARFCN}
            | {e & WIDE for e in wide}
            | ({WIDE} if wide else set())
        )

    def pairs(self) -> set[tuple[int, int]]:
        return {(site.pci, site.earfcn) for site in self.every()}


def read_cells(file: Path) -> list[Site]:
    """The cells of a file: in each line the station, ECI in hex, PCI, EARFCN-DL and, if wanted, EARFCN-UL; `#` begins a
    remark."""
    try:
        lines = of_file(file, "the cells").decode().splitlines()
    except UnicodeDecodeError as fault:
        raise TraceError(
            f"the cells {file} cannot be read: octet {fault.object[fault.start]:02x} is not UTF-8 text"
        ) from None
    found = []
    for place, line in enumerate(lines, 1):
        words = line.partition("#")[0].split()
        if not words:
            continue
        try:
            station, eci, pci, earfcn, *more = words
            site = Site(int(eci, 16), int(pci), int(earfcn), int(more[0]) if more else None, station)
        except ValueError:
            raise TraceError(f"{file}:{place}: a cell is: station, ECI in hex, PCI, EARFCN-DL, EARFCN-UL") from None
        if not (is_cell(site.pci, site.earfcn) and site.eci < 1 << 28):
            raise TraceError(f"{file}:{place}: {RANGES}, ECI has 28 bits")
        found.append(site)
    return found


def sites_of(pairs: list[tuple[str, object]]) -> Iterator[Site]:
    """The cells that an X2AP message tells: those that a station serves, and their neighbours."""
    for name, value in pairs:
        if not (isinstance(value, list) and value and isinstance(value[0], tuple)):
            continue
        if name in ("x2ap.servedCellInfo_element", "x2ap.Neighbour_Information_item_element"):
            site = site_of(value)
            if site:
                yield site
        else:
            yield from sites_of(value)


def site_of(pairs: list[tuple[str, object]]) -> Site | None:
    found: dict[str, int] = {}

    def walk(below: list[tuple[str, object]], ie: int) -> None:
        for name, value in below:
            ie = int(str(value)) if name == "x2ap.id" else ie
            if isinstance(value, list) and value and isinstance(value[0], tuple):
                walk(value, ie)
            elif name == "x2ap.eUTRANcellIdentifier":
                found.setdefault(name, int(str(value).replace(":", ""), 16) >> 4)
            elif name == "x2ap.EARFCNExtension":
                found[f"wide {ie}"] = int(str(value))
            elif name in ("x2ap.pCI", "x2ap.dL_EARFCN", "x2ap.uL_EARFCN", "x2ap.eARFCN"):
                found.setdefault(name, int(str(value)))

    walk(pairs, -1)
    earfcn = found.get("x2ap.dL_EARFCN", found.get("x2ap.eARFCN"))
    if earfcn == WIDE:
        earfcn = found.get(f"wide {DOWN_EXTENSION}", found.get(f"wide {TDD_EXTENSION}", earfcn))
    if earfcn is None or "x2ap.pCI" not in found or "x2ap.eUTRANcellIdentifier" not in found:
        return None
    return Site(found["x2ap.eUTRANcellIdentifier"], found["x2ap.pCI"], earfcn, found.get("x2ap.uL_EARFCN"))
