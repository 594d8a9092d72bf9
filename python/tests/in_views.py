"""What is told of each fault of the tests where a tap lacks some links, and the table of it that is kept:
`faults_in_views.txt`.

`python3 -m tests.in_views` writes the table again, or the rows of the faults whose names have the words behind it. What
it changes is to be looked at: no fault may be told less than before, unless a lawful history shows the same.
"""
from __future__ import annotations

import copy
import sys
from collections.abc import Callable, Iterator
from dataclasses import dataclass
from pathlib import Path

from lte_sec.captures.cells import Cells
from lte_sec.captures.decoding import Message
from lte_sec.judge.reading import check
from lte_sec.common.report import DIFFERS, UNKNOWN, Line
from lte_sec.common.terms import Derivations, Kasme

from . import (
    broken_handovers,
    broken_nas,
    sound_handovers,
    sound_modes,
    sound_phones,
    sound_worlds,
    test_faults,
    test_simulated,
    test_situations,
)
from .networks import BROKEN, SITES, SOUND, Network
from .simulated import CALLS, World
from .situations import KASMES
from .views import views

NETWORKS = (
    broken_handovers,
    broken_nas,
    sound_handovers,
    sound_modes,
    sound_phones,
)  # that are registered by their import
TABLE = Path(__file__).parent / "faults_in_views.txt"
BUDGET = 300  # derivations of a search
TOLD, ELSEWHERE, NOT_JUDGED, SILENT = "told", "told of another frame", "not judged", "silent"
VERDICTS = (TOLD, ELSEWHERE, NOT_JUDGED, SILENT)  # from the best to the worst
HEAD = """\
# What check-trace says of each fault where a tap lacks some links. In each view that is not named below it and has the frame of the fault, it is told
# at that frame. Written by `python3 -m tests.in_views [PART OF A NAME]`; the tests compare it: no fault may be told less than here.
"""

Table = dict[str, dict[str, str]]  # by fault and view, where it is not told at its frame


@dataclass(frozen=True)
class Case:
    """The messages of a network, the KASMEs that are given, and the frame of its fault."""

    name: str
    messages: list[Message]
    kasmes: list[Kasme]
    fault: str = ""

    def lines(self, messages: list[Message]) -> list[Line]:
        return check(Derivations(CALLS, self.kasmes), Cells(SITES), [copy.copy(one) for one in messages], BUDGET).lines

    def differing(self, messages: list[Message]) -> list[str]:
        return [str(line) for line in self.lines(messages) if line.verdict == DIFFERS]

    def told(self, messages: list[Message]) -> str:
        """What is told of the fault where these messages are seen."""
        lines = [line for line in self.lines(messages) if line.what != "agreement"]
        there = {line.verdict for line in lines if line.frame == self.fault}
        if DIFFERS in there:
            return TOLD
        return (
            ELSEWHERE if any(line.verdict == DIFFERS for line in lines) else NOT_JUDGED if UNKNOWN in there else SILENT
        )

    def views(self) -> Iterator[tuple[str, list[Message]]]:
        """The views that have a message, and the frame of the fault."""
        return (
            (view, seen)
            for view, seen in views(self.messages)
            if seen and (not self.fault or any(one.frame == self.fault for one in seen))
        )


def of_world(name: str, world: World, is_broken: bool) -> Case:
    return Case(
        name,
        world.messages,
        [Kasme(f"k{place}", kasme) for place, kasme in enumerate(KASMES[:4])],
        world.faults[0] if is_broken else "",
    )


def of_network(name: str, network: Network) -> Case:
    return Case(
        name,
        network.messages,
        [Kasme(one.name, one.kasme) for one in network.contexts],
        network.faults[0] if network.faults else "",
    )


WORLDS: dict[str, Callable[[], World]] = {
    **sound_worlds.SOUND,
    **{name: one.sound for name, one in test_situations.SITUATIONS.items()},
    **test_faults.SOUND,
}


def sound_cases() -> Iterator[Case]:
    """All that keeps the standard."""
    for name, made in WORLDS.items():
        world = made()
        if not world.apart:
            yield of_world(name, world, False)
    yield from (of_network(name, sound()) for name, (sound, _) in SOUND.items())


def broken_cases() -> Iterator[Case]:
    """All faults, each name once."""
    worlds = {name: made for name, (made, _) in test_simulated.BROKEN.items()}
    worlds |= {f"{name} (broken)": one.broken for name, one in test_situations.SITUATIONS.items()}
    worlds |= {name: made for name, (made, _) in test_faults.BROKEN.items()}
    yield from (of_world(name, made(), True) for name, made in worlds.items())
    yield from (of_network(f"network: {name}", made()) for name, (made, _) in BROKEN.items())


def kept() -> Table:
    """The table as it is stored."""
    found: Table = {}
    fault = ""
    for line in TABLE.read_text().splitlines():
        if line.startswith("    "):
            verdict, _, names = line.strip().partition(": ")
            found[fault] |= dict.fromkeys(names.split("; "), verdict)
        elif not line.startswith("#"):
            fault = line
            found[fault] = {}
    return found


def written(table: Table) -> str:
    lines = [HEAD.rstrip("\n")]
    for fault, by_view in table.items():
        lines.append(fault)
        for verdict in VERDICTS[1:]:
            names = [view for view, one in by_view.items() if one == verdict]
            lines += [f"    {verdict}: {'; '.join(names)}"] if names else []
    return "\n".join(lines) + "\n"


def main() -> None:
    part, before, found = " ".join(sys.argv[1:]), kept() if TABLE.exists() else {}, Table()
    for case in broken_cases():
        if part in case.name:
            found[case.name] = {view: told for view, seen in case.views() for told in [case.told(seen)] if told != TOLD}
        elif case.name in before:
            found[case.name] = before[case.name]
    TABLE.write_text(written(found))


if __name__ == "__main__":
    main()
