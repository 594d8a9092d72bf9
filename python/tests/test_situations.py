"""Situations of a trace, each once as the standard has it, where no line differs, and once broken there: one
difference, in that frame.

The names are those of the table on docs/TRACES.md.
"""
from __future__ import annotations

import copy
import unittest
from dataclasses import dataclass
from pathlib import Path

from lte_sec.captures.cells import Cells
from lte_sec.judge.reading import check
from lte_sec.common.report import DIFFERS, UNKNOWN, Line
from lte_sec.common.terms import Derivations, Kasme

from .message_situations import (
    able,
    begun,
    command_without_ncc,
    null_integrity,
    prepared,
    replays,
    secondary_keys,
    sound,
    turned,
    with_message,
)
from .simulated import CALLS, CELLS, World
from .situations import (
    KASMES,
    Made,
    again,
    alike,
    attach_without_commands,
    first_nh,
    foreign,
    gap,
    high,
    other_cell,
    other_cell_over_s1,
    pool,
    refreshed,
    resumed_with_another_key,
    suspended,
    through_cells,
    unknown_kasme,
    without_commands,
)

PAGE = Path(__file__).resolve().parents[2] / "docs" / "TRACES.md"


@dataclass
class Situation:
    """What keeps the standard, and how many lines of it are not judged; what breaks it, and what the line then says."""

    sound: Made
    unknown: int
    broken: Made
    text: str
    kasmes: tuple[int, ...] = (0, 1, 2, 3)  # those that are given
    seen: str = ""  # what a line of the sound world says


def lines_of(world: World, kasmes: tuple[int, ...] = (0, 1, 2, 3)) -> list[Line]:
    named = [Kasme(f"k{place}", KASMES[place]) for place in kasmes]
    return check(Derivations(CALLS, named), Cells(CELLS), copy.deepcopy(world.messages), budget=4_000).lines


SITUATIONS: dict[str, Situation] = {
    "refreshed once, from the key in use": Situation(
        refreshed(1, False),
        2,
        refreshed(1, False, True),
        "KeNB* differs",
        seen="right if the phone was refreshed in its cell before",
    ),
    "refreshed once, from the stored NH": Situation(
        refreshed(1, True),
        2,
        refreshed(1, True, True),
        "KeNB* differs",
        seen="right if the phone was refreshed in its cell before",
    ),
    "refreshed twice": Situation(
        refreshed(2, True),
        2,
        refreshed(2, True, True),
        "KeNB* differs",
        seen="right if the phone was refreshed in its cell before (2 times)",
    ),
    "refreshed nine times": Situation(
        refreshed(9, False), 2, refreshed(9, False, True), "KeNB* differs", seen="(9 times)"
    ),
    "through the cells of a station": Situation(
        through_cells, 2, refreshed(1, True, True), "KeNB* differs", seen="right if the phone was in the cells"
    ),
    "another cell of the target, over X2": Situation(
        other_cell(False),
        0,
        other_cell(True),
        "is star(star(kenb(0),301,6300),77,66436), wanted star(star(kenb(0),302,1575),77,66436)",
    ),
    "another cell of the target, over S1": Situation(
        other_cell_over_s1(False),
        0,
        other_cell_over_s1(True),
        "is star(star(nh(2),301,6300),77,66436), wanted star(star(nh(2),302,1575),77,66436)",
    ),
    "suspended and resumed": Situation(suspended(), 0, suspended(steps=3), "NH differs: is nh(3), wanted nh(2)"),
    "suspended and resumed without NH": Situation(suspended(with_nh=False), 0, suspended(steps=3), "NH differs"),
    "resumed in another cell of the station": Situation(
        suspended(other=True), 0, suspended(steps=3, other=True), "NH differs"
    ),
    "resumed at another station": Situation(
        suspended(),
        0,
        resumed_with_another_key,
        "X2 RetrieveUEContextResponse KeNB* differs: is star(kenb(0),77,66436), wanted star(nh(2),77,66436)",
    ),
    "the first NH behind its NCC": Situation(
        first_nh(2, 2, 2), 0, first_nh(1, 2, 2), "NH differs: is nh(1), wanted nh(2)"
    ),
    "the first NCC ahead of its NH": Situation(
        first_nh(1, 1, 1), 0, first_nh(1, 2, 1), "NCC differs: is 2, wanted 1; NH is nh(1)"
    ),
    "the first NCC behind its NH": Situation(
        first_nh(2, 2, 2), 0, first_nh(2, 1, 2), "NCC differs: is 1, wanted 2; NH is nh(2)"
    ),
    "a KASME that is not given": Situation(
        unknown_kasme(False, False), 11, unknown_kasme(True, False), "MAC wrong", seen="no KASME that was given fits"
    ),
    "a key change to a KASME that is not given": Situation(
        unknown_kasme(False, True), 15, unknown_kasme(True, True), "MAC wrong", seen="no KASME that was given fits"
    ),
    "both Security Mode messages lost": Situation(
        without_commands(1),
        0,
        without_commands(1, True),
        "MAC wrong",
        seen="after a Security Mode exchange that the trace lacks",
    ),
    "both lost, of a KASME that is not given": Situation(
        without_commands(4), 9, without_commands(1, True), "MAC wrong"
    ),
    "both lost at the attach": Situation(attach_without_commands, 0, without_commands(1, True), "MAC wrong"),
    "a Service Request at 5,000": Situation(
        high(5_000, 2_500, "service"), 0, high(5_000, 2_500, "service", True), "MAC wrong"
    ),
    "an uplink COUNT of 70,000": Situation(
        high(70_000, 70_500, "middle"), 0, high(70_000, 70_500, "middle", True), "MAC wrong"
    ),
    "thousands of messages lost": Situation(
        gap, 0, high(5_000, 2_500, "middle", True), "MAC wrong", seen="after messages that the trace lacks"
    ),
    "a short MAC that fits by chance": Situation(foreign(False), 12, foreign(True), "MAC wrong: is 0000"),
    "one identity at two cores": Situation(
        pool(False),
        0,
        pool(True),
        "KeNB* differs: is star(star(kenb(0),301,6300),301,6300) of k0, wanted star(kenb(0),301,6300) of k1",
    ),
    "one identity at two cores, without GUMMEI": Situation(pool(False, False), 0, pool(True), "KeNB* differs"),
    "containers of the same octets": Situation(
        alike(False), 0, alike(True), "HandoverRequest NH differs: is none, wanted nh(2)"
    ),
    "a Service Request after a reroute": Situation(
        again(False, True), 0, again(True, True), "MAC wrong", seen="sent again"
    ),
    "a Service Request sent again": Situation(
        again(False, False), 0, again(True, False), "MAC wrong", seen="sent again"
    ),
    "plain behind security, down": Situation(
        sound,
        0,
        with_message(begun("075501")),
        "differs; plain behind security, which TS 24.301 4.4.4.2 does not allow Identity request",
    ),
    "plain behind security, up": Situation(
        sound,
        0,
        with_message(lambda world, phone: world.plain_up(phone, "0753080102030405060708")),
        "plain behind security, which TS 24.301 4.4.4.3 does not allow",
    ),
    "a plain message of ESM behind security": Situation(
        sound, 0, with_message(begun("0201d9")), "plain behind security"
    ),
    "plain where it may be": Situation(
        with_message(begun("075501"), False, True),
        0,
        with_message(begun("0742014900500bf600f110800101c0000001"), True, True),
        "plain, which TS 24.301 4.4.4.2 does not allow this message Attach accept",
    ),
    "a reserved header type": Situation(
        sound,
        0,
        with_message(lambda world, phone: turned(world.nas_down(phone), 9)),
        "MAC right; header type differs: is 9, which TS 24.301 9.3.1 reserves",
    ),
    "a header type of another message": Situation(
        sound,
        0,
        with_message(lambda world, phone: turned(world.nas_up(phone), 4)),
        "header type differs: is 4, wanted 2",
    ),
    "capabilities that are replayed": Situation(
        replays("f070", False), 0, replays("f030", True), "replayed capabilities differ: are f030, wanted f070"
    ),
    "EIA0": Situation(
        null_integrity(True, False), 0, null_integrity(True, True), "MAC wrong: is 00000001, wanted 00000000"
    ),
    "capabilities for a station": Situation(
        able(), 0, able("S1 InitialContextSetupRequest"), "capabilities differ: are integrity 011, wanted 111"
    ),
    "capabilities over X2": Situation(able(), 0, able("X2 HandoverRequest"), "X2 HandoverRequest capabilities differ"),
    "capabilities at a path switch": Situation(
        able(), 0, able("S1 PathSwitchRequest"), "PathSwitchRequest capabilities differ"
    ),
    "capabilities over S1": Situation(able(), 0, able("S1 HandoverRequest"), "HandoverRequest capabilities differ"),
    "a cell for re-establishment: KeNB*": Situation(
        prepared(), 0, prepared(key=bytes(32)), "KeNB* for (78,100) differs: is none, wanted star(nh(2),78,100)"
    ),
    "a cell for re-establishment: short MAC": Situation(
        prepared(), 0, prepared(mac=b"\0\0"), "short MAC for (78,100) differs: is 0000"
    ),
    "a command whose NCC does not decode": Situation(
        command_without_ncc(False),
        1,
        command_without_ncc(True),
        "command differs: NCC is 5, wanted 0",
        seen="command not judged: its NCC does not decode",
    ),
    "keys of secondary stations": Situation(
        secondary_keys(False), 2, secondary_keys(True), "KeNB* differs: is none", seen="S-KgNB not judged"
    ),
}


class Situations(unittest.TestCase):
    def told(self, lines: list[Line], agreement: bool) -> list[str]:
        return [line.frame for line in lines if line.verdict == DIFFERS and (line.what == "agreement") == agreement]

    def test_what_keeps_the_standard_is_never_blamed(self) -> None:
        for name, one in SITUATIONS.items():
            with self.subTest(name):
                world = one.sound()
                lines = lines_of(world, one.kasmes)
                shown = "\n".join(map(str, lines))
                self.assertEqual((self.told(lines, False), self.told(lines, True)), ([], []), shown)
                self.assertEqual(sum(line.verdict == UNKNOWN for line in lines), one.unknown, shown)
                self.assertIn(one.seen, shown)

    def test_what_breaks_it_is_one_difference(self) -> None:
        for name, one in SITUATIONS.items():
            with self.subTest(name):
                world = one.broken()
                lines = lines_of(world, one.kasmes)
                shown = "\n".join(map(str, lines))
                self.assertEqual(self.told(lines, False), world.faults, shown)
                self.assertEqual(len(world.faults), 1)
                self.assertIn(
                    one.text,
                    next(
                        line.text
                        for line in lines
                        if line.frame == world.faults[0] and line.verdict == DIFFERS and line.what != "agreement"
                    ),
                    shown,
                )

    def test_eia0_outside_an_emergency_call_is_a_warning(self) -> None:
        lines = lines_of(null_integrity(False, False)())
        self.assertEqual(
            [line.text for line in lines if "warning" in line.text],
            ["frame 2 warning: EIA0 outside an emergency call, which TS 33.401 5.1.4.2 does not allow"],
        )
        self.assertNotIn("warning", "\n".join(map(str, lines_of(null_integrity(True, False)()))))

    def test_the_page_names_each_situation(self) -> None:
        rows = [
            line.split("|")
            for line in PAGE.read_text(encoding="utf-8")
            .partition("## Situations")[2]
            .partition("## The search")[0]
            .splitlines()
            if line.startswith("|")
        ]
        named = [name.strip().replace("\\*", "*") for row in rows[2:] for name in row[4].split(";") if name.strip()]
        self.assertEqual(sorted(name for name in named if not name.startswith("`")), sorted(SITUATIONS))


if __name__ == "__main__":
    unittest.main()
