"""Security procedures that cross: which steps begin one too early, and the items in which each waits."""
from __future__ import annotations

import unittest
from pathlib import Path

from lte_sec.runs import waiting
from lte_sec.runs.courses import act, delivery
from lte_sec.runs.run_report import StepLine
from lte_sec.runs.scenarios import read
from lte_sec.runs.waiting import Crossing, Happened

EXAMPLES = Path(__file__).resolve().parents[2] / "examples"


def happened(*causes: str) -> list[Happened]:
    """Steps by what brought them: behind / stands the answer, behind > that it sends."""
    found = []
    for number, text in enumerate(causes):
        cause, _, answer = text.partition("/")
        line = StepLine.read(f"{number} core {answer or 'done'}{' sent=1:s1' * cause.endswith('>')}")
        assert line
        found.append(Happened(str(number), cause.rstrip(">"), line))
    return found


def told(*causes: str) -> list[tuple[str, str, str, str | None]]:
    return [(it.step, it.other, it.since, it.end) for it in waiting.crossings(happened(*causes))]


class Crossings(unittest.TestCase):
    def test_what_waits_for_its_turn_crosses_nothing(self) -> None:
        self.assertEqual(
            [],
            told(
                "auth",
                "smc>",
                "NAS Security Mode Command",
                "NAS Security Mode Complete",
                "connect>",
                "Initial Context Setup Request>",
                "RRC Security Mode Command>",
                "RRC Security Mode Complete",
                "auth",
                "smc>",
                "NAS Security Mode Complete>",
                "UE Context Modification Request>",
                "RRC Reconfiguration>",
                "RRC Reconfiguration Complete",
                "smc>",
                "NAS Security Mode Reject",
                "connect>",
            ),
        )

    def test_a_connection_waits_for_a_command_and_a_command_for_both(self) -> None:
        self.assertEqual([("1", waiting.COMMAND, "0", "2")], told("smc>", "connect>", "NAS Security Mode Complete"))
        self.assertEqual([("1", waiting.COMMAND, "0", None)], told("smc>", "connect>"))
        self.assertEqual([("1", waiting.SETUP, "0", "2")], told("connect>", "smc>", "RRC Security Mode Complete"))
        self.assertEqual(
            [("2", waiting.CHANGE, "1", "3")],
            told("smc>", "NAS Security Mode Complete>", "smc>", "RRC Reconfiguration Complete"),
        )

    def test_what_is_refused_or_released_is_over(self) -> None:
        for end in ("Initial Context Setup Request/NoAlgorithm", "release>", "idle"):
            self.assertEqual([], told("connect>", end, "smc>"), end)
        self.assertEqual([], told("smc>", "auth", "connect>"))
        self.assertEqual(
            [], told("smc>", "NAS Security Mode Complete>", "UE Context Modification Request/AttemptOpen", "smc>")
        )
        self.assertEqual([], told("smc/NoContext", "connect>"))

    def test_a_complete_without_a_connection_changes_no_key(self) -> None:
        self.assertEqual([], told("smc>", "NAS Security Mode Complete", "smc>"))

    def test_a_handover_to_another_core_waits(self) -> None:
        command, required = happened("smc>", "Handover Required>")
        self.assertEqual([], waiting.crossings([command, required]))
        self.assertEqual(
            [Crossing("1", waiting.RELOCATION, waiting.COMMAND, "0")],
            waiting.crossings([command, required._replace(away=True)]),
        )

    def test_a_report_is_told_by_its_scenario(self) -> None:
        def remarks(name: str) -> list[str]:
            return waiting.remarks_of(
                read((EXAMPLES / f"{name}.toml").read_bytes()), (EXAMPLES / f"{name}.out").read_text()
            )

        self.assertEqual([], remarks("run/standard-core"))
        self.assertRegex(remarks("run/ordinary")[0], "^without first_ncc = 2 ")
        self.assertEqual(
            (
                "step 14 begins a NAS Security Mode Command; TS 33.401 7.2.10 has it wait for the end of a key "
                "change, which began at step 11"
            ),
            remarks("worked/key-change-overtaken")[-1],
        )


class Waiting(unittest.TestCase):
    """A step waits, with what it makes happen."""

    ITEMS = [
        act("0", {"do": "connect"}),
        act("1", {"do": "smc"}),
        delivery("2", "1"),
        delivery("3", "0"),
        act("4", {"do": "release"}),
    ]

    def names(self, crossing: Crossing) -> list[str] | None:
        found = waiting.waits(self.ITEMS, crossing)
        return None if found is None else [item.name for item in found]

    def test_it_stands_behind_the_end_of_what_it_crosses(self) -> None:
        self.assertEqual(["0", "3", "1", "2", "4"], self.names(Crossing("1", "", "", "0", "3")))
        self.assertEqual(["0", "3", "1", "2", "4"], self.names(Crossing("1", "", "", "0", "3+")))

    def test_it_falls_away_where_that_does_not_end(self) -> None:
        self.assertEqual(["0", "3", "4"], self.names(Crossing("1", "", "", "0")))

    def test_it_cannot_wait_for_what_it_brings(self) -> None:
        self.assertIsNone(self.names(Crossing("1", "", "", "0", "2")))
        self.assertIsNone(self.names(Crossing("9", "", "", "0", "2")))


if __name__ == "__main__":
    unittest.main()
