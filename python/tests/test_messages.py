"""The names of messages are those of the program's definitions."""
import itertools
import unittest

from lte_sec.common import tables
from lte_sec.runs.messages import NAMES, Names
from lte_sec.runs.run_report import NotedKey, StepLine

NOTE = NotedKey("00" * 32, "vertical", "1")
ACTORS = ("phone", "station 1", "core")
COMMAND, COMPLETE, REQUEST = "NAS Security Mode Command", "RRC Reconfiguration Complete", "Handover Request"


def name(who: str, cause: str, kind: str = "s1", answer: str = "done", first: str = "") -> str:
    """What a step sends, behind one that told the same key at the message `first`."""
    names, line = Names(), StepLine(who, answer, 0, kind, NOTE, None, False)
    if first:
        names.of(line, first)
    return names.of(line, cause)


def given() -> set[str]:
    """All names that a step gets, by who makes it, what made it and what its line tells."""
    causes = {cause for _, cause in NAMES} | set(NAMES.values()) | {"user", "rrc", "cancel"}
    return {name(*it) for it in itertools.product(ACTORS, causes, ("s1", "x2"), ("done", "mac_wrong"), ("", REQUEST))}


class Messages(unittest.TestCase):
    def test_names_are_those_of_the_program(self) -> None:
        self.assertEqual(given(), set(tables.MESSAGES))

    def test_a_phone_that_refuses_a_command_rejects_it(self) -> None:
        self.assertEqual(name("phone", COMMAND), "NAS Security Mode Complete")
        self.assertEqual(name("phone", COMMAND, answer="mac_wrong"), "NAS Security Mode Reject")

    def test_a_handover_is_complete_by_how_the_station_came_by_its_key(self) -> None:
        self.assertEqual(name("station 1", COMPLETE, first=REQUEST), "Handover Notify")
        self.assertEqual(name("station 1", COMPLETE), "Path Switch Request")


if __name__ == "__main__":
    unittest.main()
