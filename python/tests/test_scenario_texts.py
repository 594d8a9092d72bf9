"""Scenarios: written as they were read, over several lines, and run as they stand."""
from __future__ import annotations

import subprocess
import unittest

from lte_sec.runs import scenarios

from .studied import EXAMPLES, launched, program, programs, study


def setUpModule() -> None:
    programs()


class Scenarios(unittest.TestCase):
    def test_a_setup_is_written_as_it_was_read(self) -> None:
        setup = scenarios.table_of(
            b'phone = { caps = "a020" }\nnew = { deep = [{ "a b" = "c\\"d" }] }\n[core]\nfirst_ncc = 2\n[[station]]\nid = 0\ncells = [[1, 2]]\nheard = true\n'
        )
        self.assertEqual(scenarios.table_of(scenarios.setup_text(setup).encode()), setup)

    def test_a_table_may_go_over_lines(self) -> None:
        octets = (EXAMPLES / "run/wrong-ksi.toml").read_bytes()
        over = octets.replace(b'{ do = "smc" }', b'{\n do = "smc",\n }')
        self.assertNotEqual(over, octets)
        self.assertEqual(scenarios.read(over), scenarios.read(octets))
        self.assertEqual(launched(given=over).stdout, launched(given=octets).stdout)
        with self.assertRaises(scenarios.NoScenario):
            scenarios.read(b"a = [")

    def test_a_scenario_is_run_as_it_stands(self) -> None:
        for name in ("run/ordinary", "run/key-change", "worked/no-record", "what-if/ten-handovers"):
            whole = study(name)
            given = subprocess.run(
                [program("lte_sec_app"), "run"], input=(EXAMPLES / f"{name}.toml").read_bytes(), capture_output=True
            ).stdout.decode()
            steps = given.splitlines()[: len(whole.original.items)]
            self.assertEqual(whole.course.report.splitlines()[: len(steps)], steps)


if __name__ == "__main__":
    unittest.main()
