"""The clause of each difference: every one has one, and those of the worlds with one fault are the ones that forbid
it."""
from __future__ import annotations

import copy
import json
import re
import unittest
from collections.abc import Callable

from lte_sec.captures.cells import Cells
from lte_sec.judge.reading import check
from lte_sec.common.report import DIFFERS
from lte_sec.judge.account import Account
from lte_sec.common.terms import Derivations, Kasme
from lte_sec.traces.trace_document import as_json

from . import test_faults, test_simulated
from .simulated import CALLS, CELLS, World
from .situations import KASMES
from .test_situations import SITUATIONS

CLAUSE = re.compile(r"TS (24\.301|29\.274|33\.401|36\.331) \d+(\.\d+)*(, (TS 24\.301 \d+(\.\d+)*|\d+(\.\d+)*|A\.\d))*")
WORLDS: dict[str, Callable[[], World]] = {
    **{name: made for name, (made, _) in test_simulated.BROKEN.items()},
    **{name: one.broken for name, one in SITUATIONS.items()},
    **{name: made for name, (made, _) in test_faults.BROKEN.items()},
}
WANTED = {
    "another PCI": "TS 33.401 7.2.8.4.2, A.5",
    "NH skipped": "TS 33.401 7.2.8.4.2, A.4",
    "another NCC beside NH over S1": "TS 33.401 7.2.8.4.3, A.4",
    "KeNB of another COUNT": "TS 33.401 7.2.6, A.3",
    "the old KASME at a key change": "TS 33.401 7.2.9.2, A.3",
    "another NCC in the command": "TS 36.331 5.3.5.4",
    "a COUNT used twice": "TS 24.301 4.4.3.2",
    "a Complete with another header type": "TS 24.301 5.4.3.3",
    "a MAC of another KASME": "TS 24.301 4.4.3.3",
    "resumed at another station": "TS 33.401 7.2.11, A.5",
    "plain behind security, down": "TS 24.301 4.4.4.2",
    "plain behind security, up": "TS 24.301 4.4.4.3",
    "a reserved header type": "TS 24.301 9.3.1",
    "capabilities that are replayed": "TS 24.301 5.4.3.2",
    "a cell for re-establishment: KeNB*": "TS 33.401 7.4.3, A.5",
    "a cell for re-establishment: short MAC": "TS 36.331 5.3.7.4",
    "capabilities over X2": "TS 33.401 7.2.4.2.2",
    "capabilities for a station": "TS 33.401 7.2.4.2.1, 7.2.4.4",
    "a text in clear": "TS 24.301 4.4.5",
    "EEA3 that the phone lacks": "TS 33.401 7.2.4.4",
    "EIA3 that the phone lacks": "TS 33.401 7.2.4.4",
    "EIA0 in a secured connection": "TS 33.401 5.1.4.2",
    "KSI 7": "TS 24.301 5.4.3.2",
    "COUNT down not reset": "TS 24.301 4.4.3.1",
    "a Complete under the KASME before": "TS 24.301 5.4.3.3",
    "going on behind a Reject": "TS 24.301 5.4.3.5",
    "a Service Request accepted again": "TS 33.401 7.2.6.2",
    "octets again, later": "TS 24.301 4.4.3.2",
}


def account(world: World) -> Account:
    named = [Kasme(f"k{place}", kasme) for place, kasme in enumerate(KASMES[:4])]
    return check(Derivations(CALLS, named), Cells(CELLS), copy.deepcopy(world.messages), budget=300).seen


class Clauses(unittest.TestCase):
    def test_each_difference_has_its_clause(self) -> None:
        for name, made in WORLDS.items():
            world = made()
            for one, value in account(world).values():
                with self.subTest(world=name, line=value.text):
                    if value.verdict != DIFFERS:
                        self.assertEqual(value.clause, "")
                    else:
                        self.assertRegex(value.clause, f"^{CLAUSE.pattern}$")
                    if (
                        value.verdict == DIFFERS
                        and name in WANTED
                        and one.frame == world.faults[0]
                        and value.what != "agreement"
                    ):
                        self.assertEqual(value.clause, WANTED[name])
        self.assertLessEqual(set(WANTED), set(WORLDS))

    def test_a_new_kasme_over_s1(self) -> None:
        values = [value for _, value in account(test_faults.new_kasme_over_s1()).values() if value.verdict == DIFFERS]
        self.assertEqual([value.clause for value in values if value.what == "NH"], ["TS 33.401 7.2.10"])

    def test_the_document_has_it(self) -> None:
        lines = json.loads(as_json(account(test_simulated.BROKEN["another PCI"][0]())))["lines"]
        self.assertEqual({line["clause"] for line in lines if line["verdict"] != "differs"}, {None})
        self.assertEqual(
            [line["clause"] for line in lines if line["verdict"] == "differs"],
            ["TS 33.401 7.2.8.4.2, A.5", "TS 33.401 7.2.8.4.4"],
        )


if __name__ == "__main__":
    unittest.main()
