"""Networks that are written out message by message: nothing of a conformant one differs, and each fault is one
difference at its frame."""
from __future__ import annotations

import re
import unittest

from lte_sec.common.report import DIFFERS, UNKNOWN

from .in_views import of_network
from .networks import BROKEN, SOUND


class Networks(unittest.TestCase):
    def test_nothing_of_a_conformant_network_differs(self) -> None:
        for name, (made, all_judged) in SOUND.items():
            case = of_network(name, made())
            with self.subTest(name):
                lines = case.lines(case.messages)
                self.assertEqual(
                    [str(line) for line in lines if line.verdict == DIFFERS or all_judged and line.verdict == UNKNOWN],
                    [],
                )

    def test_each_fault_is_one_difference_at_its_frame(self) -> None:
        for name, (made, text) in BROKEN.items():
            case = of_network(name, made())
            with self.subTest(name):
                told = [
                    line for line in case.lines(case.messages) if line.verdict == DIFFERS and line.what != "agreement"
                ]
                shown = "\n".join(map(str, told))
                self.assertEqual([line.frame for line in told], [case.fault], shown)
                self.assertTrue(re.search(text, shown), shown)


if __name__ == "__main__":
    unittest.main()
