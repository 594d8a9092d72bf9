"""What keeps the standard, as a tap shows it that lacks some links: nothing differs. And faults, as such taps show
them: no fault is told less than in the table that is kept.

With EVERY_PLACE=1 all views are tried, which is for whoever changes how traces are judged; else one of so many.
"""
from __future__ import annotations

import os
import unittest
from collections import Counter
from dataclasses import replace

from .in_views import ELSEWHERE, TABLE, TOLD, VERDICTS, broken_cases, kept, sound_cases

ALL = bool(os.environ.get("EVERY_PLACE"))
EVERY, EVERY_FAULT = (1, 1) if ALL else (9, 9)  # views of which one is tried


class Views(unittest.TestCase):
    def test_nothing_differs_where_links_are_not_covered(self) -> None:
        tried = place = 0
        for case in sound_cases():
            for view, messages in case.views():
                place += 1
                if place % EVERY:
                    continue
                tried += 1
                with self.subTest(case.name, view=view):
                    self.assertEqual(case.differing(messages), [])
        print(f"{tried} views", end=" ", flush=True)

    def test_nothing_differs_where_a_kasme_was_not_given(self) -> None:
        tried = place = 0
        for case in sound_cases():
            for view, messages in [("all", case.messages), *case.views()]:
                for given in ((0,), (1,), (0, 2)):
                    place += 1
                    if place % (3 * EVERY - 2):
                        continue
                    tried += 1
                    one = replace(case, kasmes=[kasme for number, kasme in enumerate(case.kasmes) if number in given])
                    with self.subTest(case.name, view=view, given=given):
                        self.assertEqual(one.differing(messages), [])
        print(f"{tried} views without a KASME", end=" ", flush=True)

    def test_each_fault_has_a_row_and_each_row_a_fault(self) -> None:
        views = {case.name: {view for view, _ in case.views()} for case in broken_cases()}
        rows = [line for line in TABLE.read_text().splitlines() if not line.startswith((" ", "#"))]
        self.assertEqual(rows, list(views), f"write {TABLE.name} again: python3 -m tests.in_views")
        for name, by_view in kept().items():
            self.assertLessEqual(set(by_view), views[name], f"{name} in {TABLE.name}")

    def test_no_fault_is_told_less_than_in_the_table(self) -> None:
        """Each fault is told with all links (`test_simulated` and others). Here each view that has its frame is
        compared with the table."""
        table, found, better, place = kept(), Counter[str](), 0, 0
        for case in broken_cases():
            for view, messages in case.views():
                place += 1
                if place % EVERY_FAULT:
                    continue
                told, before = case.told(messages), table[case.name].get(view, TOLD)
                found[told] += 1
                better += VERDICTS.index(told) < VERDICTS.index(before)
                with self.subTest(case.name, view=view):
                    self.assertLessEqual(
                        VERDICTS.index(told), VERDICTS.index(before), f"{told}, and in {TABLE.name} {before}"
                    )
        tried = sum(found.values())
        print(
            f"{tried} faults in views: {', '.join(f'{number} {how}' for how, number in sorted(found.items()))}",
            end=" ",
            flush=True,
        )
        print(f"({better} are told better than in {TABLE.name}: write it again)" if better else "", end=" ", flush=True)
        self.assertLess(found[ELSEWHERE], 0.05 * tried)


if __name__ == "__main__":
    unittest.main()
