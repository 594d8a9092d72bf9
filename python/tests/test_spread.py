"""Variants spread over processes."""
from __future__ import annotations

import signal
import subprocess
import sys
import unittest
import unittest.mock
from math import isqrt
from pathlib import Path

from lte_sec.whatif.spread import spread

SLEEPERS = """
import os
import time
from lte_sec.whatif.spread import spread

def sleeps(seconds):
    os.write(1, b"%d\\n" % seconds)  # in one piece: the processes share the pipe
    time.sleep(seconds)

list(spread(2, sleeps, [600] * 4))
"""


class Spread(unittest.TestCase):
    def test_processes_answer_in_order(self) -> None:
        self.assertEqual(list(spread(3, isqrt, range(300))), [isqrt(number) for number in range(300)])

    def test_one_process_does_all_where_others_cannot_be_begun(self) -> None:
        with unittest.mock.patch(
            "multiprocessing.synchronize.SemLock.__init__", side_effect=OSError(38, "Function not implemented")
        ):
            self.assertEqual(list(spread(3, isqrt, range(300))), [isqrt(number) for number in range(300)])

    def test_processes_end_as_soon_as_they_are_begun_whatever_this_one_does_at_a_signal(self) -> None:
        before = signal.signal(signal.SIGTERM, lambda *_: None)
        try:
            for _ in range(20):
                self.assertEqual(list(spread(7, isqrt, [4])), [2])
        finally:
            signal.signal(signal.SIGTERM, before)

    def test_no_process_is_left_where_the_one_that_began_them_is_killed(self) -> None:
        with subprocess.Popen(
            [sys.executable, "-c", SLEEPERS], cwd=Path(__file__).resolve().parents[1], stdout=subprocess.PIPE
        ) as began:
            assert began.stdout
            self.assertEqual([began.stdout.readline() for _ in range(2)], [b"600\n"] * 2)
            began.kill()
            self.assertEqual(began.communicate(timeout=60)[0], b"")  # the pipe ends with the last that has it


if __name__ == "__main__":
    unittest.main()
