"""The seam to the proved calls: what `calc` is told, and that the stand-in gives the same."""
from __future__ import annotations

import os
import sys
import tempfile
import textwrap
import unittest
from pathlib import Path

from lte_sec.common import derive
from lte_sec.common.terms import TraceError

from .standin import StandIn


class Seam(unittest.TestCase):
    def test_calc_is_told_lines(self) -> None:
        program = textwrap.dedent(
            """
            import sys
            for line in sys.stdin:
                print({"eia2": "0a0b0c0d", "eea2": "-", "bad": "bad word"}.get(line.split()[0], "11" * 32), flush=True)
                print(line, end="", file=open(sys.argv[1], "a"))
        """
        )
        with tempfile.TemporaryDirectory() as room:
            told = Path(room) / "told"
            calc = derive.Calc([sys.executable, "-c", program, str(told)])
            key = bytes(16)
            self.assertEqual(calc.kenb(bytes(32), 7), b"\x11" * 32)
            self.assertEqual(calc.kenb_star(bytes(32), 10, 70000), b"\x11" * 32)
            self.assertEqual(calc.algorithm_key(bytes(32), 3, 2), b"\x11" * 32)
            self.assertEqual(calc.nh(bytes(32), bytes(32)), b"\x11" * 32)
            self.assertEqual(calc.eia2(key, 1, 0, 1, b"\xab"), b"\x0a\x0b\x0c\x0d")
            self.assertEqual(calc.eea2(key, 1, 0, 0, b""), b"")
            with self.assertRaises(TraceError):
                calc.told("bad")
            calc.close()
            self.assertEqual(
                told.read_text().splitlines(),
                [
                    f"kenb {'00' * 32} 7",
                    f"star {'00' * 32} 10 70000",
                    f"alg {'00' * 32} 3 2",
                    f"nh {'00' * 32} {'00' * 32}",
                    f"eia2 {'00' * 16} 1 0 downlink ab",
                    f"eea2 {'00' * 16} 1 0 uplink -",
                    "bad",
                ],
            )

    def test_the_proved_calls_are_those_of_the_stand_in(self) -> None:
        try:
            calls = derive.proved_calls()
        except TraceError as fault:
            self.skipTest(str(fault))
        self.addCleanup(getattr(calls, "close", lambda: None))
        key, text = os.urandom(32), os.urandom(45)
        for name, given in (
            ("kenb", (key, 77)),
            ("nh", (key, bytes(32))),
            ("kenb_star", (key, 503, 70000)),
            ("kenb_star", (key, 0, 65535)),
            ("algorithm_key", (key, 4, 2)),
            ("eea2", (key[:16], 1 << 20, 5, 1, text)),
            ("eia2", (key[:16], 9, 0, 0, text)),
        ):
            self.assertEqual(getattr(calls, name)(*given), getattr(StandIn(), name)(*given), name)


if __name__ == "__main__":
    unittest.main()
