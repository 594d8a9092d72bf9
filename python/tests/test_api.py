"""`import lte_sec`: its names, what its functions answer, and how they fail."""
from __future__ import annotations

import importlib
import subprocess
import sys
import unittest
from collections.abc import Callable
from pathlib import Path
from unittest import mock

import lte_sec
from lte_sec import api
from lte_sec.traces import trace_words as words

from .standin import StandIn
from .test_traces import TRACES

TOP = Path(__file__).resolve().parents[2]
EXAMPLES = TOP / "examples"
KASME = "e61a3129c8e399d6dd3cec512a9c671da2004c5e8e780d3df853bb3055ee7cba"


class Names(unittest.TestCase):
    def test_each_name_is_somewhere_and_has_words_on_it(self) -> None:
        library = (TOP / "python/lte_sec/library.py").read_text()
        for name in lte_sec.__all__:
            where = lte_sec.WHERE.get(name, "library")
            if where == "library":
                self.assertIn(f'"{name}"', library.split("]", 1)[0], name)
            else:
                self.assertTrue(getattr(importlib.import_module(f"lte_sec.{where}"), name).__doc__, name)
        self.assertEqual(sorted(lte_sec.__all__), dir(lte_sec))
        self.assertEqual(len(set(lte_sec.__all__)), len(lte_sec.__all__))

    def test_no_name_is_that_of_a_module(self) -> None:
        modules = {file.stem for file in (TOP / "python/lte_sec").rglob("*") if file.suffix == ".py" or file.is_dir()}
        self.assertEqual(set(), modules & set(lte_sec.__all__))

    def test_each_name_is_on_the_page_or_of_a_value(self) -> None:
        page = (TOP / "docs/PYTHON.md").read_text()
        for name in (
            "check_trace",
            "explain",
            "run",
            "what_if",
            "kasme",
            "kenb",
            "nh",
            "kenb_star",
            "algorithm_key",
            "NasContext",
            "SrbContext",
            "DrbContext",
            "proved",
            "TraceError",
            "Refused",
            "Site",
        ):
            self.assertIn(f"`{name}", page)

    def test_another_name_is_none(self) -> None:
        with self.assertRaises(AttributeError):
            getattr(lte_sec, "kenbs_of_all")

    def test_an_import_loads_little(self) -> None:
        ran = subprocess.run(
            [
                sys.executable,
                "-B",
                "-c",
                "import sys, lte_sec; print(sum(name.startswith('lte_sec.') for name in sys.modules))",
            ],
            cwd=TOP / "python",
            capture_output=True,
            text=True,
        )
        self.assertEqual("0\n", ran.stdout)


class Answers(unittest.TestCase):
    def setUp(self) -> None:
        for module in (api, words):
            patch = mock.patch.object(module, "proved_calls", StandIn)
            patch.start()
            self.addCleanup(patch.stop)

    def test_a_trace_is_judged_as_by_the_word(self) -> None:
        judged = lte_sec.check_trace(TRACES / "A.json.gz", [KASME])
        self.assertEqual((0, 0, ()), (judged.status, judged.counts["differs"], judged.differing))
        wrong = lte_sec.check_trace([TRACES / "B2-nh-twice.json.gz"], [bytes.fromhex(KASME)])
        self.assertEqual(
            (1, True),
            (wrong.status, all(line.verdict == lte_sec.Verdict.DIFFERS and line.clause for line in wrong.differing)),
        )
        self.assertTrue(wrong.report.endswith("not judged\n"))

    def test_a_key_is_explained(self) -> None:
        kasme = bytes(range(32))
        kenb = StandIn().kenb(kasme, 5)
        star = StandIn().kenb_star(kenb, 11, 101)
        found = lte_sec.explain(f"{kenb.hex()}\n{star.hex()}\n", [kasme], [(11, 101)])
        self.assertEqual(["kenb(5)", "star(kenb(5),11,101)"], [key.form for key in found])
        self.assertEqual((kenb, 2, None), (found[0].octets, found[1].line, found[0].mistake))

    def test_what_is_wrong_is_told_in_a_line(self) -> None:
        calls: tuple[Callable[[], object], ...] = (
            lambda: lte_sec.check_trace("nowhere.pcap", [KASME]),
            lambda: lte_sec.check_trace(TRACES / "A.json.gz", ["00"]),
            lambda: lte_sec.explain("", [b""]),
            lambda: lte_sec.explain("", [KASME], [(504, 1)]),
            lambda: lte_sec.run(Path("nowhere")),
        )
        for call in calls:
            with self.assertRaises(lte_sec.TraceError) as caught:
                call()
            self.assertEqual((2, 1), (caught.exception.status, len(str(caught.exception).splitlines())))


class Runs(unittest.TestCase):
    def setUp(self) -> None:
        if subprocess.run([TOP / "lte_sec", "--program"], capture_output=True).returncode:
            self.skipTest("the program is not built")

    def test_a_scenario_is_run(self) -> None:
        ran = lte_sec.run(EXAMPLES / "run/ordinary.toml")
        self.assertEqual((27, 16, "all agree", None), (len(ran.steps), len(ran.keys), ran.verdict, ran.coincidence))
        self.assertEqual(
            ("KeNB*, PCI 11, EARFCN 101", 3, "TS 33.401 A.5", ("phone", "station 0", "station 1")),
            (ran.keys[7].name, ran.keys[7].above, ran.keys[7].clause, ran.keys[7].holders),
        )
        self.assertEqual([False, False], [change.differs for change in ran.changes])
        self.assertTrue(lte_sec.run((EXAMPLES / "run/eight-ahead.toml").read_text()).changes[-1].differs)

    def test_faults_are_tried(self) -> None:
        tried = lte_sec.what_if(EXAMPLES / "run/ordinary.toml", kinds=["late"])
        self.assertEqual({"late"}, {fault.kind for variant in tried.variants for fault in variant.faults})
        self.assertEqual(sum(tried.counts[1].values()), len(tried.variants))
        self.assertTrue(all(variant.worst in variant.outcomes for variant in tried.variants))
        self.assertLessEqual({variant.heals for variant in tried.variants}, {"reconnection", "authentication"})

    def test_what_is_refused_has_the_status_of_the_word(self) -> None:
        with self.assertRaises(lte_sec.WordFails) as caught:
            lte_sec.run("phon = 1")
        self.assertEqual(3, caught.exception.status)
        with self.assertRaises(lte_sec.WordFails) as caught:
            lte_sec.what_if(EXAMPLES / "run/ordinary.toml", faults=9)
        self.assertEqual(2, caught.exception.status)


if __name__ == "__main__":
    unittest.main()
