"""The page of a run, and `run --json`: steps, keys and verdicts are those of the report, and in a browser a step shows
its chain and the ladder."""
from __future__ import annotations

import json
import subprocess
import tempfile
import unittest
from pathlib import Path
from typing import Any

from lte_sec.pages import page as pages
from lte_sec.whatif import run_page as ran
from lte_sec.runs.run_report import rows_of
from lte_sec.runs.run_report import StepLine

from .browser import found
from .page_checks import document_of, faults_of, wrong_keys
from .test_browser import PANEL, SIDEWAYS, InBrowser
from .test_pages import HOSTILE, spoil
from .studied import EXAMPLES, TOP, programs

RUNS = EXAMPLES / "run"


def setUpModule() -> None:
    programs()


def told(name: str) -> dict[str, Any]:
    return ran.document((RUNS / f"{name}.out").read_text(), (RUNS / f"{name}.toml").read_bytes(), name)


def made(name: str, keys: bool = True, word: str = "") -> str:
    document = told(name)
    page, summary, lines = ran.page(document), list(ran.summary(document)), list(ran.of_note(document))
    if word:
        page, summary, lines = spoil(page, word), spoil(summary, word), spoil(lines, word)
    return pages.html(page, summary, lines, keys)


def launched(*words: object) -> subprocess.CompletedProcess[str]:
    return subprocess.run([TOP / "lte_sec", *map(str, words)], capture_output=True, text=True, stdin=subprocess.DEVNULL)


class Run(unittest.TestCase):
    def test_its_steps_and_keys_are_those_of_the_report(self) -> None:
        for file in sorted(RUNS.glob("*.out")):
            name, report = file.stem, file.read_text().splitlines()
            if not (RUNS / f"{name}.toml").exists() or StepLine.read(report[0]) is None:
                continue
            with self.subTest(name=name):
                page, rows = ran.page(told(name)), rows_of(report)
                lines = [line for line in map(StepLine.read, report) if line is not None]
                steps = [event for event in page["events"] if not event.get("lost")]
                self.assertEqual([step.get("answer", "done") for step in steps], [line.answer for line in lines])
                self.assertEqual(
                    [page["keys"][step["key"]]["hex"] if "key" in step else None for step in steps],
                    [line.note.key if line.note and rows else None for line in lines],
                )
                self.assertEqual(
                    [(key["hex"], key["from"]) for key in page["keys"]], [(row.key, row.above) for row in rows.values()]
                )
                self.assertEqual(wrong_keys(page["keys"]), [])
                sent = [line.sent for line in lines if line.sent is not None]
                self.assertEqual(
                    len(
                        {step["record"] for step in steps if "record" in step}
                        | {int(event["s"].split()[1]) for event in page["events"] if event.get("lost")}
                    ),
                    len(sent),
                )

    def test_different_keys_have_two_chains(self) -> None:
        page = ran.page(told("eight-ahead"))
        parted = [event for event in page["events"] if event["v"] == "bad"]
        self.assertEqual([event["f"] for event in parted], ["69"])
        line = parted[0]["l"][0]
        self.assertEqual((line["names"], line["isk"] != line["wantk"]), (["the phone has", "the station has"], True))
        self.assertEqual(page["verdicts"][0]["v"], "bad")

    def test_a_coincidence_ends_it(self) -> None:
        report = (RUNS / "ordinary.out").read_text().splitlines()[:5] + ["5 coincidence 00"]
        document = ran.document("\n".join(report), (RUNS / "ordinary.toml").read_bytes(), "it")
        self.assertEqual(
            (document["status"], len(document["steps"]), document["keys"], document["verdicts"]["items"]),
            (7, 5, [], []),
        )
        self.assertIn("The run ends at a coincidence.", list(ran.summary(document)))
        self.assertEqual(faults_of(pages.html(ran.page(document), ran.summary(document), [], True)), [])

    def test_it_loads_nothing_and_without_keys_has_none(self) -> None:
        self.assertEqual(faults_of(made("eight-ahead")), [])
        full, bare = made("ordinary"), made("ordinary", keys=False)
        self.assertEqual(faults_of(bare), [])
        for key in document_of(full)["keys"]:
            for piece in (key["hex"], key["hex"][32:], key["hex"][:32], key["hex"][:16]):
                self.assertFalse(piece in bare, key["form"])
        self.assertTrue('"opens":"6869"' in full and "6869" not in json.dumps(document_of(bare)["events"]))
        for word in HOSTILE:
            with self.subTest(word=word[:30]):
                self.assertEqual(faults_of(made("ordinary", word=word)), [])

    def test_the_words(self) -> None:
        scenario = RUNS / "eight-ahead.toml"
        with tempfile.TemporaryDirectory() as room:
            file = Path(room) / "page.html"
            alone, beside, plain = (
                launched("draw", "--html", file, scenario),
                launched("draw", "messages", f"--html={file}", "--html-keys", "no", scenario),
                launched("draw", "messages", scenario),
            )
            self.assertEqual(
                (alone.returncode, alone.stdout, beside.returncode, beside.stdout), (0, "", 0, plain.stdout)
            )
            self.assertEqual((file.stat().st_mode & 0o777, "has no keys" in file.read_text()), (0o600, True))
            wrong: list[tuple[list[object], str]] = [
                (["--html", room, scenario], "this is none"),
                (["--html"], "--html wants a value"),
                (["--html", file], "takes one file"),
                (["--html", file, "--html-keys", "maybe", scenario], "--html-keys takes"),
                (["--html-keys", "no", scenario], "draw takes messages or ladder"),
                (["--svg", scenario], "draw takes no option --svg"),
            ]
            for words, line in wrong:
                ran_ = launched("draw", *words)
                self.assertEqual((ran_.returncode, ran_.stdout), (2, ""), words)
                self.assertIn(line, ran_.stderr)
                self.assertNotIn("Traceback", ran_.stderr)
        printed = launched("run", "--json", scenario)
        self.assertEqual((printed.returncode, json.loads(printed.stdout)), (0, told("eight-ahead")))
        refused = launched("run", "--json", TOP / "README.md")
        self.assertEqual((refused.returncode, json.loads(refused.stdout)["status"]), (3, 3))


@unittest.skipUnless(found(), "there is no chromium here")
class InChromium(InBrowser):
    def test_a_step_shows_its_chain_and_the_ladder(self) -> None:
        one = self.browser
        one.open(self.file(made("eight-ahead")))
        one.click("document.querySelector('.verdict.bad')")
        self.assertEqual(one.ask("location.hash"), "#f=69")
        said = self.text("#panel")
        for word in (
            "step 69 RRC Reconfiguration",
            "the phone has",
            "the station has",
            "the first step that differs",
            "8 steps ahead",
            "the ladder: 59 keys",
            "station 0",
        ):
            self.assertIn(word, said)
        one.click("document.querySelectorAll('.ladder .key')[7]")
        self.assertEqual(one.ask("location.hash"), "#f=69&k=7")
        self.assertEqual(
            one.ask(
                "document.querySelectorAll('.key.marked').length > 0 && "
                "document.querySelectorAll('.key.derived').length > 10"
            ),
            True,
        )
        one.key("Escape")
        one.key("Escape")
        self.assertEqual(one.ask(f"{PANEL}.hidden && location.hash"), "")

    def test_the_keyboard_and_narrow_windows(self) -> None:
        for width in (1280, 759, 400):
            self.browser.open(self.file(made("eight-ahead")), width=width)
            self.browser.key("n")
            self.assertIn("step 69", self.text("#panel"))
            self.assertEqual(self.browser.ask(SIDEWAYS), False, width)

    def test_hostile_words_are_inert(self) -> None:
        for word in HOSTILE:
            self.browser.open(self.file(made("eight-ahead", word=word)))
            self.browser.key("n")
            self.assertEqual(self.browser.ask(f"{PANEL}.hidden"), False, word[:30])
            self.assertEqual(
                (
                    self.browser.ask("document.querySelectorAll('img, iframe, #forged, a').length"),
                    self.browser.faults(),
                ),
                (0, []),
                word[:30],
            )


if __name__ == "__main__":
    unittest.main()
