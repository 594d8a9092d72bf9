"""The page of the variants of a scenario: its counts and runs are those of `--json`, and in a browser each box shows
its own run."""
from __future__ import annotations

import copy
import functools
import json
import tempfile
import unittest
from pathlib import Path
from typing import Any

from lte_sec.whatif import matrix_page
from lte_sec.pages import page as pages
from lte_sec.whatif.what_if_document import from_json, to_json
from lte_sec.whatif.outcomes import WORDS

from .browser import found
from .page_checks import document_of, faults_of
from .test_browser import PANEL, SIDEWAYS, InBrowser
from .test_pages import HOSTILE, spoil
from .studied import EXAMPLES, called, programs

SCENARIO = EXAMPLES / "what-if/two-path-switches.toml"


def setUpModule() -> None:
    programs()


@functools.cache
def document() -> dict[str, Any]:
    """What --json prints of the scenario, with a pair that brings something new."""
    told: dict[str, Any] = json.loads(called("--json", "--jobs", "2", SCENARIO)[1])
    lost = next(one for one in told["variants"] if one["faults"][0]["kind"] == "lost")
    told["variants"].append({**lost, "faults": 2 * lost["faults"], "run": [], "gone": []})
    return told


def made(word: str = "") -> str:
    page, told, lines = (
        matrix_page.page(document()),
        list(matrix_page.told(document())),
        list(matrix_page.of_note(document())),
    )
    if word:
        page, told, lines = (
            {**spoil(it, word), **{name: it[name] for name in ("kinds", "variants")}}
            if isinstance(it, dict)
            else spoil(it, word)
            for it in (page, told, lines)
        )
    return pages.html(page, told, lines)


def whole(page: dict[str, Any], variant: dict[str, Any]) -> list[dict[str, Any]]:
    """The run of a variant, step by step."""
    return [
        step
        for entry in variant["run"]
        for step in (page["base"][entry[0] : entry[1] + 1] if isinstance(entry, list) else [page["steps"][entry]])
    ]


class Matrix(unittest.TestCase):
    def test_its_counts_are_those_of_the_document(self) -> None:
        page, told = document_of(made()), document()
        self.assertEqual({one["word"]: one["many"] for one in page["outcomes"] if one["many"]}, told["counts"]["1"])
        worst = [page["outcomes"][variant["o"][0][0]]["word"] for variant in page["variants"]]
        self.assertEqual({word: worst.count(word) for word in WORDS if word in worst}, told["counts"]["1"])
        self.assertEqual(len({variant["id"] for variant in page["variants"]}), len(page["variants"]))
        self.assertEqual(sum(len(group["lines"]) for group in page["together"]), 1)

    def test_a_run_has_the_steps_of_its_variant(self) -> None:
        page = document_of(made())
        by_id = {variant["id"]: variant for variant in page["variants"]}
        lost = by_id["9.lost"]
        self.assertEqual(
            [page["texts"][one] for one in lost["gone"]][:2],
            ["step 9 X2 Handover Request", "step 10 X2 Handover Request Acknowledge"],
        )
        steps = whole(page, lost)
        self.assertNotIn("9", [step["f"] for step in steps if "note" not in step])
        self.assertTrue(
            any(step.get("v") == "bad" and step["answer"] == "NoAttempt" or step.get("v") == "bad" for step in steps)
        )
        for variant in page["variants"]:
            kinds = {step.get("v") for step in whole(page, variant)}
            self.assertLessEqual(kinds, {None, "bad", "unk"})
            if page["outcomes"][variant["o"][0][0]]["word"] == "same" and variant["kind"] == "twice":
                self.assertIn("copy", [step.get("note") for step in whole(page, variant)])

    def test_a_page_of_merged_parts_is_that_of_the_whole(self) -> None:
        told = copy.deepcopy(document())
        told["variants"].pop()
        again = to_json(from_json(told))
        self.assertEqual(matrix_page.page(again), matrix_page.page(told))

    def test_the_word_writes_it_beside_its_answer(self) -> None:
        with tempfile.TemporaryDirectory() as room:
            file = Path(room) / "page.html"
            plain, with_page = called(EXAMPLES / "run/ordinary.toml"), called(
                "--html", file, EXAMPLES / "run/ordinary.toml"
            )
            self.assertEqual(with_page[:2], plain[:2])
            self.assertEqual((faults_of(file.read_text()), file.stat().st_mode & 0o777), ([], 0o600))
            status, out, err = called("--html", room, EXAMPLES / "run/ordinary.toml")
            self.assertEqual((status, out, err.count("\n")), (2, "", 1))
            old = Path(room) / "old.json"
            told = json.loads(called("--json", EXAMPLES / "run/ordinary.toml")[1])
            del told["base"]
            old.write_text(json.dumps(told))
            status, out, err = called("--merge", "--html", file, old)
            self.assertEqual((status, err.count("\n")), (2, 1))

    def test_it_loads_nothing_and_has_no_key(self) -> None:
        self.assertEqual(faults_of(made()), [])
        self.assertNotRegex(json.dumps({**document_of(made()), "told": []}), "[0-9a-f]{32}")
        for word in HOSTILE:
            with self.subTest(word=word[:30]):
                self.assertEqual(faults_of(made(word)), [])


@unittest.skipUnless(found(), "there is no chromium here")
class InChromium(InBrowser):
    def test_a_box_shows_its_own_run(self) -> None:
        one = self.browser
        one.open(self.file(made()))
        variants = document_of(made())["variants"]
        self.assertEqual(one.ask("document.querySelectorAll('#matrix .box').length"), len(variants))
        place = next(place for place, variant in enumerate(variants) if variant["id"] == "9.lost")
        one.click(f"document.getElementById('box{place}')")
        said = self.text("#panel")
        for word in (
            "X2 Handover Request (step 9) lost",
            "worst outcome: no handover",
            "its own run",
            "falls away: step 9",
            "refused here and not in the scenario",
        ):
            self.assertIn(word, said)
        self.assertFalse("[object" in said)
        self.assertEqual(
            (one.ask("location.hash"), one.ask("document.querySelectorAll('.run .row').length > 30")),
            ("#f=9.lost", True),
        )
        one.key("Escape")
        self.assertEqual(one.ask(f"{PANEL}.hidden"), True)

    def test_the_keyboard_does_all(self) -> None:
        one = self.browser
        one.open(self.file(made()))
        variants = document_of(made())["variants"]
        one.key("ArrowRight")
        one.key("ArrowRight")
        one.key("Enter")
        self.assertEqual(one.ask("location.hash"), f"#f={variants[1]['id']}")
        one.key("ArrowDown")
        self.assertNotEqual(one.ask("location.hash"), f"#f={variants[1]['id']}")
        one.key("ArrowUp")
        self.assertEqual(one.ask("location.hash"), f"#f={variants[1]['id']}")
        one.key("n")
        self.assertEqual(
            one.ask(
                "document.querySelector('.box.at').id === "
                "document.getElementById('matrix').getAttribute('aria-activedescendant')"
            ),
            True,
        )
        one.key("Escape")
        one.key("/")
        one.types("path switch")
        self.assertEqual(
            one.ask(
                "document.querySelectorAll('#matrix .box.off').length > 0 && document.querySelectorAll('#matrix "
                ".box:not(.off)').length > 0"
            ),
            True,
        )
        one.key("Escape")

    def test_filters_and_fragments(self) -> None:
        one = self.browser
        one.open(self.file(made()), "#v=stuck&f=2.late.29")
        self.assertEqual(one.ask("document.querySelectorAll('#matrix .box:not(.off)').length"), 1)
        self.assertIn("late after step 29", self.text("#panel"))
        for nonsense in ("#f=2.late.999&v=none&k=1&p=1", "#f=__proto__", "#v=constructor"):
            one.open(self.file(made()), nonsense)
            self.assertEqual(one.ask(f"{PANEL}.hidden && document.querySelectorAll('#matrix .box.off').length"), 0)

    def test_no_sideways_scroll_and_hostile_words(self) -> None:
        for width in (1280, 759, 400):
            self.browser.open(self.file(made()), "#f=9.lost", width=width)
            self.assertEqual(self.browser.ask(SIDEWAYS), False, width)
        for word in HOSTILE:
            self.browser.open(self.file(made(word)))
            self.browser.key("n")
            self.browser.key("Enter")
            self.assertEqual(self.browser.ask(f"{PANEL}.hidden"), False, word[:30])
            self.assertEqual(
                (
                    self.browser.ask("document.querySelectorAll('img, iframe, #forged, a').length"),
                    self.browser.faults(),
                ),
                (0, []),
                word[:30],
            )


if __name__ == "__main__":
    unittest.main()
