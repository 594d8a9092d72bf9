"""Pages in HTML as texts: that nothing is fetched, that words of a capture stay text, and that what they show is what
--json has."""
from __future__ import annotations

import copy
import functools
import json
import os
import shutil
import stat
import subprocess
import tempfile
import unittest
from pathlib import Path
from typing import Any
from unittest import mock

from lte_sec.whatif import matrix_page
from lte_sec.pages import page as pages, trace_page
from lte_sec.common.terms import TraceError
from lte_sec.traces.trace_document import document

from .page_checks import contrasts, document_of, faults_of, ratio, wrong_keys
from .test_seen import seen, two_phones
from .test_traces import TRACES
from .test_words import KASME, run

HOSTILE = (
    "</script x>",
    "<!--<script ",
    "<script>alert(1)</script>",
    "<img src=x onerror=alert(1)>",
    '"><svg onload=alert(1)>',
    "' onmouseover='alert(1)",
    "javascript:alert(1)",
    "&lt;b&gt;&amp;&#x3c;",
    "]]>",
    "<style>*{display:none}</style>",
    "</title>",
    "</noscript><p id=forged>",
    "\u2028\u2029",
    "\ud800",
    "\udfff\ud800",
    "\u202egnorw",
    "\x00\x1b[31m",
    "${alert(1)}`\\",
    "__proto__",
    "constructor",
    "a" * 3000,
)
SPOILT_TEXTS = {
    "escape left out": ("pages.page.put", lambda text: text),
    "escape of < left out": ("pages.page.put", lambda text: text.replace(">", "\\u003e")),
    "policy opened": ("pages.page.policy", lambda script, style: "default-src 'self' 'unsafe-inline'"),
    "words of the document not escaped": ("pages.page.written", lambda text: text),
}
SPOILT_SCRIPTS = {
    "innerHTML": ("it.append(", "it.innerHTML += (it.append, "),
    "a fetch": ("begin();\n", "fetch('https://example.org/' + keys[0].hex);\n  begin();\n"),
}


def spoil(it: Any, word: str, name: str = "") -> Any:
    """The document with a word in each of its texts that come from a capture or a word of the call."""
    if isinstance(it, dict):
        return {
            key: it[key]
            if key
            in (
                "page",
                "marks",
                "v",
                "nas",
                "kind",
                "by",
                "unit",
                "hex",
                "sha256",
                "form",
                "way",
                "id",
                "colour",
                "ink",
            )
            else spoil(it[key], word, key)
            for key in it
        }
    if isinstance(it, list):
        return [spoil(each, word, name) for each in it]
    return f"{it}{word}" if isinstance(it, str) else it


@functools.cache
def trace() -> dict[str, Any]:
    """The document of a simulated trace of two phones, one key of which is wrong."""
    world = two_phones()
    asked = next(one for one in world.messages if one.link == "X2")
    asked.key = bytes(32)
    about = {
        "files": [{"name": "a.pcapng", "sha256": "ab" * 32}],
        "options": ["--cells cells.txt"],
        "made": {"by": "lte_sec", "version": "1", "proved": None},
    }
    return document(seen(world), about)


def made(keys: bool = True, word: str = "") -> str:
    """Its page, with a word in each of its texts."""
    found = trace()
    page = trace_page.page(found)
    told, lines = list(trace_page.told(found, page)), list(trace_page.of_note(found))
    if word:
        page, told, lines = spoil(page, word), spoil(told, word), spoil(lines, word)
    return pages.html(page, told, lines, keys)


class Texts(unittest.TestCase):
    def test_a_page_loads_nothing_and_its_policy_is_its_own(self) -> None:
        self.assertEqual(faults_of(made()), [])
        self.assertEqual(faults_of(made(keys=False)), [])

    def test_hostile_words_stay_text(self) -> None:
        for word in HOSTILE:
            with self.subTest(word=word[:40]):
                text = made(word=word)
                text.encode()  # a lone surrogate can be written
                self.assertEqual(faults_of(text), [])
                self.assertTrue(document_of(text)["title"].endswith(word))

    def test_spoilt_code_is_seen(self) -> None:
        for name, (where, how) in SPOILT_TEXTS.items():
            with self.subTest(name=name), mock.patch(f"lte_sec.{where}", how):
                self.assertTrue(any(faults_of(made(word=word)) for word in HOSTILE))
        for name, (piece, other) in SPOILT_SCRIPTS.items():
            script, text = (pages.HERE / "page.js").read_text(), made()
            with self.subTest(name=name):
                self.assertEqual(script.count(piece), 1)
                self.assertTrue(faults_of(text.replace(script, script.replace(piece, other))))

    def test_its_counts_are_those_of_the_document(self) -> None:
        with tempfile.TemporaryDirectory() as room:
            file = Path(room) / "page.html"
            for name in ("A", "B1-star-earfcn", "lost-answers"):
                given = [
                    "check-trace",
                    "--cells",
                    str(TRACES / f"{name}.cells.txt"),
                    str(TRACES / f"{name}.json.gz"),
                    KASME,
                    "--json",
                ]
                plain = run(*given, "--html", str(file))
                self.assertTrue(name != "A" or run(*given) == plain)
                found, page = json.loads(plain[1]), document_of(file.read_text())
                self.assertEqual(len(page["events"]), len(found["messages"]))
                self.assertEqual(
                    [line["text"] for event in page["events"] for line in event.get("l", [])],
                    [line["text"] for line in found["lines"]],
                )
                verdicts = [line["v"] for event in page["events"] for line in event.get("l", [])]
                self.assertEqual(
                    {word: verdicts.count(trace_page.MARKS[word]) for word in found["summary"]}, found["summary"]
                )
                self.assertEqual(wrong_keys(page["keys"]), [])
                self.assertEqual(faults_of(file.read_text()), [])

    def test_each_key_comes_of_the_one_above_it(self) -> None:
        page = document_of(made())
        self.assertEqual(wrong_keys(page["keys"]), [])
        self.assertGreater(sum(key["from"] is not None for key in page["keys"]), 10)
        wrong = next(
            line
            for event in page["events"]
            for line in event.get("l", [])
            if line["what"] == "KeNB*" and line["v"] == "bad"
        )
        self.assertEqual((page["keys"][wrong["isk"]]["hex"], page["keys"][wrong["isk"]]["from"]), ("00" * 32, None))
        self.assertEqual(page["keys"][wrong["wantk"]]["hex"], wrong["whex"])
        spoilt = copy.deepcopy(page["keys"])
        spoilt[wrong["wantk"]]["hex"] = "11" * 32
        self.assertNotEqual(wrong_keys(spoilt), [])

    def test_without_keys_no_key_is_in_the_file(self) -> None:
        full, bare = made(), made(keys=False)
        keys, fingerprints = document_of(full)["keys"], document_of(bare)["keys"]
        for key in keys:
            for piece in (key["hex"], key["hex"][32:], key["hex"][:32], key["hex"][:16]):
                self.assertFalse(piece in bare, key["form"])
        self.assertEqual(len({key["hex"] for key in fingerprints}), len(keys))
        self.assertNotEqual(
            [key["hex"] for key in fingerprints], [key["hex"] for key in document_of(made(keys=False))["keys"]]
        )
        self.assertEqual(
            {line.get("plain", "") for event in document_of(bare)["events"] for line in event.get("l", [])}, {""}
        )
        self.assertEqual(
            ("has KASME, the keys" in full, "has KASME, the keys" in bare, "ab" * 32 in bare), (True, False, True)
        )

    def test_above_a_bound_only_frames_with_lines_are_in_it(self) -> None:
        found = trace()
        page = trace_page.page(found, 5)
        self.assertEqual(len(page["events"]), len({line["number"] for line in found["lines"]}))
        for number, key in enumerate(page["keys"]):
            for place in key["at"]:
                self.assertIn(
                    number,
                    [line.get(name) for line in page["events"][place]["l"] for name in ("isk", "wantk", "chain")],
                )
        self.assertIn("left out", " ".join(trace_page.told(found, page)))

    def test_lanes_are_phones_stations_and_cores(self) -> None:
        lanes = document_of(made())["lanes"]
        self.assertEqual(
            [(lane["name"], lane["kind"]) for lane in lanes],
            [
                ("phones", "phone"),
                ("enb1", "station"),
                ("enb2", "station"),
                ("enb3", "station"),
                ("10.0.0.1:36412", "core"),
            ],
        )

    def test_texts_can_be_read_on_each_ground(self) -> None:
        for scheme, text, ground, contrast in contrasts((pages.HERE / "page.css").read_text()):
            self.assertGreaterEqual(contrast, 4.5, (scheme, text, ground))
        self.assertAlmostEqual(ratio("#000000", "#ffffff"), 21)

    def test_letters_of_outcomes_can_be_read(self) -> None:
        for outcome in matrix_page.outcomes_of({"counts": {}}):
            self.assertGreaterEqual(ratio(outcome["ink"], outcome["colour"]), 4.5, outcome["word"])

    @unittest.skipUnless(shutil.which("node"), "node checks the script")
    def test_the_script_reads_as_one(self) -> None:
        ran = subprocess.run(["node", "--check", pages.HERE / "page.js"], capture_output=True, text=True)
        self.assertEqual(ran.returncode, 0, ran.stderr)


class Files(unittest.TestCase):
    def test_a_page_is_for_its_owner_and_takes_the_place_of_an_old_one(self) -> None:
        with tempfile.TemporaryDirectory() as room:
            file = Path(room) / "page.html"
            file.write_text("old")
            file.chmod(0o644)
            pages.write(file, "new")
            self.assertEqual(
                (file.read_text(), stat.S_IMODE(file.stat().st_mode), os.listdir(room)), ("new", 0o600, ["page.html"])
            )

    def test_a_write_that_fails_leaves_the_old_page(self) -> None:
        with tempfile.TemporaryDirectory() as room, mock.patch(
            "os.replace", side_effect=OSError(28, "No space left on device")
        ):
            file = Path(room) / "page.html"
            file.write_text("old")
            with self.assertRaisesRegex(TraceError, "cannot be written: No space left"):
                pages.write(file, "new")
            self.assertEqual((file.read_text(), os.listdir(room)), ("old", ["page.html"]))

    def test_what_is_no_file_is_refused_in_one_line(self) -> None:
        given = ["check-trace", str(TRACES / "A.json.gz"), KASME]
        with tempfile.TemporaryDirectory() as room:
            for more, line in (
                (["--html", room], "this is none"),
                (["--html", "/dev/null"], "this is none"),
                (["--html", f"{room}/none/page.html"], "its folder is not there"),
                (["--html"], "--html wants a value"),
                (["--html", f"{room}/page.html", "--html-keys", "maybe"], "--html-keys takes yes or no"),
            ):
                status, out, err = run(*given, *more)
                self.assertEqual((status, out, err.count("\n")), (2, "", 1), more)
                self.assertIn(line, err)
            self.assertEqual(os.listdir(room), [])


if __name__ == "__main__":
    unittest.main()
