"""The words of a call, by the launcher's table."""
from __future__ import annotations

import tempfile
import unittest
from pathlib import Path
from unittest import mock

from lte_sec.common import options
from lte_sec.common.options import Words, WrongWords


class Options(unittest.TestCase):
    def test_the_table_says_which_take_a_value(self) -> None:
        self.assertEqual({"--json": False, "--scenario": True}, options.options_of("verdict"))
        found = options.options_of("what-if")
        self.assertEqual(
            (False, True, False), (found["--packets"], found["--part"], found["--merge"])
        )  # the files of --merge are words of the call
        self.assertEqual(
            (True, True), (options.options_of("drive")["--station"], options.options_of("drive")["--answers"])
        )
        self.assertEqual({}, options.options_of("serve"))  # its fixed arguments are no options

    def test_options_and_other_words_stand_in_any_order(self) -> None:
        given = Words.read("what-if", ["one", "--faults", "2", "--follow", "two", "--faults=3", "--picture=a=b"])
        self.assertEqual(
            (["one", "two"], ["2", "3"], 3, "a=b"),
            (given.others, given.options["--faults"], given.number("--faults", 1, 3), given.last("--picture")),
        )
        self.assertEqual(
            (True, False, "", "usual", 7),
            (
                given.has("--follow"),
                given.has("--json"),
                given.last("--save"),
                given.last("--save", "usual"),
                given.number("--jobs", 7, 9),
            ),
        )

    def test_a_value_may_look_like_an_option(self) -> None:
        self.assertEqual("--json", Words.read("verdict", ["--scenario", "--json"]).last("--scenario"))

    def test_what_is_wrong_is_told(self) -> None:
        for words, told in (
            (["--jso"], "there is no option --jso; there are: --json --scenario"),
            (["--json=1"], "there is no option --json=1; .*"),
            (["-j"], "there is no option -j; .*"),
            (["--scenario"], "--scenario wants a value"),
            (["--scenario="], "--scenario wants a value"),
            (["--json", "--scenario", ""], "--scenario wants a value"),
        ):
            with self.subTest(words), self.assertRaisesRegex(WrongWords, f"^{told}$"):
                Words.read("verdict", words)

    def test_a_number_has_bounds(self) -> None:
        for text in ("0", "4", "-1", "\u00b2", "\u0663", "1.0", "two"):
            with self.subTest(text), self.assertRaisesRegex(WrongWords, f"^--faults is 1 to 3, and not '{text}'$"):
                Words.read("what-if", ["--faults", text]).number("--faults", 1, 3)

    def test_an_option_that_the_table_lacks_is_not_asked_for(self) -> None:
        with self.assertRaises(KeyError):
            Words.read("verdict", []).has("--colour")

    def test_a_wheel_has_a_copy_of_the_table(self) -> None:
        with tempfile.TemporaryDirectory() as room, mock.patch.object(options, "COPY", Path(room) / "words.txt"):
            options.COPY.write_text(
                "# The words.\nrun | [FILE] | run a | runs\n    --fast | runs fast\n    slowly | runs slowly\n"
            )
            self.assertEqual({"--fast": False}, options.options_of("run"))


if __name__ == "__main__":
    unittest.main()
