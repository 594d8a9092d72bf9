"""Tests of what is made of the table of words, the man page and the completions: python3 launcher/word_tests.py. They
run the built program by ./lte_sec."""
from __future__ import annotations

import json
import os
import re
import shutil
import subprocess
import sys
import unittest

sys.dont_write_bytecode = True
from launches import EXAMPLES, HERE, TOP, launched  # noqa: E402
import pages  # noqa: E402


class Installed(unittest.TestCase):
    """The man page and the completions, which are made of the table of words."""

    WORDS = pages.rows()

    def completed(self, *given: str) -> list[str]:
        """What bash offers for the last of these words."""
        script = (
            '. "$1" && shift && COMP_WORDS=(lte_sec "$@") COMP_CWORD=$# && read -ra '
            "registered < <(complete -p lte_sec)\n"
            '"${registered[2]}"; for reply in "${COMPREPLY[@]}"; do echo "$reply"; done'
        )
        ran = subprocess.run(
            ["bash", "--norc", "-c", script, "bash", pages.COMPLETIONS, *given],
            capture_output=True,
            text=True,
            cwd=EXAMPLES,
        )
        self.assertEqual("", ran.stderr)
        return ran.stdout.splitlines()

    def test_they_are_as_they_are_made(self) -> None:
        for file, made in pages.made().items():
            self.assertEqual(made, file.read_text(), f"{file} is out of date: launcher/pages.py makes it again")

    def test_fish_and_zsh_take_theirs(self) -> None:
        if shutil.which("zsh"):
            self.assertEqual(b"", subprocess.run(["zsh", "-n", pages.ZSH], capture_output=True, check=True).stderr)
        if shutil.which("fish"):
            for given, offered in (
                ("ru", "run"),
                ("what-if --bad ke", "keys-differ"),
                ("draw me", "messages"),
                ("run --js", "--json"),
                ("--prov", "--prove"),
            ):
                script = f"source {pages.FISH}; complete -C 'lte_sec {given}'"
                ran = subprocess.run(["fish", "--no-config", "-c", script], capture_output=True, text=True)
                self.assertIn(offered, [line.split("\t")[0] for line in ran.stdout.splitlines()], given)

    def test_each_word_that_is_answered_is_in_the_table(self) -> None:
        texts = "".join((HERE / file).read_text() for file in ("answers", "program_words", "python_words"))
        answered = set(re.findall(r"^does_(\w+)\(\)", texts, re.MULTILINE)) - {"row"}
        own = set(re.findall(r"(?<=[ |])--[a-z]+(?= \||\))", (HERE / "answers").read_text().split("\nword=", 1)[1])) - {
            "--explain"
        }
        named = {word.name for word in self.WORDS if not word.name.startswith("-")}
        by_row = {word.name for word in self.WORDS if word.by}
        self.assertEqual(named, by_row | {name.replace("_", "-") for name in answered})
        self.assertEqual({word.name for word in self.WORDS if word.name.startswith("-")}, own)

    def test_each_word_with_json_says_by_it_why_it_fails(self) -> None:
        for word in [word.name for word in self.WORDS if any(name == "--json" for name, _ in word.below)]:
            ran = launched(word, "--json", 'no "file"\tof that name', "and no other")
            told = json.loads(ran.stdout)
            self.assertEqual({"error", "status"}, told.keys(), word)
            self.assertEqual(ran.returncode, told["status"], word)
            self.assertIn(told["error"].split("no ")[0], ran.stderr.decode(), word)

    def test_each_option_of_the_table_is_asked_for(self) -> None:
        for name, files in (
            ("check-trace", ["trace_words"]),
            ("explain", ["trace_words"]),
            ("wireshark", ["trace_words"]),
            ("vectors", ["trace_words"]),
            ("replay", ["trace_words", "replay_word"]),
            ("what-if", ["what_if_word"]),
            ("repeats", ["trace_words"]),
            ("verdict", ["verdict"]),
            ("draw", ["run_page"]),
            ("drive", ["drive_options", "drive_word", "suite_word", "generate"]),
            ("demands", ["demands"]),
        ):
            texts = "".join(next((TOP / "python/lte_sec").rglob(f"{file}.py")).read_text() for file in files)
            asked = set(re.findall(r'"(--[a-z-]+)"', texts)) | {"--suite"}
            self.assertLessEqual(
                {
                    option.split()[0]
                    for word in self.WORDS
                    if word.name == name
                    for option, _ in word.below
                    if option.startswith("--")
                },
                asked,
                name,
            )

    def test_they_name_every_word_and_option(self) -> None:
        page = pages.MAN.read_text().replace("\\-", "-")
        for word in self.WORDS:
            self.assertIn(word.name, self.completed(""))
            self.assertIn(f"\n\\fB{word.name}\\fR", page)
            offered = self.completed(word.name, "-" if word.below and word.below[0][0].startswith("-") else "")
            for option in (name.split()[0] for name, _ in word.below):
                self.assertIn(option, offered)
                self.assertIn(f"\n\\fB{option}\\fR", page)

    def test_files_folders_and_commands_are_completed_where_they_are_taken(self) -> None:
        for given, offered in (
            (["ru"], ["run"]),
            (["what"], ["what-if"]),
            (["help", "che"], ["check-trace"]),
            (["run", "run/ord"], ["run/ordinary.out", "run/ordinary.toml"]),
            (["serve", "p"], ["phone"]),
            (["draw", "messages", "run/ordinary.t"], ["run/ordinary.toml"]),
            (["what-if", "--save", "what-i"], ["what-if"]),
            (["what-if", "--faults", ""], ["1", "2", "3"]),
            (["library", "lad"], ["ladder"]),
            (["explain", "--keys", "ladder/fi"], ["ladder/first.out", "ladder/first.txt"]),
            (["check-trace", "--pl"], ["--plain"]),
            (["gen", ""], []),
            (["--program", "lte_c"], ["lte_calc"]),
        ):
            self.assertEqual(offered, sorted(self.completed(*given)), given)
        self.assertIn("python3", self.completed("drive", "--phone", "python3"))

    def test_values_are_completed_where_there_are_few(self) -> None:
        for given, offered in (
            (["what-if", "--bad", "keys"], ["keys-differ"]),
            (["what-if", "--kinds", "twice"], ["twice", "twice,again"]),
            (["serve", "station", "7"], ["7"]),
            (["drive", "--answers", ""], ["done"]),
        ):
            self.assertEqual(offered, self.completed(*given), given)
        said = launched("what-if", "--bad", "x", given=b"").stderr.decode()
        self.assertIn(f"one of {', '.join(word.replace('-', ' ') for word in pages.OUTCOMES)}, and", said)
        said = launched("what-if", "--kinds", "x", given=b"").stderr.decode()
        self.assertIn(f"--kinds takes {', '.join(pages.KINDS)}, with", said)

    @unittest.skipUnless(shutil.which("man"), "man is not here")
    def test_the_page_is_shown_without_a_warning(self) -> None:
        ran = subprocess.run(
            ["man", "--warnings", "-l", pages.MAN],
            capture_output=True,
            text=True,
            env={**os.environ, "LC_ALL": "C.UTF-8", "MANWIDTH": "200"},
        )
        self.assertEqual((0, ""), (ran.returncode, ran.stderr))


if __name__ == "__main__":
    unittest.main()
