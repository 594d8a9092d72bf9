"""How each word ends where its input or its output fails: python3 launcher/failing.py. The statuses are those of the
README's table."""
from __future__ import annotations

import concurrent.futures
import os
import pathlib
import shlex
import signal
import subprocess
import sys
import tempfile
import unittest
from collections.abc import Iterator
from typing import NamedTuple

sys.dont_write_bytecode = True
import pages  # noqa: E402

TOP = pathlib.Path(__file__).resolve().parent.parent
SCENARIO, REPORT = "examples/run/ordinary.toml", "examples/run/ordinary.out"
TRACE, KASME = "examples/traces/A.json.gz", "e61a3129c8e399d6dd3cec512a9c671da2004c5e8e780d3df853bb3055ee7cba"
READ_FAILS, WRITE_FAILS, INTERRUPTED = 4, 5, 130
SECONDS = 600  # that a call may take, on a busy machine
# Words that this does not call, and why.
LEFT = {
    "serve": "its port fails with 6, which examples/serve/check tries",
    "library": "it prints nothing but on standard error",
    "package": "the same",
    "--prove": "the same",
    "--proved": "the same",
    "--program": "it builds",
}
# Calls beside the examples of the table, and the text that each reads on standard input.
MORE = {
    "calc --strict": "examples/calc/keys.txt",
    "run --json": SCENARIO,
    "drive --json": SCENARIO,
    "drive --timeout 20": SCENARIO,
    "verdict --json": REPORT,
    f"explain {KASME}": REPORT,
    f"draw messages --html page.html {SCENARIO}": "",
    f"what-if --html page.html {SCENARIO}": "",
    f"check-trace --html page.html {TRACE} {KASME}": "",
    "demands --json": "",
    "run --help": "",
    "check-trace --help": "",
}
# The statuses with which a text may end that none takes, where they are others than 3.
ENDS = {"ladder": (0, 3), "calc": (0, 3), "lawful": (0, 3), "repeats": (0, 2), "explain": (1, 3)}


class Call(NamedTuple):
    """The words of a call, and the file with the text that it reads on standard input, if it reads one."""

    words: list[str]
    text: str = ""

    @property
    def file(self) -> str:
        """The last of the files that its words name."""
        return next((word for word in reversed(self.words) if pathlib.Path(word).is_file()), "")


def calls() -> Iterator[Call]:
    """Each word as in its example; one that may read standard input reads there the file that is named last."""
    for row in pages.rows():
        words = shlex.split(row.example)
        if row.name not in LEFT:
            yield Call([row.name], words[-1]) if row.behind.endswith("[FILE]") else Call(words)
    yield from (Call(words.split(), text) for words, text in MORE.items())


def ends(words: list[str], more: str, text: str, out: int | None = None) -> tuple[int, str]:
    """The status of the launcher with these words, redirections of a shell and output, and what it says on standard
    error."""
    shell = ["bash", "-c", f'set -o pipefail; "$@" {more}', "bash", str(TOP / "lte_sec"), *words]
    with open(text or os.devnull, "rb") as given:
        ran = subprocess.run(
            shell,
            stdin=given,
            stdout=subprocess.PIPE if out is None else out,
            stderr=subprocess.PIPE,
            text=True,
            timeout=SECONDS,
        )
    return ran.returncode, ran.stderr


def texts(room: str) -> dict[str, str]:
    """A file for each kind of text that no word takes, by the name of the kind."""
    made = {
        "empty": b"",
        "cut": pathlib.Path(SCENARIO).read_bytes()[:200],
        "deep TOML": b"a = " + b"[" * 30_000,
        "deep JSON": b'{"a":' * 10_000,
        "not UTF-8": b"phone = \xff\xfe\n",
    }
    for name, octets in made.items():
        pathlib.Path(room, name).write_bytes(octets)
    return {name: f"{room}/{name}" for name in made} | {"endless": "/dev/zero"}


def unread() -> int:
    """The end of a pipe whose other end is closed, as by a reader that has read enough."""
    reads, writes = os.pipe()
    os.close(reads)
    return writes


class Failing(unittest.TestCase):
    """The calls run in a folder of their own with links to what the examples name, since some write files."""

    @classmethod
    def setUpClass(cls) -> None:
        room = tempfile.TemporaryDirectory()
        cls.addClassCleanup(room.cleanup)
        cls.addClassCleanup(os.chdir, os.getcwd())
        os.chdir(room.name)
        for name in ("docs", "examples"):
            os.symlink(TOP / name, name)

    def each(self, more: str, wanted: int, lines: int, made: list[Call], out: int | None = None) -> None:
        with concurrent.futures.ThreadPoolExecutor() as pool:
            for (words, _), (status, said) in zip(made, pool.map(lambda it: ends(it.words, more, it.text, out), made)):
                with self.subTest(words=words, more=more):
                    told = [
                        line
                        for line in said.splitlines()
                        if "built without proof" not in line and " runs, " not in line
                    ]
                    self.assertNotIn("Traceback", said)
                    self.assertEqual((wanted, lines), (status, sum(f"status {wanted}" in line for line in told)), said)

    def test_an_error_that_cannot_be_written_leaves_the_status(self) -> None:
        made = list(calls())
        with concurrent.futures.ThreadPoolExecutor() as pool:
            wanted = list(pool.map(lambda it: ends(it.words, "", it.text)[0], made))
            for more in ("2>/dev/full", "2>&-"):
                for (words, _), status, (got, _) in zip(
                    made, wanted, pool.map(lambda it: ends(it.words, more, it.text), made)
                ):
                    with self.subTest(words=words, more=more):
                        self.assertEqual(status, got)

    def test_what_is_no_text_ends_as_the_readme_says(self) -> None:
        """Each word that reads a text, with each text that none takes: one that is empty, cut, deep, not UTF-8, or
        without an end."""
        with tempfile.TemporaryDirectory() as room, concurrent.futures.ThreadPoolExecutor() as pool:
            cases = [(it.words, *made) for it in calls() if it.text for made in texts(room).items()]
            for (words, name, _), (status, said) in zip(cases, pool.map(lambda it: ends(it[0], "", it[2]), cases)):
                with self.subTest(words=words, text=name):
                    self.assertNotIn("Traceback", said)
                    self.assertIn(status, (9,) if name == "endless" else ENDS.get(words[0], (3,)), said)

    def test_a_file_that_is_none_ends_as_the_readme_says(self) -> None:
        """Each word that reads a file which it is told, with each of these in its place."""
        with tempfile.TemporaryDirectory() as room, concurrent.futures.ThreadPoolExecutor() as pool:
            made = texts(room) | {"folder": room, "nowhere": f"{room}/nowhere"}
            cases = [
                ([file if given == it.file else given for given in it.words], name)
                for it in calls()
                if it.file
                for name, file in made.items()
            ]
            for (words, name), (status, said) in zip(cases, pool.map(lambda it: ends(it[0], "", ""), cases)):
                with self.subTest(words=words, file=name):
                    self.assertNotIn("Traceback", said)
                    self.assertIn(status, (2, 3, 9), said)

    def test_a_full_disk_is_status_5_and_one_line(self) -> None:
        self.each(">/dev/full", WRITE_FAILS, 1, list(calls()))

    def test_a_closed_output_is_status_5_and_one_line(self) -> None:
        self.each(">&-", WRITE_FAILS, 1, list(calls()))

    def test_a_reader_that_has_read_enough_is_status_5_and_no_line(self) -> None:
        out, words = unread(), (["verdict"], ["--help"], ["run", "--help"])
        try:
            made = [it for it in calls() if it.words in words or it.words[0] in ("vectors", "check-trace")]
            self.each("", WRITE_FAILS, 0, made, out)
        finally:
            os.close(out)

    def test_a_closed_input_is_status_4_and_one_line(self) -> None:
        self.each("<&-", READ_FAILS, 1, [it for it in calls() if it.text])

    def test_a_folder_as_input_is_status_4_and_one_line(self) -> None:
        self.each("<.", READ_FAILS, 1, [it for it in calls() if it.text])

    def test_an_interrupt_is_status_130_and_no_traceback(self) -> None:
        tried = [["what-if", "--faults", "2", "--lines", SCENARIO], ["vectors", "--count", "1000"], ["verdict"]]
        for words in tried:
            with self.subTest(words=words):
                process = subprocess.Popen(
                    [TOP / "lte_sec", *words],
                    stdin=subprocess.PIPE,
                    stdout=subprocess.PIPE,
                    stderr=subprocess.PIPE,
                    start_new_session=True,
                    preexec_fn=lambda: signal.signal(
                        signal.SIGINT, signal.SIG_DFL
                    ),  # what a script starts in the background ignores it
                )
                assert process.stdin and process.stdout
                # Its first octet, or that it takes more of a text than a pipe holds, tells that it is at work. What it
                # writes is read no further, so it cannot end.
                if words == ["verdict"]:
                    process.stdin.write(pathlib.Path(REPORT).read_bytes() * 100)
                else:
                    process.stdout.read(1)
                os.killpg(process.pid, signal.SIGINT)
                said = process.communicate(timeout=SECONDS)[1].decode()
                self.assertNotIn("Traceback", said)
                self.assertEqual(INTERRUPTED, process.returncode, said)


if __name__ == "__main__":
    unittest.main()
