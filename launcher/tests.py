"""Tests of the launcher's scripts: python3 launcher/tests.py. They run the built program by ./lte_sec."""
from __future__ import annotations

import concurrent.futures
import importlib
import json
import pathlib
import re
import subprocess
import sys
import tempfile
import unittest

sys.dont_write_bytecode = True
from launches import EXAMPLES, HERE, TOP, launched  # noqa: E402
import calc  # noqa: E402
import ladder  # noqa: E402
import pages  # noqa: E402
from lte_sec.runs import document, scenario_faults  # noqa: E402

SETUP = 'phone = { caps = "a020" }\nstation = [{ id = 0, cells = [[10, 100]] }, { id = 1, cells = [[11, 101]] }]\n'


def mistakes() -> list[tuple[str, str, str, str]]:
    """Of each block of the file `mistakes` the word, the program's line, the launcher's and the text."""
    blocks: list[list[str]] = []
    for line in (HERE / "mistakes").read_text().splitlines():
        if line.startswith("    "):
            blocks[-1][3] += SETUP if line.strip() == ".." else line[4:] + "\n"
        elif line and not line.startswith("#"):
            blocks.append([*(part.strip() for part in line.split("|", 2)), ""])
    return [(word, line, reason, text) for word, line, reason, text in blocks]


class Mistakes(unittest.TestCase):
    def test_each_mistake_is_answered_by_what_to_do(self) -> None:
        with tempfile.TemporaryDirectory() as room, concurrent.futures.ThreadPoolExecutor() as pool:
            files = [pathlib.Path(room) / str(number) for number in range(len(mistakes()))]
            for file, (*_, text) in zip(files, mistakes()):
                file.write_text(text)
            runs = pool.map(launched, [word for word, *_ in mistakes()], files)
            for (word, line, reason, text), ran in zip(mistakes(), runs):
                with self.subTest(word=word, text=text):
                    said = f"lte_sec: {reason}\n" if reason else ""
                    self.assertEqual((3, f"{line}\n", said), (ran.returncode, ran.stdout.decode(), ran.stderr.decode()))

    def test_a_text_in_a_pipe_is_answered_as_one_in_a_file(self) -> None:
        word, line, reason, text = mistakes()[1]
        ran = launched(word, given=text.encode())
        self.assertEqual((f"{line}\n", f"lte_sec: {reason}\n"), (ran.stdout.decode(), ran.stderr.decode()))

    def test_octets_that_are_no_text_are_named(self) -> None:
        ran = launched("run", given=b"phone = \xff")
        self.assertEqual(
            (b"refused text\n", b"lte_sec: line 1, column 9: octet ff is not UTF-8 text\n"), (ran.stdout, ran.stderr)
        )

    def test_a_text_that_is_read_from_its_middle_is_not_judged(self) -> None:
        with tempfile.TemporaryFile() as file:
            file.write(b"#\nphon = 1\n")
            file.seek(2)
            ran = subprocess.run([TOP / "lte_sec", "run"], stdin=file, capture_output=True)
        self.assertEqual((b"refused setup unknown\n", b""), (ran.stdout, ran.stderr))


class Texts(unittest.TestCase):
    """What the program takes is not a mistake here."""

    @unittest.skipIf(sys.version_info < (3, 11), "it needs tomllib")
    def test_documents_are_those_of_tomllib(self) -> None:
        tomllib = importlib.import_module("tomllib")
        for file in [*EXAMPLES.glob("*/*.toml"), *TOP.glob("docs/cookbook/*.toml")]:
            self.assertEqual(tomllib.loads(file.read_text()), document.plain(document.read(file.read_bytes())), file)

    def test_inline_tables_may_go_over_lines(self) -> None:
        self.assertEqual(
            {"a": {"b": 1, "c": "\x1b"}},
            document.plain(document.read(b'a = { b = 1, # of TOML 1.1\n  c = "\\e",\n}\n')),
        )

    def test_examples_have_no_fault(self) -> None:
        for room, kind in (
            ("run", scenario_faults.RUN),
            ("worked", scenario_faults.RUN),
            ("fleet", scenario_faults.FLEET),
            ("two", scenario_faults.TWO),
        ):
            for file in EXAMPLES.glob(f"{room}/*.toml"):
                scenario_faults.judge(document.read(file.read_bytes()), kind)
        for name in ("first", "chain", "algorithms"):
            ladder.judge((EXAMPLES / "ladder" / f"{name}.txt").read_bytes())

    def test_a_ladder_text_has_4096_lines_at_most(self) -> None:
        text = b"root " + b"0" * 64 + b"\n" + b"".join(b"kenb 0 %d\n" % count for count in range(4096))
        with self.assertRaises(document.TextFault) as caught:
            ladder.judge(text)
        self.assertEqual("refused line 4097", caught.exception.line)
        ladder.judge(text[: text.rindex(b"kenb")])


class Lines(unittest.TestCase):
    """What is wrong with the lines of calc."""

    def test_each_bad_line_has_a_reason_and_no_other(self) -> None:
        found = calc.faults((EXAMPLES / "calc" / "bad.txt").read_bytes())
        answers = (EXAMPLES / "calc" / "bad.out").read_text().splitlines()
        self.assertEqual(
            [answer for answer in answers if answer.startswith("bad ")], [f"bad {bad.what}" for _, _, bad in found]
        )
        for name in ("keys", "pdus", "vectors"):
            self.assertEqual([], calc.faults((EXAMPLES / "calc" / f"{name}.txt").read_bytes()), name)

    def test_the_table_is_that_of_the_page(self) -> None:
        page = (TOP / "docs" / "CALC.md").read_text()
        rows = re.findall(r"^\| `([\w-]+)` \| ([a-z0-9 -]+) \|", page.split("| field | is |")[0], re.MULTILINE)
        self.assertEqual({word: names for word, (names, _) in calc.LINES.items()}, dict(rows))

    def test_reasons_are_said_for_a_file_and_a_pipe(self) -> None:
        text = b"# keys\nkenb 00 0\nkenb " + b"0" * 64 + b" 01\n"
        said = (
            "lte_sec: line 2: kasme has 2 digits; it must have 64\nlte_sec: line 3: count is '01'; it must be 0 "
            "to 16777215, in decimal without sign or leading zero\n"
        )
        with tempfile.NamedTemporaryFile() as file:
            file.write(text)
            file.flush()
            for ran in (launched("calc", given=text), launched("calc", file.name)):
                self.assertEqual(
                    (3, b"bad kasme\nbad count\n", said), (ran.returncode, ran.stdout, ran.stderr.decode())
                )

    def test_an_answer_comes_before_the_next_line_is_given(self) -> None:
        with subprocess.Popen(
            [TOP / "lte_sec", "calc"], stdin=subprocess.PIPE, stdout=subprocess.PIPE, stderr=subprocess.PIPE
        ) as process:
            assert process.stdin and process.stdout and process.stderr
            for _ in range(3):
                process.stdin.write(b"kenb 00 0\n")
                process.stdin.flush()
                self.assertEqual(b"bad kasme\n", process.stdout.readline())
            process.stdin.close()
            self.assertEqual(3, len(process.stderr.read().splitlines()))

    def test_the_mistake_of_a_mac_is_named_by_a_file_and_a_pipe(self) -> None:
        key = "000102030405060708090a0b0c0d0e0f101112131415161718191a1b1c1d1e1f"
        text = (
            f"# a remark\n\nkenb {key} 0\nnas {key} 2 0 downlink 270a76966105e7a452c4b5\nsrb {key} 2 102 0 "
            "downlink 06917edc43e7c2c10c\n"
        ).encode()
        said = (
            "lte_sec: line 4: the MAC is wrong: it is that of the other direction\nlte_sec: line 5: text and MAC are "
            "wrong: they are those of COUNT 70\n"
            "lte_sec: status 1: 2 lines with a MAC that fails\n"
        )
        with tempfile.NamedTemporaryFile() as file:
            file.write(text)
            file.flush()
            for ran in (launched("calc", "--strict", file.name), launched("calc", "--strict", given=text)):
                self.assertEqual((1, said), (ran.returncode, ran.stderr.decode()))

    def test_what_fits_a_line_that_opens_at_no_count_or_to_no_nas_message_is_said(self) -> None:
        key = "000102030405060708090a0b0c0d0e0f101112131415161718191a1b1c1d1e1f"
        text = f"nas {key} 2 any downlink 277b3eaa160546084a250c\nnas {key} 1 0 uplink 270a76966105e7a452c4b5\n"
        one, two = (
            "the MAC is wrong: it is that of the other direction, of 128-EIA2 at COUNT 1192965",
            "the text is no NAS message; it is one under EEA2",
        )
        ran = launched("calc", "--strict", given=text.encode())
        self.assertEqual(
            (1, f"lte_sec: line 1: {one}\nlte_sec: line 2: {two}\nlte_sec: status 1: 1 line with a MAC that fails\n"),
            (ran.returncode, ran.stderr.decode()),
        )
        ran = launched("calc", "--strict", given=text.splitlines(keepends=True)[1].encode())
        self.assertEqual((0, f"lte_sec: line 1: {two}\n"), (ran.returncode, ran.stderr.decode()))

    def test_a_line_that_is_cut_where_the_copy_ends_is_not_told(self) -> None:
        remark, line = b"# " + b"x" * 60_000 + b"\n", b"kenb " + b"0" * 64 + b" 1\n"
        ran = launched("calc", given=remark * (16_777_216 // len(remark)) + line * 600 + b"kenb 00 0\n")
        self.assertEqual((3, b""), (ran.returncode, ran.stderr))

    def test_a_mac_that_fails_is_a_status_where_it_is_asked_for(self) -> None:
        key = "000102030405060708090a0b0c0d0e0f101112131415161718191a1b1c1d1e1f"
        right, wrong = (
            f"nas {key} 2 0 uplink 270a76966105e7a452c4b5\n".encode(),
            f"nas {key} 2 0 uplink 270a76966005e7a452c4b5\n".encode(),
        )
        cases: tuple[tuple[list[str], bytes, int, bytes], ...] = (
            (["--strict"], right, 0, b""),
            (["--strict"], right + wrong + wrong, 1, b"lte_sec: status 1: 2 lines with a MAC that fails\n"),
            (["--strict"], wrong + b"kenb 0 0\n", 3, b"lte_sec: line 2: kasme has 1 digit; it must have 64\n"),
            ([], wrong, 0, b""),
        )
        for words, text, status, said in cases:
            ran = launched("calc", *words, given=text)
            self.assertEqual((status, said), (ran.returncode, ran.stderr), text)


class Page(unittest.TestCase):
    def test_the_page_tells_the_lines_of_a_ladder(self) -> None:
        text = (TOP / "docs" / "SCENARIOS.md").read_text().replace("`", "")
        self.assertIn(f"at most {ladder.MOST_LINES:,} lines", text)
        table = text[text.index("| line | needs | derives") :].split("\n\n")[0]
        self.assertEqual(
            [f"{kind} {' '.join(names)}" for kind, names in ladder.LINES.items()],
            [line.split(" | ")[0].strip("| ") for line in table.splitlines()[2:]],
        )


class Version(unittest.TestCase):
    """The version, which stands in one file, and what the library has beside it."""

    VERSION = (TOP / "VERSION").read_text().strip()

    def test_all_tell_the_version_of_one_file(self) -> None:
        self.assertRegex(self.VERSION, r"^[0-9]+\.[0-9]+\.[0-9]+$")
        newest = re.search(r"^## (\S+), .*$", (TOP / "CHANGELOG.md").read_text(), re.MULTILINE)
        self.assertEqual(self.VERSION, newest and newest[1], "the newest part of CHANGELOG.md is of another version")
        self.assertTrue(launched("--version").stdout.decode().startswith(f"lte_sec {self.VERSION} ("))
        self.assertIn(f'"lte_sec {self.VERSION}"', pages.man())
        self.assertNotRegex((TOP / "python/pyproject.toml").read_text(), r"(?m)^version")

    def test_the_page_tells_the_numbers_of_the_library(self) -> None:
        header = re.search(r"LTESEC_VERSION ([0-9]+)", (TOP / "crates/lte_sec_c/include/lte_sec.h").read_text())
        soname = re.search(r"^soname=liblte_sec\.so\.([0-9]+)$", (HERE / "library").read_text(), re.MULTILINE)
        native = re.search(r"^VERSION = ([0-9]+)", (TOP / "python/lte_sec/native.py").read_text(), re.MULTILINE)
        assert header and soname and native
        self.assertEqual(header[1], native[1])
        page = (TOP / "docs/VERSIONS.md").read_text()
        self.assertIn(f"`LTESEC_VERSION` {header[1]} is SONAME {soname[1]}", page)
        self.assertIn(f"liblte_sec.so.{soname[1]}", page)

    def test_the_programs_are_those_of_the_table(self) -> None:
        for row in pages.rows():
            if row.name in ("--proved", "--program"):
                told = {name: re.split(", | and ", does.partition(" of ")[2]) for name, does in row.below}
                self.assertEqual(pages.programs(), told)


class Pictures(unittest.TestCase):
    def width_and_names(self, scenario: bytes) -> tuple[int, int, str]:
        """The width of a picture of messages, how often it has the name of an actor, and the picture."""
        with tempfile.NamedTemporaryFile() as file:
            file.write(scenario)
            file.flush()
            drawn = launched("draw", "messages", file.name).stdout.decode()
        found = re.search(r'<svg [^>]*width="(\d+)"', drawn)
        assert found, drawn[:200]
        return int(found[1]), drawn.count(">station 1</text>"), drawn

    def test_a_long_text_is_shortened(self) -> None:
        octets = (EXAMPLES / "run/ordinary.toml").read_bytes()
        long = re.sub(
            rb'(do = "user".*?text = ")[0-9a-f]*', lambda found: found[1] + b"0123456789" * 60, octets, count=1
        )
        width, _, drawn = self.width_and_names(long)
        self.assertEqual(self.width_and_names(octets)[0], width)
        self.assertIn(">sends 0123456789012345.. (300 octets) on drb1<", drawn)
        self.assertIn(">opens to 0123456789012345.. (300 octets)<", drawn)

    def test_a_long_name_is_shortened(self) -> None:
        width, _, drawn = self.width_and_names(
            b"# " + b"a scenario with a long name " * 20 + b"\n" + SETUP.encode() + b'step = [{ do = "idle" }]\n'
        )
        self.assertLess(width, 1200)
        self.assertIn(" ..</text>", drawn)

    def test_the_actors_names_stand_again_each_screen(self) -> None:
        self.assertEqual(5, self.width_and_names((EXAMPLES / "what-if/ten-handovers.toml").read_bytes())[1])


class Verdicts(unittest.TestCase):
    def test_the_word_reads_a_report_and_ends_so(self) -> None:
        for name, status, last in (
            ("seven-ahead", 0, ["steps 59 to 63: phone and station 0 have one key", "all agree"]),
            ("eight-ahead", 1, ["step 80: a connection gives one key again", "keys differ"]),
        ):
            ran = launched("verdict", EXAMPLES / "run" / f"{name}.out")
            self.assertEqual((status, last), (ran.returncode, ran.stdout.decode().splitlines()[-2:]), name)
        ran = launched("verdict", EXAMPLES / "fleet" / "two-phones.out")
        self.assertEqual(
            (3, b"lte_sec: this is not a report of run: it is one of fleet; sed -n 's/^0 //p' gives that of phone 0\n"),
            (ran.returncode, ran.stderr),
        )

    def test_a_document_is_printed_for_machines(self) -> None:
        ran = launched("verdict", "--json", EXAMPLES / "run" / "cancelled-s1.out")
        self.assertEqual(
            (0, ["not commanded", "one key", "one key, not completed"]),
            (ran.returncode, [item["outcome"] for item in json.loads(ran.stdout)["items"]]),
        )


if __name__ == "__main__":
    unittest.main()
