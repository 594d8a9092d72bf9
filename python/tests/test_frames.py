"""Tests of frames and replies: the examples of crates/record_tests, and the sessions of examples/serve."""
import io
import pathlib
import re
import unittest

from lte_sec.common import tables
from lte_sec.drive import frames

TOP = pathlib.Path(__file__).resolve().parent.parent.parent
TESTS = TOP / "crates" / "record_tests" / "src" / "frames"
SESSIONS = TOP / "examples" / "serve"


def table(name: str) -> list[tuple[str, int]]:
    """A table of crates/record_tests: bodies that are none, each with its first bad octet."""
    text = (TESTS / "bad.rt").read_text()
    rows = re.search(rf"static {name}: .*?= \[(.*?)\n\];", text, re.S)
    assert rows
    return [(octets, int(place)) for octets, place in re.findall(r'"([0-9a-f]+)",\s*(\d+)', rows[1])]


class Frames(unittest.TestCase):
    def test_each_field_is_of_an_input_that_the_program_reads(self) -> None:
        for role, fields in frames.FIELDS.items():
            with self.subTest(role=role):
                self.assertLessEqual(fields.keys(), set(tables.inputs(role).values()))

    def test_sessions_are_read_whole_and_written_again(self) -> None:
        for file in sorted(SESSIONS.glob("*.frames")):
            role = file.stem.split("-")[0]
            lines = [line.split() for line in file.read_text().splitlines() if line]
            for number, (mark, text) in enumerate(lines):
                octets = bytes.fromhex(text)
                body = frames.read_frame(io.BytesIO(octets))
                assert body is not None
                with self.subTest(file=file.name, number=number):
                    if mark == ">":
                        frames.read_input(role, number == 0, body)
                    else:
                        self.assertEqual(frames.read_reply(body).spelled(), octets)

    def test_bodies_are_refused_at_the_first_bad_octet(self) -> None:
        cases = [
            ("station", True, "SETUPS"),
            ("core", True, "SETUPS"),
            ("phone", False, "PHONE"),
            ("station", False, "STATION"),
            ("core", False, "CORE"),
        ]
        for role, first, name in cases:
            rows = table(name)
            self.assertGreater(len(rows), 15)
            for text, place in rows:
                with self.subTest(role=role, text=text):
                    with self.assertRaises(frames.BadFrame) as refused:
                        frames.read_input(role, first, bytes.fromhex(text)[2:])
                    self.assertEqual(refused.exception.place, place)

    def test_a_core_that_sends_ncc_2_first_has_a_setup_of_its_own(self) -> None:
        body = "0102000000010100000a00000064"
        told = [frames.read_input("core", True, bytes.fromhex(kind + body)) for kind in ("00", "06")]
        self.assertEqual([one.fields.get("first_ncc") for one in told], [None, 2])
        for role, first in (("station", True), ("core", False)):
            with self.assertRaises(frames.BadFrame) as refused:
                frames.read_input(role, first, bytes.fromhex("06" + body))
            self.assertEqual(refused.exception.place, 0)

    def test_replies_of_the_tables_are_read_and_written_again(self) -> None:
        found = re.findall(r'"(00[0-9a-f]{2}80[0-9a-f]+)"', (TESTS / "replies.rt").read_text())
        whole = [text for text in found if int(text[:4], 16) * 2 == len(text) - 4]
        self.assertGreater(len(whole), 20)
        for text in whole:
            with self.subTest(text=text):
                self.assertEqual(frames.read_reply(bytes.fromhex(text)[2:]).spelled().hex(), text)

    def test_answers_are_told_with_their_values(self) -> None:
        rows = {
            "001480050c0000000701020304050607080000000000": "5 (MacFails count=7 wanted=01020304 got=05060708)",
            "000c800304a02020600000000000": "3 (CapsMismatch own=a020 got=2060)",
            "000a80090204090000000000": "9 (BadRecord fault=BadField 9)",
            "00088000000000000000": "0 (done)",
        }
        for text, told in rows.items():
            self.assertEqual(frames.read_reply(bytes.fromhex(text)[2:]).parts()["answer"], told)

    def test_what_differs_is_told(self) -> None:
        done = bytes.fromhex("00088000000000000000")
        self.assertEqual(frames.differences(done, done), [])
        self.assertEqual(
            frames.differences(done, bytes.fromhex("00088001000000000000")),
            ["answer: wanted 0 (done), got 1 (NoContext)"],
        )
        cut = bytes.fromhex("000880000000")
        self.assertEqual(
            frames.differences(done, cut),
            ["what came is not a reply, octet 0: its length and its octets differ: 0008, 4 octets: 000880000000"],
        )
        self.assertIn("what is wanted is not a reply", frames.differences(cut, done)[0])

    def test_a_source_ends_between_frames_or_is_cut(self) -> None:
        self.assertIsNone(frames.read_frame(io.BytesIO(b"")))
        for octets in (b"\0", b"\0\5abc", b"\x10\1" + bytes(4097)):
            with self.assertRaises(frames.BadFrame):
                frames.read_frame(io.BytesIO(octets))


if __name__ == "__main__":
    unittest.main()
