"""The remarks of a scenario that name frames, and the words that read them."""
from __future__ import annotations

import subprocess
import tempfile
import unittest
from pathlib import Path

from lte_sec.runs.messages import nas_name
from lte_sec.runs.remarks import frames_of, named, with_frames

TOP = Path(__file__).resolve().parents[2]
# The ordinary beginning, with frames above some of its steps.
SCENARIO = """# A connection.
phone = { caps = "a020" }
[[station]]
id = 0
cells = [[10, 100]]
[[station]]
id = 1
cells = [[11, 101]]
# frame 7: DownlinkNASTransport: Security mode command
[[step]]
do = "auth"
ksi = 0
kasme = "000102030405060708090a0b0c0d0e0f101112131415161718191a1b1c1d1e1f"
[[step]]
do = "smc"
"""
REST = "".join(
    f"{above}[[step]]\n{step}\n"
    for above, step in [
        ("# frame 8: UplinkNASTransport\n", 'do = "deliver"\nrecord = -1'),
        ("", 'do = "deliver"\nrecord = -1'),
        ("\n", 'do = "connect"\ncell = [10, 100]'),
        *[("", 'do = "deliver"\nrecord = -1')] * 3,
        ("# frame rrc.pcapng:9: a text\n", 'do = "nas"\nfrom = "core"\ntext = "07420149"'),
        ("", 'do = "deliver"\nrecord = -1'),
        ("# frame 12: X2 HandoverRequest\n", 'do = "x2"\nstation = 0\ncell = [11, 101]'),
        ("", 'do = "deliver"\nrecord = -1'),
        ("", 'do = "deliver"\nrecord = -1'),
        ("", 'do = "command"\nstation = 0'),
        *[("", 'do = "deliver"\nrecord = -1')] * 2,
    ]
)


def launched(*words: object, given: str = "") -> subprocess.CompletedProcess[str]:
    return subprocess.run([TOP / "lte_sec", *map(str, words)], input=given, capture_output=True, text=True)


class Remarks(unittest.TestCase):
    def test_a_remark_is_of_the_steps_up_to_an_empty_line(self) -> None:
        frames = frames_of(SCENARIO + REST)
        self.assertEqual(
            frames,
            {
                0: "7",
                1: "7",
                2: "8",
                3: "8",
                8: "rrc.pcapng:9",
                9: "rrc.pcapng:9",
                **{step: "12" for step in range(10, 16)},
            },
        )

    def test_steps_may_be_in_one_line_or_have_quoted_keys(self) -> None:
        text = (
            'step = [\n  # frame 3: a\n  { do = "smc" }, { "do" = "idle" }, # frame 9: not at its beginning\n  # '
            'a remark\n  { do = "nas", from = "core", text = "" },\n]\n'
        )
        self.assertEqual(frames_of(text), {0: "3", 1: "3", 2: "3"})

    def test_a_text_names_frames_beside_its_steps(self) -> None:
        frames = {2: "31", 7: "a.pcapng:4"}
        self.assertEqual(named(2, frames) + named("3", frames), "2[f31]3")
        self.assertEqual(
            with_frames("steps 2 to 7: of step 1 and 2, at step 7; 2 of 7", frames),
            "steps 2[f31] to 7[fa.pcapng:4]: of step 1 and 2[f31], at step 7[fa.pcapng:4]; 2 of 7",
        )
        self.assertEqual(with_frames("step 2", {}), "step 2")

    def test_a_nas_text_is_named_by_its_type(self) -> None:
        self.assertEqual(
            [nas_name(text) for text in ("07420149", "0748", "07", "", "6e6173", "07ff")],
            ["Attach accept", "Tracking area update request", *["NAS text"] * 4],
        )


class Words(unittest.TestCase):
    def setUp(self) -> None:
        told = launched("--program")
        if told.returncode:
            raise unittest.SkipTest(f"the program is not built: {told.stderr.strip()}")
        self.room = tempfile.TemporaryDirectory()
        self.file = Path(self.room.name) / "scenario.toml"
        self.file.write_text(SCENARIO + REST, encoding="utf-8")
        self.addCleanup(self.room.cleanup)

    def test_verdict_names_frames_of_the_scenario(self) -> None:
        report = launched("run", self.file).stdout
        self.assertIn(
            "steps 11[f12] to 15[f12]: phone and station 1 have one key\n",
            launched("verdict", "--scenario", self.file, given=report).stdout,
        )
        self.assertIn("steps 11 to 15: phone and station 1 have one key\n", launched("verdict", given=report).stdout)
        self.assertIn(
            '"first_frame": "12"', launched("verdict", "--json", "--scenario", self.file, given=report).stdout
        )
        missing = launched("verdict", "--scenario", "nowhere", given=report)
        self.assertEqual((missing.returncode, missing.stdout, missing.stderr.count("\n")), (2, "", 1))

    def test_what_if_names_frames_and_nas_texts(self) -> None:
        told = launched("what-if", "--kinds", "lost", self.file).stdout
        self.assertIn("9[frrc.pcapng:9] Attach accept", told)
        self.assertIn("11[f12] X2 Handover Request", told)
        self.assertIn(" 5 Initial Context Setup Request", told)
        self.assertIn("not made [handover of step 14[f12]]", told)
        self.assertIn('"frame": "12"', launched("what-if", "--json", "--kinds", "lost", self.file).stdout)

    def test_audit_names_frames_of_rows(self) -> None:
        plain, framed = (
            launched(*words, self.file).stdout.splitlines() for words in (("audit",), ("audit", "--frames"))
        )
        self.assertEqual([line.partition(" [f")[0] for line in framed], plain)
        self.assertTrue(any(" star(" in line and line.endswith(" [f12]") for line in framed), framed)

    def test_audit_with_frames_refuses_what_is_no_scenario(self) -> None:
        wrong = launched("audit", "--frames", given="phone = 1\n")
        self.assertEqual((wrong.returncode, wrong.stdout), (3, launched("audit", given="phone = 1\n").stdout))

    def test_draw_names_frames_and_nas_texts(self) -> None:
        drawn = launched("draw", "messages", self.file).stdout
        self.assertIn(">11[f12]<", drawn)
        self.assertIn("sends Attach accept", drawn)


if __name__ == "__main__":
    unittest.main()
