"""What is told of a reply that differs, and the variables of commands."""
import os
import sys
import unittest
from unittest import mock

from lte_sec.drive import differences, drive_options, drive_word as drive, frames, patient
from lte_sec.common import ending
from lte_sec.common.options import WrongWords

DONE = "00088000000000000000"


def told_of(line: bytes, whose: bytes, rest: bytes) -> list[str]:
    found = differences.difference_of(line, whose, rest)
    return found.lines() if found else []


class Drive(unittest.TestCase):
    def test_a_reply_of_the_same_length_is_in_the_line(self) -> None:
        line = f"3 differs {DONE} 00088001000000000000\n".encode()
        self.assertEqual(told_of(line, b"core", b""), ["step 3, core: answer: wanted 0 (done), got 1 (NoContext)"])

    def test_one_of_another_length_is_read_as_far_as_its_length_says(self) -> None:
        got = bytes.fromhex("001480050c0000000701020304050607080000000000")
        line = f"setup differs {DONE} {got[:2].hex()}\n".encode()
        self.assertEqual(
            told_of(line, b"station 1", got[2:] + b"more"),
            ["setup, station 1: answer: wanted 0 (done), got 5 (MacFails count=7 wanted=01020304 got=05060708)"],
        )

    def test_one_that_is_cut_is_told_as_it_came(self) -> None:
        told = told_of(f"7 differs {DONE} 0014\n".encode(), b"phone", b"\x80")
        self.assertEqual(len(told), 1)
        self.assertTrue(
            told[0].startswith("step 7, phone: what came is not a reply, octet ") and told[0].endswith(": 001480")
        )

    def test_a_core_one_pair_ahead_may_keep_the_standard(self) -> None:
        def line(wanted: frames.Reply, got: frames.Reply) -> bytes:
            return f"16 differs {wanted.spelled().hex()} {got.spelled().hex()}\n".encode()

        def chained(ncc: int) -> frames.Reply:
            return frames.Reply(derived=(bytes(32),), note=frames.Note(ncc, differences.CHAINED, bytes(32)))

        begun = frames.Reply(derived=(bytes(32),), note=frames.Note(0, differences.INITIAL, bytes(32)))
        kept = frames.Reply(derived=(bytes(32), bytes(32)), note=begun.note)
        for wanted, got in ((chained(1), chained(2)), (begun, kept)):
            self.assertIn(f"step 16, core: {differences.STANDARD}", told_of(line(wanted, got), b"core", b""))
            self.assertNotIn(differences.STANDARD, "".join(told_of(line(wanted, got), b"station 0", b"")))
            self.assertNotIn(differences.STANDARD, "".join(told_of(line(got, wanted), b"core", b"")))

    def test_the_document_has_the_report_and_what_differs(self) -> None:
        found = differences.difference_of(f"3 differs {DONE} 00088001000000000000\n".encode(), b"core", b"")
        told = {
            "version": 1,
            "status": 8,
            "report": ["0 both done"],
            "differs": {"step": 3, "actor": "core", "told": ["answer: wanted 0 (done), got 1 (NoContext)"]},
            "failed": None,
        }
        self.assertEqual(told, drive.document(8, ["0 both done"], found, None))
        self.assertIsNone(drive.document(0, [], None, None)["differs"])

    def test_commands_become_variables_with_a_word_in_each_line(self) -> None:
        with mock.patch("shutil.which", lambda name: f"/bin/{name}"):
            found = drive_options.DriveOptions.read(
                ["--phone", "actor 'two words'", "--station", "3=actor", "--station", "any", "--core", "a b"]
            ).more
        self.assertEqual(
            found,
            {
                "LTE_SEC_PHONE": "/bin/actor\ntwo words",
                "LTE_SEC_STATION_3": "/bin/actor",
                "LTE_SEC_STATION": "/bin/any",
                "LTE_SEC_CORE": "/bin/a\nb",
            },
        )

    def test_an_actor_that_failed_is_told_with_its_step_and_how(self) -> None:
        for program, told, report in (
            (
                "print('0 both done\\n1 core done', flush=True)",
                "step 1, station 3: it closed the connection before it gave a whole reply",
                ["0 both done"],
            ),
            ("pass", "setup, station 3: it closed the connection before it gave a whole reply", []),
        ):
            fails = "import sys; sys.stderr.write('lte_sec: station 3: it gave no whole reply: ..\\n'); sys.exit(6)"
            driven = drive.Driven([sys.executable, "-c", f"{program}\n{fails}"], {}, True)
            with mock.patch("lte_sec.drive.drive_word.put") as said:
                self.assertEqual((6, told, report), (driven.run(), driven.failure(), driven.report))
                driven.tell()
            self.assertEqual(
                {
                    "step": driven.step(),
                    "actor": "station 3",
                    "how": "it closed the connection before it gave a whole reply",
                },
                driven.fault(),
            )
            said.assert_called_once_with(2, f"lte_sec: {told}\n".encode())
            assert driven.process.stderr
            driven.process.stderr.close()
            driven.failed_at = driven.read_last + drive.PATIENCE
            self.assertIn("it was silent for 10 seconds", driven.failure())

    def test_a_report_that_cannot_be_written_is_status_5_also_where_the_program_ended_before(self) -> None:
        for lines in ("0 both done", "0 both done\\n1 core done"):
            run = drive.Run([sys.executable, "-c", f"print('{lines}')"], drive_options.DriveOptions({}))
            with mock.patch("lte_sec.drive.drive_word.put", side_effect=OSError):
                self.assertEqual(ending.WRITING, drive.answered(run))
            assert run.driven and run.driven.process.stderr
            run.driven.process.stderr.close()

    def test_an_actor_that_did_not_start_is_in_the_document(self) -> None:
        fails = "import sys; sys.stderr.write('lte_sec: core: its program did not start\\n'); sys.exit(6)"
        driven = drive.Driven([sys.executable, "-c", fails], {}, True)
        with mock.patch("lte_sec.drive.drive_word.put"):
            self.assertEqual(
                (6, {"step": None, "actor": "core", "how": "its program did not start"}), (driven.run(), driven.fault())
            )
        assert driven.process.stderr
        driven.process.stderr.close()

    def test_the_words_of_a_call(self) -> None:
        found = drive_options.DriveOptions.read(["--timeout", "2.5", "--phone", sys.executable, "--json"])
        self.assertEqual(
            (2.5, True, [sys.executable]), (found.seconds, found.is_json, found.more["LTE_SEC_PHONE"].split("\n"))
        )
        for word in ("0", "-1", "soon"):
            self.assertRaisesRegex(
                WrongWords,
                "--timeout needs a number of seconds above 0",
                drive_options.DriveOptions.read,
                ["--timeout", word],
            )

    def test_frames_are_counted_as_they_come(self) -> None:
        frames_of = patient.Frames()
        counts = []
        for piece in (b"\0", b"\2a", b"b\0\0\0", b"\1", b"c"):
            frames_of.take(piece)
            counts.append(frames_of.count)
        self.assertEqual(([0, 0, 2, 2, 3], b"\0\2ab\0\0\0\1c"), (counts, bytes(frames_of.octets)))

    def test_commands_are_those_of_the_stations_of_the_scenario(self) -> None:
        octets = (
            b'phone = { caps = "a020" }\nstation = [{ id = 1, cells = [[10, 100]] }, { id = 4, cells = [[11, 100]] }]\n'
        )
        self.assertEqual(
            {"station 1": ["any"], "station 4": ["own", "x"], "core": ["c"]},
            drive.commands(
                {
                    "LTE_SEC_STATION": "any",
                    "LTE_SEC_STATION_4": "own\nx",
                    "LTE_SEC_STATION_5": "no",
                    "LTE_SEC_CORE": "c",
                },
                octets,
            ),
        )
        self.assertEqual({}, drive.commands({"LTE_SEC_CORE": "c"}, b"phone = "))

    def test_a_command_for_a_station_that_the_scenario_lacks_is_told(self) -> None:
        octets = (
            b'phone = { caps = "a020" }\nstation = [{ id = 1, cells = [[10, 100]] }, { id = 4, cells = [[11, 100]] }]\n'
        )
        drive.has_stations({"LTE_SEC_STATION_4": "x", "LTE_SEC_STATION": "y", "LTE_SEC_PHONE": "z"}, octets)
        with self.assertRaisesRegex(WrongWords, "^--station 5=CMD: the scenario has no station 5, but 1 and 4$"):
            drive.has_stations({"LTE_SEC_STATION_5": "x"}, octets)
        for text in (
            b"",
            b"station = 3",
            b"phone = ",
            b"station = [{ cells = [[10, 100]] }]",
            b"\xff",
        ):  # the program says what is wrong
            drive.has_stations({"LTE_SEC_STATION_5": "x"}, text)
        self.assertEqual(
            ["none", "0", "0 and 1", "0, 1 and 2"], [drive.listed([*map(str, range(count))]) for count in range(4)]
        )

    def test_a_refused_text_has_its_reason_in_the_document(self) -> None:
        with mock.patch.object(drive, "refusal", lambda *_: "line 1, column 1: why"):
            self.assertEqual(
                {"error": "line 1, column 1: why", "status": 3, "report": ["refused text"]},
                drive.no_answer(3, ["refused text"], "a program", b""),
            )
        with mock.patch.object(drive, "refusal", lambda *_: ""):
            self.assertEqual("refused text", drive.no_answer(3, ["refused text"], "a program", b"")["error"])
        self.assertEqual(
            {"error": "memory ran out", "status": 1, "report": []}, drive.no_answer(1, [], "a program", b"")
        )

    def test_the_program_is_given_the_whole_scenario(self) -> None:
        run = drive.Run(
            [sys.executable, "-c", "import sys; print(len(sys.stdin.read()))"],
            drive_options.DriveOptions({}, True),
            b"x" * 100_000,
        )
        with mock.patch("lte_sec.drive.drive_word.put"):
            status, driven = run.run()
            driven.tell()
        self.assertEqual((0, ["100000"]), (status, driven.report))
        assert driven.process.stderr
        driven.process.stderr.close()

    def test_an_actor_outlives_the_program_that_stops_it(self) -> None:
        self.assertEqual(
            {"LTE_SEC_PHONE": '/bin/sh\n-c\n"$@" & wait\nsh\n/bin/a\nb'},
            drive.outliving({"LTE_SEC_PHONE": "/bin/a\nb"}),
        )

    def test_wrong_commands_are_told(self) -> None:
        for command in ("", "'", "no-such-program-anywhere", "a\nb"):
            with self.assertRaises(WrongWords):
                drive_options.variable("--core", command)

    def test_a_station_that_cannot_be_is_told_with_those_that_can(self) -> None:
        for command in ("8=cat", "10=cat", "12=cat", "9=python3 actor.py"):
            self.assertRaisesRegex(
                WrongWords,
                "there is no station .*: --station N=CMD takes N 0 to 7",
                drive_options.variable,
                "--station",
                command,
            )

    def test_a_path_is_made_whole(self) -> None:
        with mock.patch("shutil.which", lambda name: name):
            self.assertEqual(drive_options.variable("--phone", "./a"), ("LTE_SEC_PHONE", os.path.abspath("a")))


if __name__ == "__main__":
    unittest.main()
