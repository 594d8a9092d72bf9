"""Captures replayed: every key of what keeps the standard comes out of the program, and each planted fault is told
first at its frame."""
from __future__ import annotations

import contextlib
import copy
import io
import json
import os
import stat
import subprocess
import tempfile
import unittest
from collections import Counter
from pathlib import Path
from unittest import mock

from lte_sec.replay import replay_word as replay
from lte_sec.traces import trace_words as words
from lte_sec.captures.capture_files import read
from lte_sec.captures.cells import Cells, Site, read_cells
from lte_sec.replay.comparison import ReplayVerdict
from lte_sec.captures.decoding import Message
from lte_sec.judge.reading import check
from lte_sec.replay.recording import record
from lte_sec.runs.remarks import frames_of
from lte_sec.runs.scenarios import table_of
from lte_sec.common.terms import Derivations, Kasme
from lte_sec.replay.replay_answer import ReplayedCapture, scenario_of

from . import simulated
from .lost_answers import made
from .simulated import CALLS, CELLS, Phone, World
from .situations import KASMES as SITUATED
from .sound_worlds import KASMES, SOUND
from .test_simulated import BROKEN
from .test_situations import SITUATIONS

TOP = Path(__file__).resolve().parents[2]
TRACES = TOP / "examples" / "traces"
PROGRAM = ""
EVERY = bool(os.environ.get("EVERY_PLACE"))
KASME = "e61a3129c8e399d6dd3cec512a9c671da2004c5e8e780d3df853bb3055ee7cba"
# Of captures with known truth the status, and how many keys are the same, differ and are not replayed.
CAPTURES = {
    "A": (0, 6, 0, 0),
    "B1-star-earfcn": (1, 5, 1, 0),
    "B2-nh-twice": (1, 4, 2, 0),
    "C": (0, 13, 0, 0),
    "A-1-1": (0, 6, 0, 0),
    "C-3-3": (0, 13, 0, 0),
    "lost-answers": (0, 15, 0, 0),
}
# Of worlds that keep the standard those whose keys are not all replayed, with a part of the reason.
NOT_ALL = {
    "seven lost answers": "the run refuses its step: NoUe",
    "suspended and resumed": "suspension and resumption",
    "suspended and resumed without NH": "suspension and resumption",
    "resumed in another cell of the station": "suspension and resumption",
    "resumed at another station": "suspension and resumption",
    "a KASME that is not given": "no KASME that was given fits",
    "a key change to a KASME that is not given": "no KASME that was given fits",
    "both lost, of a KASME that is not given": "no KASME that was given fits",
    "a short MAC that fits by chance": "no KASME that was given fits",
    "plain where it may be": "",
    "EIA0": "",
}
# Of worlds with a fault those whose keys are all the same: the fault is in a command or a MAC.
NO_KEY = {
    "another NCC in the command",
    "another cell in the command",
    "another cell in the command over S1",
    "another NCC over the air",
    "a MAC of another KASME",
    "a Complete with another header type",
    "a COUNT used twice",
    "COUNT without its overflow",
}


def setUpModule() -> None:
    global PROGRAM
    told = subprocess.run([TOP / "lte_sec", "--program"], capture_output=True, text=True)
    if told.returncode:
        raise unittest.SkipTest(f"the program is not built: {told.stderr.strip()}")
    PROGRAM = told.stdout.split()[1]


def answer_of(
    messages: list[Message], kasmes: list[Kasme], cells: list[Site], budget: int = 4_000, texts: bool = True
) -> ReplayedCapture:
    return replay.replayed(
        PROGRAM,
        record(check(Derivations(CALLS, kasmes), Cells(cells), copy.deepcopy(messages), budget)),
        ["capture"],
        texts,
    )


def capture(name: str) -> tuple[list[Message], list[Kasme], list[Site]]:
    file = TRACES / f"{name}.truth.json"
    kasmes = [Kasme("ue", bytes.fromhex(KASME))]
    if file.exists():
        kasmes = [
            Kasme(one["name"], bytes.fromhex(one["hex"]))
            for one in json.loads(file.read_text(encoding="utf-8"))["kasme"]
        ]
    return list(read(TRACES / f"{name}.json.gz")), kasmes, read_cells(TRACES / f"{name}.cells.txt")


def named(kasmes: list[bytes]) -> list[Kasme]:
    return [Kasme(f"k{place}", kasme) for place, kasme in enumerate(kasmes)]


def differing(answer: ReplayedCapture) -> list[str]:
    return [one.frame for one in answer.told() if one.verdict == ReplayVerdict.DIFFERS]


def called(*given: object) -> tuple[int, str, str]:
    """The status, the output and what is said of a call in this process."""
    out, err = io.StringIO(), io.StringIO()
    with contextlib.redirect_stdout(out), contextlib.redirect_stderr(err), mock.patch.object(
        words, "proved_calls", lambda: CALLS
    ):
        status = replay.main([PROGRAM, *map(str, given)])
    return status, out.getvalue(), err.getvalue()


class Captures(unittest.TestCase):
    def test_each_key_of_the_captures_comes_out_of_the_program(self) -> None:
        for name, (status, *counts) in CAPTURES.items():
            messages, kasmes, cells = capture(name)
            for known in (True, False):
                with self.subTest(name, cells=known):
                    answer = answer_of(messages, kasmes, cells if known else [])
                    self.assertEqual(
                        (answer.status(), *answer.counts().values()), (status, *counts), "\n".join(answer.lines())
                    )

    def test_a_fault_is_told_with_what_follows_it(self) -> None:
        lines = list(answer_of(*capture("B2-nh-twice")).lines())
        self.assertIn(
            (
                "frame 38 PathSwitchRequestAcknowledge NH differs: the capture has nh(2) "
                "NCC 2, the run nh(3) NCC 3 (step 29)"
            ),
            lines,
        )
        self.assertIn(
            (
                "frame 41 HandoverRequest NH differs: the capture has nh(3) NCC 3, the run nh(4) NCC 4 (step 33); it "
                "follows from frame 38"
            ),
            lines,
        )
        self.assertEqual(lines[-1], "4 same, 2 differ, 0 not replayed")

    def test_a_bit_of_a_key_or_ncc_is_told_first_at_its_frame(self) -> None:
        for name in ("A", "C"):
            messages, kasmes, cells = capture(name)
            for place, message in enumerate(messages):
                for part in ("key", "nh", "ncc"):
                    value = getattr(message, part)
                    if value is None:
                        continue
                    turned = copy.deepcopy(messages)
                    setattr(turned[place], part, value ^ 1 if part == "ncc" else bytes([value[0] ^ 1]) + value[1:])
                    with self.subTest(name, frame=message.frame, part=part):
                        found = differing(answer_of(turned, kasmes, cells))
                        self.assertEqual(min(found, key=int), message.frame)

    def test_messages_left_out_make_no_difference(self) -> None:
        statuses: Counter[int] = Counter()
        for name in ("A", "C"):
            messages, kasmes, cells = capture(name)
            for size in (1, 2):
                for begin in range(0, len(messages) - size + 1, 1 if EVERY else 7):
                    answer = answer_of(messages[:begin] + messages[begin + size :], kasmes, cells if begin % 2 else [])
                    statuses[answer.status()] += 1
                    self.assertEqual(differing(answer), [], (name, size, begin, list(answer.lines())))
        self.assertGreater(statuses[0], 20 * statuses[3])

    def test_a_capture_that_begins_midway_makes_no_difference(self) -> None:
        statuses: Counter[int] = Counter()
        for name in ("A", "C"):
            messages, kasmes, cells = capture(name)
            for begin in range(1, len(messages), 1 if EVERY else 9):
                answer = answer_of(messages[begin:], kasmes, cells if begin % 2 else [], 100_000)
                statuses[answer.status()] += 1
                self.assertEqual(differing(answer), [], (name, begin, list(answer.lines())))
        self.assertGreater(statuses[0], 2 * statuses[3])

    def test_the_capture_with_lost_answers_is_what_is_made_of_the_other(self) -> None:
        self.assertEqual((TRACES / "lost-answers.pcapng").read_bytes(), made())


class Worlds(unittest.TestCase):
    def test_what_keeps_the_standard_is_never_another_key(self) -> None:
        worlds = {name: (world(), named(KASMES), 20_000) for name, world in SOUND.items()}
        worlds |= {
            name: (one.sound(), [Kasme(f"k{place}", SITUATED[place]) for place in one.kasmes], 4_000)
            for name, one in SITUATIONS.items()
        }
        for name, (world, kasmes, budget) in worlds.items():
            with self.subTest(name):
                answer = answer_of(world.messages, kasmes, CELLS, budget)
                lines = "\n".join(answer.lines())
                self.assertEqual(answer.status(), 3 if name in NOT_ALL else 0, lines)
                self.assertIn(NOT_ALL.get(name, ""), lines)

    def test_each_fault_of_a_key_is_told_first_at_its_frame(self) -> None:
        for name, (planted, _) in BROKEN.items():
            with self.subTest(name):
                world = planted()
                answer = answer_of(world.messages, named(KASMES), CELLS, 20_000)
                self.assertEqual(
                    differing(answer)[:1], [] if name in NO_KEY else world.faults, "\n".join(answer.lines())
                )

    def test_the_worlds_with_a_fault_in_a_situation_tell_none_before_it(self) -> None:
        for name, one in SITUATIONS.items():
            with self.subTest(name):
                world = one.broken()
                answer = answer_of(world.messages, [Kasme(f"k{place}", SITUATED[place]) for place in one.kasmes], CELLS)
                self.assertLessEqual(set(differing(answer)[:1]), set(world.faults), "\n".join(answer.lines()))

    def test_what_is_assumed_has_a_line_and_a_remark(self) -> None:
        answer = answer_of(SOUND["six lost answers"]().messages, named(KASMES), CELLS)
        assumed = [line for line in answer.lines() if line.startswith("assumed: ")]
        self.assertEqual(len(assumed), 6)
        self.assertIn("assumed: frame 9: its answer is not in the capture, and is taken as lost", assumed)
        text = scenario_of(answer, answer.parts[0])
        for line in assumed:
            self.assertIn(f"# {line}\n", text)

    def test_eight_steps_ahead_is_told_where_the_run_refuses(self) -> None:
        lines = list(answer_of(SOUND["seven lost answers"]().messages, named(KASMES), CELLS).lines())
        self.assertTrue(any("is refused here: MacFails" in line for line in lines), lines)

    def test_a_network_of_twenty_stations_has_several_scenarios(self) -> None:
        cells = [Site(0x10000 + 256 * place + 1, 10 + place, 100 + place, None, f"enb{place}") for place in range(20)]
        ends = {site.station: f"10.1.0.{place}:36412" for place, site in enumerate(cells)}
        with mock.patch.object(simulated, "CELLS", cells), mock.patch.dict(simulated.ENDS, ends):
            world, phone = World(), Phone("phone", KASMES[0])
            world.attach(phone, cells[0].eci)
            for turn in range(1, 45):
                if turn % 5:
                    world.x2(phone, cells[7 * turn % 20].eci)
                else:
                    world.s1(phone, cells[7 * turn % 20].eci)
                if turn == 30:
                    world.again(phone, cells[3].eci)
        answer = answer_of(world.messages, named(KASMES), cells)
        lines = list(answer.lines())
        self.assertEqual(answer.status(), 0, lines)
        self.assertGreater(len(answer.parts), 3)
        self.assertTrue(any("from here on another scenario" in line for line in lines))
        for part in answer.parts:
            self.assertLessEqual(len(table_of(scenario_of(answer, part).encode())["station"]), 8)

    def test_a_thousand_handovers_take_one_run(self) -> None:
        world, phone = World(), Phone("phone", KASMES[0])
        world.attach(phone, CELLS[0].eci)
        for turn in range(1_000 if EVERY else 200):
            world.x2(phone, CELLS[(0, 1, 3)[(turn + 1) % 3]].eci)
        answer = answer_of(world.messages, named(KASMES), CELLS)
        self.assertEqual((answer.status(), answer.parts[0].done.course.runs), (0, 1))


class Words(unittest.TestCase):
    def test_scenarios_are_saved_and_run(self) -> None:
        with tempfile.TemporaryDirectory() as room:
            status, out, said = called(
                "--save",
                room,
                "--cells",
                TRACES / "C.cells.txt",
                TRACES / "C.json.gz",
                *(f"{one.name}={one.value.hex()}" for one in capture("C")[1]),
            )
            self.assertEqual(status, 0)
            self.assertIn("13 same, 0 differ, 0 not replayed", out)
            self.assertIn("KASME in it", said)
            files = sorted(Path(room).iterdir())
            self.assertEqual([file.name for file in files], ["phone-1.toml", "phone-2.toml"])
            for file in files:
                self.assertEqual(stat.S_IMODE(file.stat().st_mode), 0o600)
                text = file.read_text(encoding="utf-8")
                self.assertEqual(
                    subprocess.run([PROGRAM, "run"], input=text.encode(), capture_output=True).returncode, 0
                )
                self.assertEqual(sorted(frames_of(text)), list(range(len(table_of(text.encode())["step"]))))

    def test_one_scenario_is_printed_with_or_without_texts(self) -> None:
        given = "--cells", TRACES / "A.cells.txt", TRACES / "A.json.gz", KASME
        _, out, _ = called("--phone", 1, *given)
        _, bare, said = called("--phone", 1, "--no-texts", *given)
        texts, zeros = (
            [step["text"] for step in table_of(one.encode())["step"] if step["do"] == "nas"] for one in (out, bare)
        )
        self.assertTrue(any("696e7465726e6574" in text for text in texts))
        self.assertEqual([len(text) for text in texts], [len(text) for text in zeros])
        self.assertEqual(set("".join(zeros)), {"0"})
        self.assertIn("zeros", said)

    def test_the_document_has_what_the_lines_have(self) -> None:
        status, out, _ = called("--json", TRACES / "B1-star-earfcn.json.gz", KASME)
        document = json.loads(out)
        self.assertEqual(
            (status, document["version"], document["status"], document["summary"]),
            (1, 1, 1, {"same": 5, "differ": 1, "not replayed": 0}),
        )
        self.assertEqual(set(document), {"version", "phones", "others", "summary", "status"})
        phone = document["phones"][0]
        self.assertEqual(set(phone), {"phone", "kasmes", "file", "steps", "keys", "assumed", "refused"})
        wrong = next(key for key in phone["keys"] if key["verdict"] == "differs")
        self.assertEqual(
            (wrong["frame"], wrong["what"], wrong["is"], wrong["run"], wrong["step"]),
            ("34", "KeNB*", "star(nh(2),10,6300)", "star(nh(2),10,100)", 23),
        )

    def test_wrong_words_have_one_line(self) -> None:
        trace = str(TRACES / "A.json.gz")
        wrong: list[list[str]] = [
            [],
            [trace],
            ["nowhere.json", KASME],
            ["--phone", "7", trace, KASME],
            ["--colour", trace, KASME],
        ]
        for given in wrong:
            status, out, said = called(*given)
            self.assertEqual((status, out, said.count("\n")), (2, "", 1), said)
            self.assertIn("lte_sec: status 2: replay: ", said)

    def test_a_capture_without_a_known_key_is_not_replayed(self) -> None:
        status, out, _ = called(TRACES / "A.json.gz", "ab" * 32)
        self.assertEqual(status, 3)
        self.assertIn("NH not replayed: no KASME that was given fits", out)


if __name__ == "__main__":
    unittest.main()
