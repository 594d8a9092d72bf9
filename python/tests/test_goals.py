"""What-if by goal, by messages, in parts that are files, and from where it was stopped."""
from __future__ import annotations

import itertools
import json
import signal
import subprocess
import tempfile
import time
import unittest
from pathlib import Path

from lte_sec.whatif import resumption as resumed
from lte_sec.whatif.what_if_document import Answer, from_json, lines_of, tellings, to_json
from lte_sec.whatif.named_messages import steps_of
from lte_sec.whatif.goals import lasting
from lte_sec.whatif.variant_lists import Listed, Lists
from lte_sec.common.options import WrongWords
from lte_sec.whatif.outcomes import About
from lte_sec.whatif.study import Variant
from lte_sec.runs.variants import KINDS, Fault

from .studied import EXAMPLES, TOP, called, octets, program, programs

SMALL = EXAMPLES / "run/smc-complete-lost.toml"


def setUpModule() -> None:
    programs()


def sets_of(scenario: str, faults: int, *kinds: str) -> list[Listed]:
    return list(Lists(program("lte_variants"), octets(scenario), kinds or KINDS, False).all(faults, None, 1))


class Goals(unittest.TestCase):
    def test_the_smallest_sets_are_those_that_the_program_lists(self) -> None:
        for scenario, goal, kinds in (
            ("run/ordinary", "stuck", ("lost",)),
            ("run/ordinary", "cut off", ("late",)),
            ("run/smc-complete-lost", "packet lost", KINDS),
            ("run/seven-ahead", "keys differ", ("lost",)),
        ):
            sizes = [[one for one in sets_of(scenario, faults, *kinds) if goal in one.outcomes] for faults in (1, 2)]
            expected = sizes[0] or sizes[1]
            status, out, err = called(
                "--goal", goal, "--up-to", "2", "--kinds", ",".join(kinds), "--json", EXAMPLES / f"{scenario}.toml"
            )
            self.assertEqual(status, int(bool(expected)), err)
            document = json.loads(out)
            sets = [
                tuple(
                    Fault(one["kind"], str(one["step"]), str(one["after"]) if "after" in one else None)
                    for one in each["faults"]
                )
                for each in document["variants"]
            ]
            self.assertEqual(sets, [one.faults for one in expected], f"{scenario} {goal}")
            self.assertEqual(document["goal"]["smallest"], len(expected[0].faults) if expected else None)
            self.assertEqual(document["goal"]["searched"], len(expected[0].faults) if expected else 2)

    def test_smaller_sets_come_first(self) -> None:
        """With each message lost and sent again it is told of two faults what one does not bring."""
        singles = {word for one in sets_of("run/smc-complete-lost", 1) for word in one.outcomes}
        pairs = {word for one in sets_of("run/smc-complete-lost", 2) for word in one.outcomes} - singles
        for word, size in ((next(iter(singles)), 1), *((word, 2) for word in sorted(pairs)[:1])):
            goal = json.loads(called("--goal", word, "--json", SMALL)[1])["goal"]
            self.assertEqual((goal["smallest"], goal["searched"]), (size, size), word)

    def test_of_none_it_says_how_far_it_looked(self) -> None:
        status, out, _ = called(
            "--goal",
            "keys differ",
            "--up-to",
            "2",
            "--kinds",
            "lost",
            "--messages",
            "X2 Handover Request,Path Switch Request Acknowledge",
            EXAMPLES / "run/ordinary.toml",
        )
        lines = out.splitlines()
        self.assertEqual((status, lines[0]), (0, "keys differ: no set of up to 2 faults has it"))
        self.assertTrue(
            lines[-1].startswith("searched: faults (lost) of 3 messages, put in by their order: 3 of 1, 3 of 2"),
            lines[-1],
        )

    def test_many_sets_are_tried_only_if_one_says_so(self) -> None:
        status, out, err = called("--goal", "keys differ", EXAMPLES / "run/ordinary.toml")
        self.assertEqual((status, out.splitlines()[0]), (2, "keys differ: no set of up to 2 faults has it"), err)
        self.assertIn("--yes tries them", err.splitlines()[-1])
        self.assertEqual(
            [lasting(seconds) for seconds in (3, 200, 9000, 400_000)], ["3 seconds", "3 minutes", "2 hours", "5 days"]
        )

    def test_sets_of_more_faults_are_those_that_the_program_lists(self) -> None:
        """Eight messages at most are named; each choice is listed once, in its order, and the shares have all of
        them."""
        steps = ("11", "12", "14", "15", "16", "17")
        for faults in (4, 6):
            lists = Lists(program("lte_variants"), octets("run/ordinary"), ("lost",), False, steps)
            listed = [one.faults for one in lists.all(faults, None, 1)]
            self.assertEqual(listed, sorted(set(listed), key=lambda them: [int(fault.item) for fault in them]))
            self.assertEqual([one.faults for one in lists.all(faults, None, 3)], listed)
            self.assertTrue(
                all(tuple(fault.item for fault in them) in itertools.combinations(steps, faults) for them in listed)
            )
            self.assertEqual(list(lists.messages), [step for step in steps if step in lists.messages])

    def test_many_faults_are_tried_of_eight_messages(self) -> None:
        ordinary = EXAMPLES / "run/ordinary.toml"
        status, _, err = called(
            "--goal",
            "coincidence",
            "--up-to",
            "6",
            "--yes",
            "--kinds",
            "lost",
            "--messages",
            "2,3,5,6,7,11,12,14,15",
            ordinary,
        )
        self.assertEqual(status, 2)
        self.assertIn("are tried of 8 messages at most; name them with --messages", err.splitlines()[-1])
        status, out, err = called(
            "--goal", "coincidence", "--up-to", "8", "--kinds", "lost", "--messages", "2,3,5,6,7,11,12,14", ordinary
        )
        self.assertEqual((status, out.splitlines()[0]), (0, "coincidence: no set of up to 8 faults has it"), err)

    def test_sets_are_saved(self) -> None:
        with tempfile.TemporaryDirectory() as room:
            called("--goal", "stuck", "--kinds", "lost", "--save", room, EXAMPLES / "run/ordinary.toml")
            self.assertEqual(sorted(file.name for file in Path(room).iterdir()), ["lost-2.toml", "lost-3.toml"])

    def test_what_is_wrong_is_told(self) -> None:
        ordinary = EXAMPLES / "run/ordinary.toml"
        for words, line in (
            (["--goal", "x", ordinary], "--goal takes an outcome"),
            (["--goal", "stuck", "--up-to", "9", ordinary], "--up-to is 1 to"),
            (["--goal", "stuck", "--faults", "2", ordinary], "--goal takes no --faults"),
            (["--up-to", "2", ordinary], "are of a search by --goal"),
            (["--messages", "Paging", ordinary], "and not 'Paging'; there are: "),
            (["--resume", "/nowhere/x", ordinary], "cannot be written"),
            (["--resume", "x", "--part", "1/2", ordinary], "--resume takes none of"),
            (["--out", "/nowhere/x", "--kinds", "again", ordinary], "cannot be written"),
        ):
            status, out, err = called(*words)
            self.assertEqual((status, out), (2, ""), err)
            self.assertIn(line, err.splitlines()[-1])


class Messages(unittest.TestCase):
    def test_they_are_named_by_step_or_name(self) -> None:
        there = {"2": "Path Switch Request", "3": "user packet", "9": "Path Switch Request", "11": "NAS text"}
        for wanted, packets, steps in (
            ("path switch request", False, ("2", "9")),
            ("11,2", False, ("2", "11")),
            ("user packet, 9", True, ("3", "9")),
        ):
            self.assertEqual(steps_of(wanted, there, packets), steps)
        with self.assertRaises(WrongWords):
            steps_of("user packet", there, False)

    def test_faults_happen_to_these_alone(self) -> None:
        wanted = {"16", "17"}
        expected = [one for one in sets_of("run/ordinary", 1) if one.faults[0].item in wanted]
        document = json.loads(called("--messages", "16,17", "--json", EXAMPLES / "run/ordinary.toml")[1])
        self.assertEqual(document["counts"]["1"], json.loads(json.dumps(document["counts"]["1"])))
        self.assertEqual(
            (len(document["variants"]), sum(document["counts"]["1"].values())), (len(expected), len(expected))
        )
        self.assertEqual([each["step"] for each in document["messages"]], [16, 17])
        self.assertEqual(document["tried"]["messages"], [16, 17])

    def test_those_whose_fault_comes_to_the_same_stand_in_one_line(self) -> None:
        """Where the worst is that something is not made: the loss of a request is the cause of all that does not follow
        it."""
        lost, messages = {"not made": About("handover of step 14")}, {
            "11": "X2 Handover Request",
            "12": "X2 Handover Request Acknowledge",
            "14": "RRC Reconfiguration",
        }
        variants = [
            Variant((Fault("lost", step),), outcomes)
            for step, outcomes in (("11", lost), ("12", lost), ("14", {"cut off": About(), **lost}))
        ]
        self.assertEqual(
            [line.text for line in tellings(variants, Answer({}, messages))],
            [
                "11 X2 Handover Request, 12 X2 Handover Request Acknowledge lost: not made [handover of step 14]",
                "14 RRC Reconfiguration lost: cut off (here; a phone re-establishes); not made [handover of step 14]",
            ],
        )

    def test_a_limit_of_the_profile_is_a_value_and_no_sentence(self) -> None:
        """Also where only a part is one, and in an answer that was written and read again."""
        for about, is_limited in ((About("x (here)"), False), (About("x (here), y", partly=True), True)):
            answer = Answer({}, {"14": "Handover Command"}, [Variant((Fault("lost", "14"),), {"weaker key": about})])
            for each in (answer, from_json(json.loads(json.dumps(to_json(answer))))):
                told = list(tellings(each.singles, each))
                self.assertEqual([line.is_limited for line in told], [is_limited])
                self.assertEqual(len(list(lines_of(told))), 2 + is_limited)


class Parts(unittest.TestCase):
    def test_the_whole_of_files_is_that_of_one_call(self) -> None:
        words = ["--faults", "2", "--kinds", "lost,again"]
        whole, table = called(*words, "--json", SMALL)[1], called(*words, SMALL)[1]
        for parts in (1, 3, 7):
            with tempfile.TemporaryDirectory() as room:
                files = [Path(room) / f"part.{part}" for part in range(1, parts + 1)]
                for part, file in enumerate(files, 1):
                    self.assertEqual(called(*words, "--part", f"{part}/{parts}", "--out", file, SMALL)[:2], (0, ""))
                self.assertEqual(called("--merge", "--json", *files)[1], whole)
                self.assertEqual(called("--merge", *reversed(files))[1], table)
                self.assertEqual([file.name for file in Path(room).iterdir() if file.name.endswith(".new")], [])

    def test_each_file_that_is_none_of_the_whole_is_named(self) -> None:
        with tempfile.TemporaryDirectory() as room:
            files = [Path(room) / f"part.{part}" for part in range(1, 5)]
            for part, file in enumerate(files, 1):
                called("--kinds", "lost", "--part", f"{part}/4", "--out", file, SMALL)
            files[1].write_bytes(files[1].read_bytes()[:200])
            files[2].unlink()
            called("--kinds", "again", "--part", "4/4", "--out", files[3], SMALL)
            status, _, err = called("--merge", *files)
            self.assertEqual(status, 2)
            for said in (
                f"{files[1]} is cut",
                f"{files[2]} is not there",
                f"{files[3]} is of another scenario or other options",
                "missing: 2/4, 3/4, 4/4",
            ):
                self.assertIn(said, err)
            document = json.loads(files[0].read_text()) | {"version": 9}
            files[0].write_text(json.dumps(document))
            self.assertIn("is of version 9", called("--merge", files[0])[2])

    def test_it_goes_on_where_it_was_stopped(self) -> None:
        words = ["--faults", "2", "--kinds", "lost,again", SMALL]
        whole = called("--json", *words)[1]
        with tempfile.TemporaryDirectory() as room:
            file = Path(room) / "kept"
            self.assertEqual(called("--json", "--resume", file, *words)[1], whole)
            lines = file.read_bytes().splitlines(keepends=True)
            self.assertEqual(len(lines), resumed.PARTS)
            file.write_bytes(b"".join(itertools.islice(lines, 0, None, 2))[:-50])
            self.assertEqual(called("--json", "--resume", file, *words)[1], whole)
            status, _, err = called("--resume", file, "--kinds", "late", SMALL)
            self.assertEqual((status, "is of another scenario or other options" in err), (2, True), err)

    def test_interrupted_it_keeps_what_is_done(self) -> None:
        with tempfile.TemporaryDirectory() as room:
            file = Path(room) / "kept"
            call = subprocess.Popen(
                [TOP / "lte_sec", "what-if", "--faults", "2", "--resume", file, SMALL],
                stdout=subprocess.PIPE,
                stderr=subprocess.PIPE,
                text=True,
                start_new_session=True,
                preexec_fn=lambda: signal.signal(signal.SIGINT, signal.SIG_DFL),
            )
            while call.poll() is None and (not file.exists() or file.read_bytes().count(b"\n") < 3):
                time.sleep(0.05)
            call.send_signal(signal.SIGINT)
            _, err = call.communicate(timeout=600)
            self.assertNotIn("Traceback", err)
            if call.returncode == 130:
                self.assertIn("the same call goes on from there", err)
            self.assertEqual(called("--faults", "2", "--resume", file, SMALL)[1], called("--faults", "2", SMALL)[1])


if __name__ == "__main__":
    unittest.main()
