"""What-if: variants, their lines, and the answers of the word, against the proved program."""
from __future__ import annotations

import contextlib
import io
import json
import signal
import subprocess
import tempfile
import unittest
import unittest.mock
import xml.dom.minidom
from pathlib import Path
from typing import Any

from lte_sec.whatif import what_if_word as what_if
from lte_sec.whatif.what_if_document import Answer, from_json, merged, ranges, table, to_json
from lte_sec.runs.courses import ProgramFails
from lte_sec.whatif.healing import Heals
from lte_sec.whatif.variant_lists import Lists, Sending, order, variant_of
from lte_sec.whatif.outcomes import NOT_TOLD, RANK, WORDS, About
from lte_sec.whatif.probe import AGAIN, opens
from lte_sec.whatif.study import Variant
from lte_sec.runs.variants import KINDS, Fault

from .studied import EXAMPLES, TOP, called, launched, listed, octets, program, programs, study, told

# What heals behind a scenario: by what, how many events, and why nothing does.
HEALED = {
    "run/ordinary": ("reconnection", 7, None),
    "run/eight-ahead": ("reconnection", 7, None),
    "procedures/count-out-of-reach": ("authentication", 11, None),
    "worked/last-number": (None, None, "station 0 NumberSpent"),
}


def setUpModule() -> None:
    programs()


class Lines(unittest.TestCase):
    """What the program lists, by the kinds of its lines."""

    def test_each_message_has_each_fault_at_each_place(self) -> None:
        found = listed(octets("run/ordinary"))
        faults = {
            kind: [one.faults[0].after for one in found if one.faults[0].kind == kind and one.faults[0].item == "18"]
            for kind in KINDS
        }
        places = [str(step) for step in range(18, 27)]
        self.assertEqual(faults, {"lost": [None], "late": places[1:], "twice": places, "again": []})
        self.assertEqual(len({one.faults for one in found}), len(found))
        self.assertEqual(found, sorted(found, key=order))

    def test_shares_have_each_choice_once(self) -> None:
        scenario = octets("run/two-preparations")
        whole = listed(scenario)
        for part, jobs in (((1, 1), 3), ((2, 3), 1), ((2, 3), 4)):
            found = list(Lists(program("lte_variants"), scenario, KINDS, False).all(1, part, jobs))
            self.assertEqual(found, whole[part[0] - 1 :: part[1]], f"{part} {jobs}")

    def test_lines_are_read(self) -> None:
        for line, faults, outcomes, heals, sending in (
            (
                "lost 9: stuck; not made, heals authentication",
                (Fault("lost", "9"),),
                ("stuck", "not made"),
                Heals("authentication"),
                None,
            ),
            (
                "late 9 12, again 14: same, heals nothing",
                (Fault("late", "9", "12"), Fault("again", "14")),
                ("same",),
                Heals(None),
                None,
            ),
            (
                "lost 9: cut off, heals reconnection, serving 1, sent 0110",
                (Fault("lost", "9"),),
                ("cut off",),
                Heals("reconnection"),
                Sending(1, "0110"),
            ),
            ("lost 9: coincidence, serving 0, sent ", (Fault("lost", "9"),), ("coincidence",), None, Sending(0)),
            ("lost 9: coincidence", (Fault("lost", "9"),), ("coincidence",), None, None),
        ):
            self.assertEqual(variant_of(line), (faults, outcomes, heals, sending))
        lists = Lists("", b"", KINDS, False)
        lines = [
            "scenario 27 2 serving 1 heals reconnection",
            "message 9 X2 Handover Request",
            "lost 9: same, heals reconnection",
            "end 1",
        ]
        self.assertEqual([variant.outcomes for variant in lists.variants(iter(lines))], [("same",)])
        self.assertEqual(
            (lists.serving, lists.heals, lists.messages), (1, Heals("reconnection"), {"9": "X2 Handover Request"})
        )
        with self.assertRaises(ProgramFails):
            list(lists.variants(iter([*lines[:-1], "end 2"])))

    def test_steps_in_a_row_stand_together(self) -> None:
        self.assertEqual(ranges([10, 11, 12, 14, 15, 17], {12: "7"}), "10 to 12[f7], 14, 15, 17")

    def test_a_place_that_is_not_run_is_as_the_one_before(self) -> None:
        alike = 0
        for name in ("run/ordinary", "run/lost-answer", "what-if/release-and-service"):
            whole, before = study(name), None
            for each in listed(octets(name), "late", "twice"):
                tried = whole.tried(each.faults, each.sending)
                if (
                    before
                    and before.variant.faults[0].item == each.faults[0].item
                    and whole.is_alike(before.variant.faults[0], each.faults[0], before.course)
                ):
                    alike += 1
                    self.assertEqual(told(tried.course), told(before.course), f"{each.faults}")
                before = tried
        self.assertGreater(alike, 500)

    def listed_otherwise(self, line: str) -> tuple[int, dict[str, Any], str]:
        """The status, the document and what is said where the program lists this in place of its line for `lost 3`."""
        with tempfile.TemporaryDirectory() as room:
            wrong = Path(room) / "wrong"
            wrong.write_text(
                f"#!/bin/sh\n'{program('lte_variants')}' \"$@\" | sed 's/^lost 3: [^,]*/lost 3: {line}/'\n"
            )
            wrong.chmod(0o700)
            out, err = io.StringIO(), io.StringIO()
            with contextlib.redirect_stdout(out), contextlib.redirect_stderr(err):
                status = what_if.main(
                    [program("lte_sec_app"), str(wrong), "--jobs", "1", "--json", str(EXAMPLES / "run/wrong-ksi.toml")]
                )
        return status, json.loads(out.getvalue()), err.getvalue()

    def test_what_heals_is_told(self) -> None:
        found = {
            name: json.loads(launched("--json", "--kinds", "lost", EXAMPLES / f"{name}.toml").stdout) for name in HEALED
        }
        self.assertEqual(
            {
                name: (document["heals"]["by"], document["heals"]["events"], document["heals"]["reason"])
                for name, document in found.items()
            },
            HEALED,
        )
        document = found["run/ordinary"]
        self.assertEqual({one["heals"]["by"] for one in document["variants"]}, {"reconnection", "authentication"})
        answer = from_json(document)
        self.assertEqual(to_json(answer), document)
        lines = list(table(answer))
        self.assertTrue(
            all(line.endswith("; heals: authentication, 11 events") for line in lines if " lost: stuck" in line)
        )
        self.assertTrue(
            any(line.endswith("; heals: reconnection, 7 events") for line in lines if " lost: cut off" in line)
        )
        self.assertIn("; heals: no (station 0 NumberSpent)", "\n".join(table(from_json(found["worked/last-number"]))))

    def test_what_heals_is_what_its_own_run_shows(self) -> None:
        found = set()
        for name in ("run/key-change", "procedures/count-out-of-reach", "worked/last-number", "run/complete-lost"):
            whole = study(name)
            for each in listed(octets(name), "lost"):
                tried = whole.tried(each.faults)
                again = opens(tried.course, "again arrives", AGAIN)
                anew = (
                    whole.prober.refusal(
                        whole.faults.put_all(each.faults) or [],
                        whole.usual,
                        tried.course.sends(),
                        Sending(tried.serving),
                    )
                    is None
                )
                self.assertEqual(
                    each.heals,
                    Heals("reconnection" if again else "authentication" if anew else None),
                    f"{name} {each.faults}",
                )
                found.add(each.heals)
        self.assertEqual(found, {Heals("reconnection"), Heals("authentication"), Heals(None)})

    def test_a_variant_whose_own_run_has_other_outcomes_is_marked(self) -> None:
        status, document, said = self.listed_otherwise("stuck")
        self.assertEqual(
            (status, said.splitlines()[-1]),
            (6, "lte_sec: status 6: 1 variant has other outcomes by its own run, told beside"),
        )
        marked = [one for one in document["variants"] if "by_run" in one]
        self.assertEqual(
            [(one["faults"][0]["step"], one["outcomes"][0]["is"], one["by_run"]) for one in marked],
            [(3, "stuck", ["goes on"])],
        )
        self.assertIn("3 NAS Security Mode Command lost: stuck", "\n".join(table(from_json(document))))
        self.assertIn("(its own run: goes on)", "\n".join(table(from_json(document))))

    def test_keys_that_differ_are_as_the_program_says(self) -> None:
        status, document, _ = self.listed_otherwise("keys differ")
        told = [one["outcomes"] for one in document["variants"] if one["outcomes"][0]["is"] == "keys differ"]
        expected = {"is": "keys differ", "what": NOT_TOLD, "limit": None, "is_limited": False}
        self.assertEqual((status, told), (1, [[expected]]))

    def test_what_is_wrong_in_the_scenario_itself_is_told_first(self) -> None:
        document = json.loads(launched("--kinds", "lost", "--json", EXAMPLES / "run/eight-ahead.toml").stdout)
        self.assertEqual(document["itself"], [{"is": "keys differ", "step": 69}, {"is": "packet lost", "step": 73}])
        answer = from_json(document)
        answer.itself = ["keys differ 69", "keys differ probe", "stuck", "packet lost 14"]
        self.assertEqual(from_json(to_json(answer)).itself, answer.itself)
        self.assertEqual(
            next(table(answer)),
            (
                "without any fault: keys differ at step 69; keys differ in the probe behind it; stuck; packet lost "
                "of step 14; heals: reconnection, 7 events"
            ),
        )
        self.assertEqual(
            launched("--kinds", "lost", "--bad", "coincidence", EXAMPLES / "run/eight-ahead.toml").returncode, 1
        )


class Answers(unittest.TestCase):
    def test_parts_are_merged_to_the_whole(self) -> None:
        scenario, words = EXAMPLES / "run/smc-complete-lost.toml", ["--faults", "2", "--json"]
        with tempfile.TemporaryDirectory() as room:
            files = [Path(room) / str(number) for number in range(1, 5)]
            calls = []
            for number, file in enumerate(files, 1):
                with file.open("wb") as out:
                    calls.append(
                        subprocess.Popen(
                            [TOP / "lte_sec", "what-if", *words, "--jobs", "1", "--part", f"{number}/4", scenario],
                            stdout=out,
                            stderr=subprocess.DEVNULL,
                        )
                    )
            self.assertEqual([call.wait() for call in calls], [0] * 4)
            whole = launched(*words, scenario)
            self.assertEqual(launched("--merge", "--json", *files).stdout, whole.stdout)
            self.assertEqual(launched("--merge", *files).stdout, launched(*words[:-1], scenario).stdout)
            some = launched("--merge", *files[:3])
            self.assertEqual((some.returncode, some.stderr.count(b"\n")), (2, 1), some.stderr)
        answer = from_json(json.loads(whole.stdout))
        self.assertEqual(to_json(merged([answer])), json.loads(whole.stdout))

    def test_lines_of_parts_are_those_of_the_whole(self) -> None:
        scenario = EXAMPLES / "run/two-preparations.toml"
        lines = [
            line
            for number in (1, 2, 3)
            for line in called("--lines", "--part", f"{number}/3", scenario)[1].splitlines()
        ]
        self.assertEqual(sorted(lines), sorted(called("--lines", "--jobs", "1", scenario)[1].splitlines()))
        self.assertIn("lost 2: stuck, NAS apart, no handover, not made", lines)

    def test_a_triple_is_told_if_no_pair_brings_its_outcome(self) -> None:
        status, out, err = called("--faults", "3", EXAMPLES / "worked/nas-count-spent.toml")
        self.assertEqual(status, 1, err)  # its phone is stuck without any fault
        self.assertIn("triple", out.splitlines()[-1])

    def test_interrupted_it_tells_what_it_has(self) -> None:
        call = subprocess.Popen(
            [TOP / "lte_sec", "what-if", "--faults", "2", "--jobs", "2", EXAMPLES / "what-if/ten-handovers.toml"],
            stdout=subprocess.PIPE,
            stderr=subprocess.PIPE,
            text=True,
            start_new_session=True,
            preexec_fn=lambda: signal.signal(
                signal.SIGINT, signal.SIG_DFL
            ),  # what a script starts in the background ignores it
        )
        assert call.stderr
        said = next(
            (line for line in call.stderr if "variants of 2 faults" in line), ""
        )  # it is at work, and has more to do
        call.send_signal(signal.SIGINT)
        out, err = call.communicate(timeout=600)
        self.assertTrue(said, err)
        self.assertEqual(call.returncode, 130)
        self.assertIn("status 130: interrupted", err)
        self.assertTrue(out.startswith("step message"), out[:80])
        self.assertNotIn("Traceback", err)

    def test_statuses(self) -> None:
        for status, words in (
            (0, ["run/ordinary.toml"]),
            (1, ["--bad", "cut off", "run/ordinary.toml"]),
            (1, ["--bad", "cut-off", "run/ordinary.toml"]),
            (1, ["--kinds", "again", "run/seven-ahead.toml"]),
            (0, ["--bad", "coincidence", "--kinds", "again", "run/seven-ahead.toml"]),
            (3, ["ladder/first.txt"]),
            (3, ["fleet/two-phones.toml"]),
            (7, ["run/coincidence.toml"]),
            (1, ["worked/repeated-root.toml"]),
            (0, ["--follow", "--kinds", "lost", "run/two-preparations.toml"]),
        ):
            ran = launched(*words[:-1], EXAMPLES / words[-1])
            self.assertEqual(ran.returncode, status, f"{words} {ran.stderr!r}")
            self.assertNotIn(b"Traceback", ran.stderr)

    def test_of_too_many_steps_it_tells_why(self) -> None:
        head, _, _ = octets("run/wrong-ksi").partition(b"step")
        ran = launched("--json", given=head + b"step = [" + b'{ do = "idle" },' * 2001 + b"]")
        self.assertEqual(
            (ran.returncode, json.loads(ran.stdout)),
            (11, {"error": "the scenario has more than 2,000 steps", "status": 11}),
        )

    def test_what_is_wrong_is_told_in_one_line(self) -> None:
        ordinary = EXAMPLES / "run/ordinary.toml"
        wrong: list[tuple[list[object], str]] = [
            (["--faults", "4", ordinary], "--faults is 1 to 3, and not '4'"),
            (["--kinds", "lost,early", ordinary], "and not 'early'"),
            (["--bad", "x", ordinary], "--bad takes an outcome"),
            (["--part", "2", ordinary], "--part I/N"),
            (["--part", "3/2", ordinary], "I of --part I/N is 1 to 2"),
            (["--jobs", "0", ordinary], "--jobs is 1 to"),
            (["--what", ordinary], "there is no option --what"),
            (["nowhere"], "nowhere cannot be read"),
            ([ordinary, ordinary], "takes one SCENARIO"),
            (["--merge"], "--merge takes the files"),
            (["--merge", ordinary], "is not what --json writes"),
            (["--picture", "/nowhere/x", ordinary], "cannot be written"),
            (["--save", ordinary, ordinary], "cannot be made"),
            (["--kinds"], "--kinds wants a value"),
        ]
        for words, line in wrong:
            status, out, err = called(*words)
            self.assertEqual((status, out, err.count("\n")), (2, "", 1), f"{words} {err}")
            self.assertIn(line, err)

    def test_a_part_that_is_none_is_told_in_one_line(self) -> None:
        part = to_json(Answer({}, {"0": "x"}, [Variant((Fault("lost", "0", None),), {"same": About()})]))
        variant = part["variants"][0]
        wrong: tuple[object, ...] = (
            part | {"variants": [variant | {"outcomes": [{"is": "no outcome", "what": ""}]}]},
            part | {"variants": [variant | {"faults": [{"kind": "never", "step": 0}]}]},
            [],
            {},
        )
        with tempfile.NamedTemporaryFile("w") as file:
            for each in (*map(json.dumps, wrong), '{"a":' * 10_000, "\0"):
                file.seek(0)
                file.truncate()
                file.write(each)
                file.flush()
                status, out, err = called("--merge", file.name)
                self.assertEqual(
                    (status, out, err), (2, "", f"lte_sec: status 2: what-if: {file.name} is not what --json writes\n")
                )

    def test_no_folder_is_written_unless_one_is_named(self) -> None:
        with unittest.mock.patch("os.access", return_value=False):
            self.assertEqual(called("--kinds", "lost", EXAMPLES / "run/wrong-ksi.toml")[0], 1)
            for option in ("--picture", "--save"):
                with tempfile.TemporaryDirectory() as room:
                    status, _, err = called(option, Path(room) / "x", EXAMPLES / "run/wrong-ksi.toml")
                self.assertEqual(status, 2, err)
                self.assertIn("cannot be written", err)

    def test_with_json_nothing_else_is_printed(self) -> None:
        for name, status, why in (
            ("ladder/first.txt", 3, "this is a ladder text: ./lte_sec ladder takes it"),
            (
                "run/coincidence.toml",
                7,
                "the scenario itself ends at a coincidence, so that nothing can be compared with it",
            ),
        ):
            ran = launched("--json", EXAMPLES / name)
            self.assertEqual((ran.returncode, json.loads(ran.stdout)), (status, {"error": why, "status": status}))
            self.assertIn(why.encode(), ran.stderr)

    def test_a_scenario_may_come_on_standard_input(self) -> None:
        octets = (EXAMPLES / "run/wrong-ksi.toml").read_bytes()
        self.assertEqual(launched(given=octets).stdout, launched(EXAMPLES / "run/wrong-ksi.toml").stdout)

    def test_the_picture_is_svg(self) -> None:
        with tempfile.TemporaryDirectory() as room:
            file = Path(room) / "matrix.svg"
            launched("--picture", file, EXAMPLES / "run/ordinary.toml")
            letters = [
                node.firstChild.data
                for node in xml.dom.minidom.parse(str(file)).getElementsByTagName("text")
                if node.firstChild
            ]
        self.assertTrue({"lost", "late", "twice", "again", "s", "x", "Path Switch Request"} <= set(letters))

    def test_the_outcomes_have_an_order(self) -> None:
        self.assertEqual(sorted(WORDS, key=lambda word: RANK[word]), list(WORDS))


if __name__ == "__main__":
    unittest.main()
