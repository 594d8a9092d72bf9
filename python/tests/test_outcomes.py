"""What becomes of a variant: faults put into a scenario, courses and outcomes, against the proved program."""
from __future__ import annotations

import dataclasses
import subprocess
import tempfile
import unittest
from pathlib import Path

from lte_sec.common.tables import FAULTS
from lte_sec.runs import scenarios
from lte_sec.runs.courses import Course, Item, act, delivery
from lte_sec.runs.run_report import StepLine
from lte_sec.whatif.outcomes import WORDS, About, Comparison, Standing, limit, signature
from lte_sec.whatif.probe import PROBE
from lte_sec.whatif.saving import save
from lte_sec.runs.scenarios import text
from lte_sec.whatif.study import Study, Variant
from lte_sec.whatif.variant_lists import Sending
from lte_sec.runs.variants import Fault

from .studied import EXAMPLES, TOP, listed, octets, program, programs, study

# Scenarios and kinds of faults among whose variants each outcome is the worst of one: first those that have it soon, then
# all of what-if.
SHOWN: list[tuple[str, ...]] = [
    ("run/ordinary", "lost", "late", "twice"),
    ("run/key-change", "lost"),
    ("what-if/two-path-switches", "lost"),
    ("worked/user-window", "twice"),
    ("run/seven-ahead", "again"),
    ("worked/sent-again", "late"),
    *((f"what-if/{file.stem}", *FAULTS) for file in sorted((EXAMPLES / "what-if").glob("*.toml"))),
]


def setUpModule() -> None:
    programs()


class Faults(unittest.TestCase):
    def names(self, fault: Fault) -> list[str]:
        whole = study("run/ordinary")
        items = whole.faults.put_all((fault,))
        assert items
        return [item.name for item in items]

    def test_what_a_late_message_makes_happen_moves_with_it(self) -> None:
        names = self.names(Fault("late", "12", "20"))
        self.assertEqual(names[names.index("20") + 1 :][:8], ["12", "13", "14", "15", "16", "17", "18", "21"])
        names = self.names(Fault("late", "3", "8"))
        self.assertEqual(names[names.index("8") + 1 :][:3], ["3", "4", "5"])

    def test_a_message_is_sent_again_by_its_senders_act(self) -> None:
        whole = study("run/ordinary")
        for item, acts in (
            ("14", ["command"]),
            ("15", ["resend"]),
            ("16", ["ask"]),
            ("17", ["ask", "deliver"]),
            ("12", ["cancel", "deliver", "x2", "deliver"]),
        ):
            items = whole.faults.put_all((Fault("again", item),))
            assert items
            at = next(place for place, it in enumerate(items) if it.name == item)
            self.assertEqual([it.do for it in items[at - len(acts) : at]], acts)
        self.assertIsNone(whole.faults.put_all((Fault("again", "2"),)))

    def test_what_nobody_expects_is_delivered_at_once(self) -> None:
        tried = study("what-if/re-authentication").tried((Fault("twice", "2", "13"),))
        self.assertEqual(signature(tried.course.lines["2'+"]), ("core", "done", None, None))
        self.assertIn("phone WrongKsi at the copy of step 2", tried.variant.answers)


class Courses(unittest.TestCase):
    def test_any_first_guess_comes_to_one_course(self) -> None:
        whole = study("run/key-change")
        items = [item for item in whole.original.items if item.name not in ("3", "12")]
        right = whole.runs.course(items, whole.usual, {})
        for sends in (False, True):
            wrong = whole.runs.course(items, whole.usual, {item.name: sends for item in items})
            self.assertEqual(wrong.report, right.report)

    def test_a_variant_takes_one_run_where_it_is_told_what_sent(self) -> None:
        whole = study("run/ordinary")
        for each in listed(octets("run/ordinary")):
            tried, sending = whole.tried(each.faults, each.sending), each.sending or Sending(0)
            self.assertEqual((tried.course.runs, tried.serving), (1, sending.serving), f"{each.faults}")
        wrong = Sending(0, "".join("10"[int(digit)] for digit in sending.sent))
        self.assertEqual(whole.tried(each.faults, wrong).course.report, tried.course.report)

    def test_a_record_that_is_not_sent_falls_away(self) -> None:
        whole = study("run/ordinary")
        items: list[Item] = [act("a", {"do": "smc"}), delivery("b", "a"), act("c", {"do": "idle"})]
        course = whole.runs.course(items, {"a": True}, {})
        self.assertEqual([item.name for item in course.items], ["a", "c"])


class Outcomes(unittest.TestCase):
    def test_a_variant_of_each_outcome_is_saved_and_run(self) -> None:
        missing = set(WORDS)
        for name, *kinds in SHOWN:
            listing = listed(octets(name), *kinds, packets=True) if missing else []
            found = {each.outcomes[0]: each.faults for each in reversed(listing)}
            for word in sorted(missing & found.keys()):
                with self.subTest(word=word):
                    tried = study(name).tried(found[word])
                    self.assertEqual(tried.variant.worst, word)
                    self.saved(study(name), tried.variant, tried.course)
                missing.remove(word)
        self.assertEqual(missing, set())

    def saved(self, whole: Study, variant: Variant, course: Course) -> None:
        with tempfile.TemporaryDirectory() as room:
            file = save(Path(room), whole, variant, course)
            ran = subprocess.run([program("lte_sec_app"), "run"], input=file.read_bytes(), capture_output=True)
            self.assertEqual(
                (ran.returncode, ran.stdout.decode()), (7 if variant.worst == "coincidence" else 0, course.report)
            )
            self.assertIn(f": {variant.worst}", file.read_text().splitlines()[0])

    def test_the_words_are_those_of_the_page(self) -> None:
        page = (TOP / "docs" / "WHATIF.md").read_text()
        table = "| `" + page.split("\n## Outcomes")[1].partition("\n| `")[2].partition("\n\n")[0]
        rows = [line.split("|")[1].strip(" `") for line in table.splitlines()]
        self.assertEqual(tuple(rows), WORDS)

    def test_who_can_derive_the_phones_key_is_as_audit_has_it(self) -> None:
        whole = study("what-if/two-path-switches")
        for each in listed(octets("what-if/two-path-switches"), "lost", "again"):
            ran = whole.tried(each.faults)
            variant, course, serving = ran.variant, ran.course, ran.serving
            standing = Standing(whole.scenario, course, serving)
            key = standing.phone_key()
            given = text(whole.runs.setup, course.steps).encode()
            audit = subprocess.run(
                [program("lte_sec_app"), "audit"], input=given, capture_output=True, text=False
            ).stdout.decode()
            rows = {line.split()[1]: line.split()[3] for line in audit.splitlines() if line.startswith("row ")}
            if key:
                self.assertEqual(
                    standing.reach(), set(rows[str(standing.by_key[key])].split(",")) - {"-"}, str(variant.faults)
                )

    def test_the_cores_view_is_as_a_release_has_it(self) -> None:
        whole = study("what-if/attach-and-handovers")
        tried = 0
        for each in listed(octets("what-if/attach-and-handovers"), "lost", "late")[::3]:
            ran = whole.tried(each.faults)
            variant, course, serving = ran.variant, ran.course, ran.serving
            places = [place for place, item in enumerate(course.items) if item.name == PROBE + "up"]
            steps = [*course.steps[: places[0]], '{ do = "release" }', '{ do = "deliver", record = -1 }']
            lines = [StepLine.read(line) for line in whole.runs.run(steps).splitlines()[places[0] : places[0] + 2]]
            view = Standing(whole.scenario, course, serving).view
            if lines[0] and lines[1] and lines[0].answer == "done" and lines[0].sent is not None:
                self.assertEqual(f"station {view}", lines[1].who, str(variant.faults))
                tried += 1
            else:
                self.assertIsNone(view, str(variant.faults))
        self.assertGreater(tried, 100)

    def test_a_scenario_is_the_same_as_itself(self) -> None:
        for name in ("run/ordinary", "what-if/release-and-service"):
            whole = study(name)
            self.assertEqual(Comparison(whole.standing, whole.standing, set()).outcomes(), {"same": About()})

    def test_findings(self) -> None:
        """What a person found in the reports, by hand."""
        for name, faults, word, follows in (
            ("what-if/two-path-switches", (Fault("late", "14", "23"),), "misrouted", False),
            ("what-if/two-path-switches", (Fault("lost", "32"),), "no handover", False),
            ("what-if/re-authentication", (Fault("twice", "2", "13"),), "NAS apart", False),
            ("run/ordinary", (Fault("lost", "16"),), "weaker key", False),
            ("what-if/ten-handovers", (Fault("lost", "11"),), "not made", True),
        ):
            self.assertEqual(study(name, follows).tried(faults).variant.worst, word, str(faults))

    def test_what_a_dropped_pair_brings_is_marked(self) -> None:
        """By hand: at steps 28 to 31 station 2 hands the phone on within, and at 34 the answer to what it asked at 32
        comes to it."""
        mark = "a station keeps its pair at a handover within it"
        whole = study("what-if/handover-within")
        for kind, item, after, expected in (
            (
                "late",
                "31",
                "34",
                mark,
            ),  # the pair comes before the Complete of the handover within, and goes with the old context
            ("late", "31", "32", mark),  # the request goes out before it, and its answer is Stale
            (
                "late",
                "15",
                "20",
                None,
            ),  # the pair comes behind the handover within, which is horizontal in the standard, too
            ("late", "34", "36", None),  # the pair comes behind the begin of the next handover
            ("lost", "30", None, None),  # the handover within is not completed
        ):
            variant = whole.tried((Fault(kind, item, after),)).variant
            self.assertIn("weaker key", variant.outcomes)
            self.assertEqual(limit(variant, "weaker key", whole.original.messages), expected, f"{kind} {item} {after}")

    def test_a_dropped_pair_is_marked_at_the_probes_handover(self) -> None:
        scenario = study("what-if/handover-within").scenario
        whole = Study(program("lte_sec_app"), dataclasses.replace(scenario, steps=scenario.steps[:36]))
        for fault, expected in (
            (Fault("late", "31", "34"), "horizontal at the next handover (here)"),
            (Fault("lost", "34"), "horizontal at the next handover"),
        ):
            self.assertEqual(whole.tried((fault,)).variant.outcomes["weaker key"].text, expected)

    def test_keys_that_differ_by_dropped_pairs_are_marked(self) -> None:
        """Seven pairs are dropped by handovers within; an answer that is lost and sent again is the eighth step ahead.
        Without handovers within it is no limit of the profile."""
        for scenario, expected in (
            (octets("procedures/eight-steps-and-nothing-lost").replace(b"first_ncc = 2", b"first_ncc = 1"), [True] * 7),
            (octets("run/seven-ahead"), [False]),
        ):
            whole = Study(program("lte_sec_app"), scenarios.read(scenario))
            found = [
                whole.tried(each.faults).variant for each in listed(scenario, "again") if "keys differ" in each.outcomes
            ]
            self.assertEqual(
                [limit(variant, "keys differ", whole.original.messages) is not None for variant in found], expected
            )

    def test_a_handover_is_begun_by_the_station_that_serves(self) -> None:
        tried = study("what-if/ten-handovers", True).tried((Fault("lost", "11"),))
        plain = study("what-if/ten-handovers").tried((Fault("lost", "11"),))
        self.assertEqual(str(tried.variant.outcomes["not made"]), "handover of step 14")
        self.assertIn("23", str(plain.variant.outcomes["not made"]))


if __name__ == "__main__":
    unittest.main()
