"""Blames of keys, asked of the program lte_trace: the questions, and what becomes of its answers. The program itself is
proved, and tried by the examples."""
from __future__ import annotations

import copy
import os
import tempfile
import unittest
from pathlib import Path
from unittest import mock

from lte_sec.judge import lawful, questions
from lte_sec.captures.capture_files import read
from lte_sec.captures.cells import Cells
from lte_sec.common.causes import Cause, has, told
from lte_sec.common.report import DIFFERS, KEYS, UNKNOWN, Line
from lte_sec.common.terms import NONE, Derivations, Kasme, Key
from lte_sec.judge.account import Account
from lte_sec.judge.reading import check
from lte_sec.judge.trace import Trace

from . import sound_worlds
from .in_views import BUDGET, broken_cases
from .networks import SITES
from .simulated import CALLS, CELLS
from .sound_worlds import KASMES
from .test_traces import TRACES
from .test_traces import traced as judged
from .views import views

NOT_FOUND = Cause.HISTORY_FOUND.says
SIGHTINGS = ("setup", "change", "answer", "request", "over", "any", "asked", "took")


def traced(name: str) -> Trace:
    return judged(name, list(read(TRACES / f"{name}.json.gz")))


class Says(questions.Program):
    """A program that finds a history for all messages but those with these keys."""

    def __init__(self, *wrong: str, closed: bool = True, never: bool = False):
        super().__init__("", True)
        object.__setattr__(self, "never", never)
        object.__setattr__(self, "wrong", wrong)
        object.__setattr__(self, "closed", closed)
        object.__setattr__(self, "questions", [])

    def ask(self, question: str) -> questions.Found | None:
        self.questions.append(question)  # type: ignore[attr-defined]
        shown = [line for line in question.splitlines() if line.split()[0] in SIGHTINGS]
        bad = [place for place, line in enumerate(shown) if any(key in line for key in self.wrong)]  # type: ignore[attr-defined]
        moves = (
            ("unseen arrive", "unseen prepare 0 10 100 last", *("seen switch" for _ in shown))
            if "moves" in question.splitlines()
            else ()
        )
        return questions.Found(bad[0] if bad else len(shown), self.closed, moves, bool(bad) and self.never)  # type: ignore[attr-defined]


def blamed(seen: Account) -> list[str]:
    return [value.hex for _, value in seen.values() if value.verdict == DIFFERS and value.what in KEYS]


class Blames(unittest.TestCase):
    def test_a_blame_that_no_history_explains_is_confirmed(self) -> None:
        trace = traced("B1-star-earfcn")
        wrong = blamed(trace.seen)
        self.assertTrue(wrong)
        seen = lawful.confirmed(trace, Says(*wrong))
        self.assertEqual(wrong, blamed(seen))
        self.assertIn(f"blames of keys confirmed by proof: {len(wrong)}", seen.head[-1])
        self.assertIn("none without moves over the air", seen.head[-1])

    def test_a_blame_that_no_history_of_any_length_explains_is_told_so(self) -> None:
        trace = traced("B1-star-earfcn")
        wrong = blamed(trace.seen)
        seen = lawful.confirmed(trace, Says(*wrong, never=True))
        self.assertTrue(
            seen.head[-1].endswith(f", and for {len(wrong)} none of any length, with moves over the air too"),
            seen.head[-1],
        )

    def test_a_blame_that_a_history_explains_is_withdrawn(self) -> None:
        trace = traced("B1-star-earfcn")
        seen = lawful.confirmed(trace, Says())
        self.assertEqual([], blamed(seen))
        self.assertIn("blames of keys withdrawn", seen.head[-1])
        reasons = [
            value.reason
            for _, value in seen.values()
            if value.verdict == UNKNOWN and has(value.remarks, Cause.HISTORY_WITH_UNSEEN, Cause.HISTORY_WITHOUT_UNSEEN)
        ]
        self.assertTrue(reasons)
        for reason in reasons:
            self.assertIn("with the arrival at the target, a handover over X2 prepared at ", reason)

    def test_the_moves_of_a_history_are_told_in_words(self) -> None:
        phone = questions.Phone(traced("B1-star-earfcn"), [])
        phone.numbers.of("eNB 7")
        said = [
            *phone.grounds(
                [
                    "unseen arrive",
                    "seen renew 0 3 1 0 10 100 taken",
                    "unseen ask lost",
                    *["unseen switch"] * 8,
                    "seen prepare 0 10 100 besides",
                ]
            )
        ]
        self.assertEqual(f"{NOT_FOUND}, with no unseen move", told(said[0]))
        self.assertEqual(f"{NOT_FOUND}: with 1 more and {', '.join(['a path switch'] * 8)} unseen", told(said[1]))
        for move, wanted in (
            ("renew 0 3 1 0 10 100 refused", "a KeNB of COUNT 3 at eNB 7, refused"),
            ("offer 0 4 2", "a key change of COUNT 4"),
            ("refresh 10 100", "KeNB* within the station for cell 10/100"),
            ("require 0 10 100 besides", "a handover over S1 prepared at eNB 7, besides another"),
            ("ask lost", "a request to the core whose answer is lost"),
            ("cancel", "the handover cancelled"),
        ):
            self.assertEqual(wanted, phone.spelled(move))

    def test_a_question_has_cells_counts_taps_and_messages(self) -> None:
        trace = traced("B1-star-earfcn")
        asked = Says(*blamed(trace.seen))
        lawful.confirmed(trace, asked)
        first = asked.questions[0].splitlines()  # type: ignore[attr-defined]
        for word in ("kasme", "cell", "count", "first", "covers", "bound", "air", "setup", "over"):
            self.assertTrue(any(line.split()[0] == word for line in first), word)
        self.assertIn("any over", asked.questions[-1])  # type: ignore[attr-defined]

    def test_a_question_has_how_a_blamed_key_is_made(self) -> None:
        phone = questions.Phone(traced("B1-star-earfcn"), [])
        derivations = phone.trace.derivations
        kenb = derivations.kenb(0, 7)
        nh = derivations.next_nh(0, derivations.next_nh(0, kenb))
        star = derivations.star(derivations.star(nh, 10, 100), 503, 262143)
        for key, wanted in (
            (kenb, ["key 0 7 0"]),
            (nh, ["key 0 7 2"]),
            (star, ["key 0 7 2", "star 10 100", "star 503 262143"]),
            (derivations.star(kenb, 504, 100), []),
            (derivations.next_nh(0, star), []),
            (derivations.algorithm(kenb, 1, 2), []),
            (Key(bytes(32), NONE), []),
        ):
            phone.sightings = [
                questions.Sighting("over 0 1", value=Line("1", "HandoverRequest", "KeNB*", DIFFERS, key=key))
            ]
            phone.question(1, True)
            self.assertEqual(wanted, [*phone.clues()], key.form)

    def test_a_blame_whose_message_no_history_has_is_not_confirmed(self) -> None:
        trace = traced("B1-star-earfcn")
        with mock.patch.object(questions.Program, "ask", return_value=questions.Found(1, True)):
            seen = lawful.confirmed(trace, questions.Program("", True))
        self.assertEqual(blamed(trace.seen), blamed(seen))
        self.assertNotIn("confirmed by proof", seen.head[-1])
        self.assertIn("not confirmed", seen.head[-1])

    def test_a_search_that_is_given_up_confirms_nothing(self) -> None:
        trace = traced("B1-star-earfcn")
        with mock.patch.object(questions.Program, "ask", return_value=None):
            seen = lawful.confirmed(trace, questions.Program("", True))
        self.assertEqual(blamed(trace.seen), blamed(seen))
        self.assertIn("not confirmed", seen.head[-1])

    def test_where_a_search_is_given_up_fewer_moves_go_unseen(self) -> None:
        class Gives(Says):
            def ask(self, question: str) -> questions.Found | None:
                return None if "bound 2" in question.splitlines() else super().ask(question)

        trace = traced("B1-star-earfcn")
        wrong = blamed(trace.seen)
        seen = lawful.confirmed(trace, Gives(*wrong))
        self.assertEqual(wrong, blamed(seen))
        self.assertIn(f"blames of keys confirmed by proof: {len(wrong)}", seen.head[-1])
        self.assertIn("with at most 1 unseen move between", seen.head[-1])

    def test_that_some_history_has_the_message_is_seen_with_fewer_moves(self) -> None:
        class Gives(Says):
            def ask(self, question: str) -> questions.Found | None:
                is_passed = any(line.startswith("any ") for line in question.splitlines())
                return None if is_passed and "air" in question.splitlines() else super().ask(question)

        trace = traced("B1-star-earfcn")
        wrong = blamed(trace.seen)
        self.assertIn(
            f"blames of keys confirmed by proof: {len(wrong)}", lawful.confirmed(trace, Gives(*wrong)).head[-1]
        )

    def test_what_no_history_of_any_length_gives_needs_no_other_search(self) -> None:
        class Gives(Says):
            def ask(self, question: str) -> questions.Found | None:
                is_passed = any(line.startswith("any ") for line in question.splitlines())
                return None if is_passed else super().ask(question)

        trace = traced("B1-star-earfcn")
        wrong = blamed(trace.seen)
        for never, said in ((True, "confirmed by proof"), (False, "not confirmed")):
            self.assertIn(f"blames of keys {said}: 1", lawful.confirmed(trace, Gives(*wrong, never=never)).head[-1])

    def test_where_fewer_moves_come_less_far_they_do_so_too(self) -> None:
        class Gives(Says):
            def ask(self, question: str) -> questions.Found | None:
                lines = question.splitlines()
                if "air" not in lines or not any(line.startswith("any ") for line in lines):
                    return super().ask(question)
                return questions.Found(1, True) if "bound 1" in lines else None

        trace = traced("B1-star-earfcn")
        wrong = blamed(trace.seen)
        self.assertIn("blames of keys confirmed by proof: 1", lawful.confirmed(trace, Gives(*wrong)).head[-1])

    def test_a_search_that_comes_less_far_confirms_nothing(self) -> None:
        class Gives(Says):
            def ask(self, question: str) -> questions.Found | None:
                is_passed = any(line.startswith("any ") for line in question.splitlines())
                return questions.Found(1, True) if is_passed else super().ask(question)

        trace = traced("B1-star-earfcn")
        wrong = blamed(trace.seen)
        self.assertIn("blames of keys not confirmed: 1", lawful.confirmed(trace, Gives(*wrong)).head[-1])

    def test_x2_to_a_station_where_the_phone_came_unseen_is_not_covered(self) -> None:
        case = next(one for one in broken_cases() if one.name == "the uplink EARFCN")
        for view, to_the_first in (("without X2 from enb1 to enb2", False), ("without X2 from enb2 to enb3", True)):
            messages = dict(case.views())[view]
            trace = check(Derivations(CALLS, case.kasmes), Cells(SITES), messages, BUDGET)
            asked = Says(*blamed(trace.seen))
            lawful.confirmed(trace, asked)
            lines = asked.questions[0].splitlines()  # type: ignore[attr-defined]
            self.assertEqual(to_the_first, "covers over 0 1" in lines, view)
            self.assertIn("covers over 1 0", lines)
            shown = [line for line in lines if line.split()[0] in SIGHTINGS]
            taps = [line.removeprefix("covers ") for line in lines if line.startswith("covers ")]
            self.assertTrue(all(any(line.startswith(tap) for tap in taps) for line in shown), view)

    def test_where_a_blame_is_withdrawn_agreement_on_its_key_is_in_doubt(self) -> None:
        trace = traced("B1-star-earfcn")
        wrong = {value.hex for _, value in trace.seen.values() if value.verdict == DIFFERS and value.what in KEYS}
        seen = lawful.confirmed(trace, Says())
        of_key = [value for _, value in seen.values() if value.what == "agreement" and value.hex in wrong]
        self.assertTrue(of_key)
        self.assertEqual({UNKNOWN}, {value.verdict for value in of_key})
        self.assertTrue(all(has(value.said, Cause.AGREEMENT_IN_DOUBT) for value in of_key))
        kept = lawful.confirmed(trace, Says(*blamed(trace.seen)))
        self.assertIn(DIFFERS, {value.verdict for _, value in kept.values() if value.what == "agreement"})

    def test_the_first_ncc_may_be_either_where_requests_may_go_unseen(self) -> None:
        world = sound_worlds.handovers(2)
        for view, messages in [("all", world.messages), *views(world.messages)]:
            trace = check(Derivations(CALLS, [Kasme("k0", KASMES[0])]), Cells(CELLS), copy.deepcopy(messages), BUDGET)
            phones = [one for one in trace.seen.messages if one.phone is not None]
            if view == "all":
                self.assertEqual([2], questions.Phone(trace, phones).firsts())
            elif view == "without S1 up":
                self.assertEqual([1, 2], questions.Phone(trace, phones).firsts())

    def test_where_the_program_is_not_built_the_head_says_so(self) -> None:
        with mock.patch.dict(os.environ, {questions.VARIABLE: ""}):
            self.assertEqual(lawful.NOT_BUILT, lawful.confirmed(traced("B1-star-earfcn")).head[-1])
            trace = traced("A")
            self.assertIs(trace.seen, lawful.confirmed(trace))

    def test_the_answer_of_a_program(self) -> None:
        with tempfile.TemporaryDirectory() as folder:
            program = Path(folder) / "program"
            for text, status, wanted in (
                ("explained 3 of 4 closed", 0, questions.Found(3, True)),
                ("explained 1 of 4\nseen switch", 0, questions.Found(1, False, ("seen switch",))),
                ("explained 4 of 4", 0, questions.Found(4, False)),
                ("explained 2 of 4 closed out-of-order", 0, questions.Found(2, True, (), True)),
                ("explained 2 of 4 out-of-order", 0, questions.Found(2, False, (), True)),
                ("explained 2 of 4 out-of-place", 0, questions.Found(2, False, (), True)),
                ("explained 2 of 4 closed out-of-order out-of-reach", 0, questions.Found(2, True, (), True)),
                ("explained 2 of 4 out-of-chain", 0, questions.Found(2, False, (), True)),
                ("bad line 1", 3, None),
                ("", 12, None),
            ):
                program.write_text(f"#!/bin/sh\ncat >/dev/null\necho '{text}'\nexit {status}\n")
                program.chmod(0o700)
                with mock.patch.dict(os.environ, {questions.VARIABLE: f"proved {program}"}):
                    found = questions.program()
                assert found is not None
                self.assertEqual(wanted, found.ask("bound 0\n"), text)
        self.assertIsNone(questions.Program(str(program), True).ask(""))


if __name__ == "__main__":
    unittest.main()
