"""What the prover says, by samples of what it said of the crate key_terms with edits in it."""
import pathlib
import unittest

from batches.functions import Function
from batches.said import Kind, Said, Verdict, judge, read_said

SAMPLES = pathlib.Path(__file__).resolve().parent / "samples"


def sample(name: str) -> Said:
    """A sample as it is read."""
    return read_said((SAMPLES / name).read_text("utf-8"))


def judged(name: str, path: str, is_by_itself: bool = False) -> Verdict:
    """What an edit in a function came to by a sample."""
    return judge(sample(name), (Function(path),), is_by_itself)


class Refused(unittest.TestCase):
    """Edits in `hold`, `root`, `reserve` and `find_by` at one time."""

    def test_search_did_not_prove_its_goal(self) -> None:
        self.assertEqual(
            judged("four_refused.out", "row::LadderRow::hold"),
            Verdict(Kind.REFUSED, "row::LadderRow::hold", ("returns-in-Core",)),
        )
        self.assertEqual(judged("four_refused.out", "ladder::Ladder::reserve").goals, ("returns-clause-spare",))

    def test_each_of_two_goals_is_told(self) -> None:
        self.assertEqual(
            judged("four_refused.out", "ladder::Ladder::root").goals,
            ("returns-in-Root-clause-repeated", "returns-in-Root-clause-cause"),
        )

    def test_its_answer_fits_no_longer(self) -> None:
        both = ("returns-clause-place", "returns-in_err-place-clause-place")
        self.assertEqual(judged("four_refused.out", "ladder::find_by"), Verdict(Kind.REFUSED, "ladder::find_by", both))

    def test_function_that_calls_an_edited_one_is_unclear(self) -> None:
        self.assertEqual(judged("four_refused.out", "ladder::Ladder::add").kind, Kind.UNCLEAR)
        self.assertEqual(judged("four_refused.out", "ladder::hold_at").kind, Kind.UNCLEAR)

    def test_function_that_calls_an_edited_one_and_has_an_open_goal(self) -> None:
        self.assertEqual(judged("callers.out", "ladder::Ladder::add").goals, ("returns-in-Some-2-clause-coincidence",))

    def test_table_is_refused_by_a_lemma_that_functions_stand_on(self) -> None:
        found = judge(sample("lemma_refused.out"), (), is_by_itself=True)
        self.assertEqual((found.kind, found.function), (Kind.REFUSED, "round_tables::mixed_column"))
        self.assertIn("SBoxTable.all_entries", found.goals)

    def test_goal_that_is_false_counts_though_its_name_is_new(self) -> None:
        found = judged("other_goals.out", "chain::Chain::steps_to")
        self.assertEqual(
            found, Verdict(Kind.REFUSED, "chain::Chain::steps_to", ("returns-else-ncc-self-clause-there",))
        )

    def test_goals_with_new_names_that_are_only_open_are_weak(self) -> None:
        text = (SAMPLES / "other_goals.out").read_text("utf-8").replace("; the facts known there allow values", "")
        self.assertEqual(
            judge(read_said(text), (Function("chain::Chain::steps_to"),), is_by_itself=True).kind, Kind.WEAK
        )


class NotRefused(unittest.TestCase):
    """What fails the gate."""

    def test_function_with_no_open_goal_is_proved(self) -> None:
        self.assertEqual(
            judged("four_refused.out", "ladder::Ladder::push"), Verdict(Kind.PROVED, "ladder::Ladder::push")
        )
        self.assertEqual(judged("name_went.out", "ladder::Ladder::reserve").kind, Kind.PROVED)

    def test_closure_counts_with_its_function(self) -> None:
        said = sample("four_refused.out")
        self.assertTrue(
            any(Function("ladder::position_of").has(it.path) for it in said.lines if "position+FnMut" in it.path)
        )

    def test_name_that_went_is_weak(self) -> None:
        self.assertEqual(
            judged("name_went.out", "ladder::Ladder::add"),
            Verdict(Kind.WEAK, "ladder::Ladder::add", ("push-requires-clause-made",)),
        )

    def test_by_itself_a_caller_refuses_it(self) -> None:
        self.assertEqual(judged("four_refused.out", "ladder::Ladder::push", is_by_itself=True).kind, Kind.REFUSED)

    def test_unknown_function(self) -> None:
        self.assertEqual(judged("four_refused.out", "ladder::nowhere").kind, Kind.BAD)

    def test_prover_was_not_reached(self) -> None:
        said = sample("does_not_compile.out")
        self.assertFalse(said.reached)
        self.assertIn("no field `rowz` on type `Ladder`", said.first_error)

    def test_empty_output(self) -> None:
        self.assertEqual(read_said(""), Said((), False, "it said nothing"))

    def test_limit_of_the_prover_is_no_verdict(self) -> None:
        said = read_said("fn a::b: could not tell\nonly=1 holes=0\n")
        self.assertEqual(judge(said, (Function("b"),), is_by_itself=False).kind, Kind.UNTRIED)


if __name__ == "__main__":
    unittest.main()
