"""`drive --generate`: the draws of `gen`, the words, and how the first difference is made small."""
from __future__ import annotations

import contextlib
import io
import sys
import tempfile
import unittest
import unittest.mock
from pathlib import Path

from lte_sec.suite import generate, journeys, play as played, rows
from lte_sec.drive import network
from lte_sec.runs import scenarios
from lte_sec.common.options import WrongWords

VISIT = rows.Visit("phone", "SendUser", "any", "done", "")


class Journeys(unittest.TestCase):
    def test_the_first_steps_are_the_same_for_each_seed(self) -> None:
        self.assertEqual(
            ["auth", "smc", "deliver", "deliver", "connect"], [step["do"] for step in journeys.generated(5, 9).steps]
        )
        self.assertEqual(100, len(journeys.generated(100, 9).steps))

    def test_draws_are_those_of_the_seed(self) -> None:
        """By hand: 7 * 6364136223846793005 + 1442695040888963407, modulo 2^64, over 2^33, is 2 modulo 6: a handover
        over X2, whose answer arrives."""
        self.assertEqual(2, journeys.Journey(7).draw(6))
        self.assertEqual({"do": "x2", "station": 0, "cell": [13, 103]}, journeys.generated(100, 7).steps[8])

    def test_a_scenario_is_a_text(self) -> None:
        scenario = journeys.generated(40, 3)
        read = scenarios.read(generate.written(scenario, "a comment").encode())
        self.assertEqual((scenario.setup, scenario.steps), (read.setup, read.steps))


class Small(unittest.TestCase):
    def generated(self, needed: set[int]) -> generate.Generated:
        """One whose product differs where a scenario has these texts, and has a record to deliver."""
        own = generate.Generated("own", generate.GenerateOptions({}, range(1), None, False, 1, 1))

        def first(scenario: scenarios.Scenario) -> played.Result | None:
            texts = [step["n"] for step in scenario.steps]
            if texts[:1] == [9]:
                raise network.NoRecord("there is no record")
            return played.Result(VISIT, "", len(texts) - 1, "differs", ["text"]) if needed <= set(texts) else None

        setattr(own, "first", first)
        return own

    def test_only_the_steps_stay_that_a_difference_needs(self) -> None:
        for needed in ({3, 12}, {0}, {15}, {4, 5, 6}):
            scenario = scenarios.Scenario({}, [{"n": number} for number in range(16)])
            found = played.Result(VISIT, "", 15, "differs", ["text"])
            self.assertEqual(needed, {step["n"] for step in self.generated(needed).small(scenario, found).steps})

    def test_what_stands_behind_the_difference_goes_first(self) -> None:
        scenario = scenarios.Scenario({}, [{"n": number} for number in range(9)])
        self.assertEqual(
            [2],
            [
                step["n"]
                for step in self.generated({2}).small(scenario, played.Result(VISIT, "", 4, "differs", [])).steps
            ],
        )


class Answers(unittest.TestCase):
    def answered(self, result: played.Result | None, *words: str) -> tuple[int, list[str]]:
        options = generate.read_words("own", ["--generate", "2", "7", *words])
        with unittest.mock.patch.object(
            generate.Generated, "first", lambda self, scenario: result
        ), contextlib.redirect_stdout(io.StringIO()) as said:
            return generate.answered("own", options), said.getvalue().splitlines()

    def test_each_scenario_is_a_line(self) -> None:
        self.assertEqual(
            (0, ["seed 7: 100 steps, no reply differs", "seed 8: 100 steps, no reply differs"]), self.answered(None)
        )

    def test_the_first_difference_ends_it(self) -> None:
        with tempfile.TemporaryDirectory() as room:
            status, lines = self.answered(
                played.Result(VISIT, "", 3, "differs", ["text: wanted 01, got 02"]), "--save", room
            )
            self.assertEqual(["seed-7-small.toml", "seed-7.toml"], sorted(file.name for file in Path(room).iterdir()))
        self.assertEqual(
            (8, "seed 7: differs: phone | SendUser | done | step 3 of 100: text: wanted 01, got 02"), (status, lines[0])
        )

    def test_an_actor_that_fails_ends_it(self) -> None:
        self.assertEqual(6, self.answered(played.Result(VISIT, "", 3, "failed", ["it closed"]))[0])

    def test_wrong_words_are_told(self) -> None:
        for words, told in (
            (["--generate", "2"], "how many scenarios and a seed"),
            (["--generate", "0", "7"], "--generate is 1 to"),
            (["--generate", "2", "x"], "a seed up to 4294967295"),
            (["--generate", "2", "7", "--suite"], "takes no option --suite"),
            (["--generate", "2", "7", "--answers", "all"], "takes done"),
        ):
            with self.subTest(words), self.assertRaisesRegex(WrongWords, told):
                generate.read_words("own", words)
        sys.argv[1:], kept = ["own", "--generate", "2"], sys.argv[1:]
        with contextlib.redirect_stderr(io.StringIO()) as said:
            self.assertEqual(2, generate.main())
        sys.argv[1:] = kept
        self.assertEqual(1, said.getvalue().count("\n"))


if __name__ == "__main__":
    unittest.main()
