"""The demands of the standards, as docs/demands has them and the word `demands` prints them."""
from __future__ import annotations

import contextlib
import io
import json
import unittest

from lte_sec.runs import demands

TEXT = """# comment
== first
7.2.4, 24.301 5.4.3 | UE | covered | it does something | and more
    rows phone | Auth; core | Auth | done
    law one, two
    remark a, b; c
== second
A.8 to A.10 | MME | left out | nothing
"""


def said(*words: str) -> tuple[int, str, str]:
    out, error = io.StringIO(), io.StringIO()
    with contextlib.redirect_stdout(out), contextlib.redirect_stderr(error):
        status = demands.main(list(words))
    return status, out.getvalue(), error.getvalue()


class Demands(unittest.TestCase):
    def test_a_file_is_read(self) -> None:
        one, other = demands.read(TEXT)
        self.assertEqual(
            ("first", "UE", "covered", "it does something | and more"), (one.group, one.who, one.state, one.text)
        )
        self.assertEqual(
            (["phone | Auth", "core | Auth | done"], ["one", "two"], ["a, b; c"]),
            (one.evidence["rows"], one.evidence["law"], one.evidence["remark"]),
        )
        self.assertEqual(["33.401 7.2.4", "24.301 5.4.3"], list(one.clauses()))
        self.assertEqual(["33.401 A.8", "33.401 A.9", "33.401 A.10"], list(other.clauses()))

    def test_a_line_that_is_no_demand_is_named(self) -> None:
        for text, line in (
            ("7.2 | UE | covered | x", 1),
            ("== a\n7.2 | UE | nearly | x", 2),
            ("== a\n7.2 | UE | covered", 2),
            ("== a\n7.2 | UE | covered | x\n    row y", 3),
            ("== a\n    rows y", 2),
        ):
            with self.assertRaisesRegex(demands.NoDemand, f"^line {line}: "):
                demands.read(text)

    def test_a_clause_has_what_stands_below_it(self) -> None:
        one, other = demands.read(TEXT)
        for clause, of_one, of_other in (
            ("7.2.4", True, False),
            ("7.2", True, False),
            ("7", True, False),
            ("7.2.4.1", False, False),
            ("7.2.40", False, False),
            ("24.301 5.4", True, False),
            ("A", False, True),
            ("TS 33.401 A.9", False, True),
            ("A.1", False, False),
        ):
            self.assertEqual(
                (of_one, of_other),
                (one.is_below(demands.asked(clause.split())), other.is_below(demands.asked(clause.split()))),
                clause,
            )

    def test_the_word_prints_a_clause_and_its_counts(self) -> None:
        status, out, error = said("24.301", "4.4.3.2")
        self.assertEqual((0, ""), (status, error))
        self.assertTrue(
            out.startswith(
                "8.1.1, 24.301 4.4.3.2 | UE, MME | covered | a NAS COUNT is accepted once\n    rows: phone | Nas, "
                "header 1 or 2 | MacFails; "
            ),
            out,
        )
        self.assertTrue(out.endswith("\n1 covered\n"), out)
        document = json.loads(said("--json", "24.301 4.4.3.2")[1])
        self.assertEqual(
            (1, "8.1.1, 24.301 4.4.3.2", None),
            (document["counts"]["covered"], document["demands"][0]["clause"], document["demands"][0]["remark"]),
        )

    def test_all_are_printed_where_no_clause_is_named(self) -> None:
        found = demands.load()
        self.assertEqual(len(found), len(json.loads(said("--json")[1])["demands"]))
        self.assertEqual(len(found), sum(not line.startswith(" ") for line in said()[1].splitlines()) - 1)

    def test_a_clause_that_has_none_and_a_wrong_option_are_said(self) -> None:
        for words, why in (
            (["11"], "no demand is of TS 33.401 11"),
            (["--what"], "there is no option --what; there are: --json"),
        ):
            status, out, error = said(*words)
            self.assertEqual((2, "", 1), (status, out, error.count("\n")))
            self.assertIn(why, error)


if __name__ == "__main__":
    unittest.main()
