"""The suite of `drive`: rows, visits, outcomes, options and the report."""
from __future__ import annotations

import contextlib
import io
import json
import pathlib
import re
import shutil
import subprocess
import sys
import tempfile
import unittest
import xml.etree.ElementTree

from lte_sec.suite import (
    allowances as allowed,
    junit,
    play as played,
    rows,
    suite_word as suite,
    suite_page,
    suite_report,
    visits,
)
from lte_sec.drive import frames
from lte_sec.runs import scenarios
from lte_sec.common.options import WrongWords
from lte_sec.pages.trace_page import Json

from .schemas import is_of, schema_of

TABLE = rows.load(suite.SUITE)
SCENARIO = scenarios.Scenario(
    {
        "phone": {"caps": "a020"},
        "core": {"first_ncc": 2},
        "station": [{"id": 3, "priority": [0], "cells": [[10, 100]]}],
    },
    [],
)
SEND, SERVICE = (
    next(row.visit for row in TABLE.rows if row.visit[:2] == ("phone", name)) for name in ("SendUser", "ServiceRequest")
)


def result(outcome: str, visit: rows.Visit = SEND, step: int | None = 3, name: str = "a") -> played.Result:
    return played.Result(visit, name, step, outcome, ["text: wanted 01, got 02"] if outcome == "differs" else [])


def outcome_of(*outcomes: str, may_differ: str = "") -> str:
    return suite_report.told_by([result(outcome) for outcome in outcomes], allowed.read(may_differ))[SEND].outcome


def entries_of(*results: played.Result, actor: str = "phone") -> list[Json]:
    return suite_report.entries_of(TABLE, list(results), [], [actor])


def document(*results: played.Result) -> Json:
    return suite_report.document(
        entries_of(*results),
        [played.Played([], set(), 0.5)],
        ["a"],
        suite_report.Ran(False, ["lte_sec", "drive", "--suite"], "2026-12-01T03:00:00", 2),
    )


class Rows(unittest.TestCase):
    def test_a_row_is_told_once_and_has_a_clause(self) -> None:
        self.assertEqual(len(TABLE.rows), len({str(row.visit) for row in TABLE.rows}))
        self.assertEqual([], [row.visit for row in TABLE.rows if not row.clause or not row.places])
        self.assertEqual([], [row.visit for row in TABLE.rows if row.reached == "never" and not row.why])

    def test_each_row_that_may_differ_is_one(self) -> None:
        lines = allowed.read((suite.SUITE / "may-differ").read_text())
        names = [name for line in lines for name in (line.row, line.behind) if name]
        self.assertEqual(
            [], [name for name in names if not any(allowed.is_named(row.visit, name) for row in TABLE.rows)]
        )
        self.assertEqual([], [line.row for line in lines if not line.group])

    def test_a_row_has_the_clauses_of_its_input_and_more(self) -> None:
        text = (
            "phone | Auth | any | TS 1 2 | a\n    done |  | + TS 1 3 | a.A\n    Short |  | TS 1 4 | a.B\n    "
            "Long |  |  | a.C\n"
        )
        self.assertEqual(["TS 1 2, TS 1 3", "TS 1 4", "TS 1 2"], [row.clause for row in rows.read(text).rows])

    def test_a_line_that_is_no_row_is_named(self) -> None:
        for text in (
            "phone | Auth | any",
            "phone | Auth | any | 6.1 | a\n    done | | | a.A | sometimes\n",
            "    done | | | a.A\n",
        ):
            if text.count("|") == 2:
                self.assertEqual({("phone", "Auth"): "any"}, rows.read(text).unused)
                continue
            with self.assertRaisesRegex(rows.Unread, "line [12]"):
                rows.read(text)


class Visits(unittest.TestCase):
    def told(self, role: str, body: str) -> frames.Input:
        return frames.read_input(role, False, bytes.fromhex(body))

    def test_the_state_of_a_phone_decides_its_row(self) -> None:
        phone, air = visits.watch("phone"), self.told("phone", "030000000001810102")
        refused = frames.Reply(20)
        self.assertEqual("phone | Air, idle | NotConnected", str(phone.visit(air, refused, "")))
        phone.visit(self.told("phone", "10"), frames.Reply(), "")
        self.assertEqual("phone | Air, connecting | NotConnected", str(phone.visit(air, refused, "")))
        phone.visit(self.told("phone", "0300000000010101"), frames.Reply(), "")
        self.assertEqual("phone | Air, DRB, connected | done", str(phone.visit(air, frames.Reply(text=b""), "")))
        self.assertEqual(
            "phone | Air, SRB, connected | done: vertical",
            str(
                phone.visit(self.told("phone", "0300000000010101"), frames.Reply(note=frames.Note(1, 2, bytes(32))), "")
            ),
        )

    def test_a_reject_tells_its_way(self) -> None:
        for record, way in ((None, "no Reject"), (b"\x07", "Reject plain"), (b"\x27", "Reject protected")):
            reply = frames.Reply(2, b"\0\1", b"\2" if record else b"", record)
            self.assertEqual(
                f"phone | Nas, header 3 | WrongKsi: {way}",
                str(visits.watch("phone").visit(self.told("phone", "0237"), reply, "")),
            )

    def test_a_station_s_attempt_tells_its_way(self) -> None:
        station = visits.watch("station")
        station.visit(self.told("station", "3000000a00000064"), frames.Reply(note=frames.Note(0, 1, bytes(32))), "")
        self.assertEqual(
            "station | Cancel | done: X2, open", str(station.visit(self.told("station", "32"), frames.Reply(), ""))
        )

    def test_what_made_a_record_tells_the_row_of_the_core(self) -> None:
        core, nas = visits.watch("core"), self.told("core", "0217")
        self.assertEqual(
            "core | Nas, header 1 or 2 | done: Service Request", str(core.visit(nas, frames.Reply(), "ServiceRequest"))
        )
        self.assertEqual(
            "core | Nas, header 1 or 2 | done: Security Mode Reject", str(core.visit(nas, frames.Reply(), "Nas"))
        )


class Outcomes(unittest.TestCase):
    def test_a_difference_counts_most_and_a_pass_more_than_none(self) -> None:
        self.assertEqual("differs", outcome_of("passed", "not compared", "differs", "failed"))
        self.assertEqual("failed", outcome_of("passed", "failed", "timed out"))
        self.assertEqual("timed out", outcome_of("passed", "timed out"))
        self.assertEqual("passed", outcome_of("not compared", "passed"))
        self.assertEqual("allowed", outcome_of("differs", "passed", may_differ="phone | SendUser*"))
        self.assertEqual("differs", outcome_of("differs", may_differ="phone | SendUser"))

    def test_a_row_may_differ_behind_another_alone(self) -> None:
        lines = allowed.read(f"# a choice\n[a-choice]  # why\n{SEND} behind phone | Service*\n")
        self.assertEqual([allowed.Allowed(str(SEND), "phone | Service*", "a-choice")], lines)
        behind = result("differs")._replace(behind=(SERVICE,))
        self.assertEqual(["a-choice", None], [allowed.group_of(each, lines) for each in (behind, result("differs"))])
        self.assertEqual("a-choice: text: wanted 01, got 02", suite_report.told_by([behind], lines)[SEND].told[0])

    def test_a_group_is_allowed_by_its_name(self) -> None:
        self.assertEqual({"reserved-bits"}, {line.group for line in allowed.of_word("reserved-bits")})
        self.assertLess(20, len(allowed.of_word(str(allowed.FILE))))
        with self.assertRaisesRegex(
            WrongWords, "no-such is no group of examples/suite/may-differ .*reserved-bits.*cannot be read"
        ):
            allowed.of_word("no-such")

    def test_the_status_tells_a_failure_before_a_difference(self) -> None:
        for outcomes, status in (
            (("passed",), 0),
            (("passed", "differs"), 8),
            (("failed", "differs"), 6),
            (("timed out", "differs"), 6),
        ):
            results = [result(outcome, row.visit) for row, outcome in zip(TABLE.rows, outcomes)]
            self.assertEqual(status, suite_report.status_of(suite_report.counts_of(entries_of(*results))))

    def test_only_the_actors_that_are_named_are_told(self) -> None:
        self.assertEqual(["station"], suite.SuiteOptions({"station 3": ["a"]}).actors)
        self.assertEqual({"station"}, {entry["actor"] for entry in entries_of(actor="station")})

    def test_the_lines_name_the_place_and_the_clause(self) -> None:
        row = next(row for row in TABLE.rows if row.visit == SEND)

        def line(outcome: str) -> str:
            return suite_report.line_of(suite_report.entry_of(row, SEND, result(outcome)))

        self.assertEqual(f"differs      {SEND} | a, step 3: text: wanted 01, got 02 ({row.clause})", line("differs"))
        self.assertTrue(line("not compared").endswith("| a, step 3: behind a reply that differs or did not come"))
        self.assertEqual(f"passed       {SEND}", line("passed"))

    def test_the_document_is_of_its_schema(self) -> None:
        schema = schema_of("drive-suite")
        told = json.loads(
            suite_report.printed(
                document(result("differs"), result("failed", rows.Visit("phone", "Setup", "any", "done", ""), None)),
                True,
                False,
            )
        )
        self.assertTrue(is_of(schema, schema, told))
        self.assertFalse(is_of(schema, schema, {**told, "status": 7}))
        del told["rows"][0]["told"]
        self.assertFalse(is_of(schema, schema, told))

    def test_rows_are_counted_by_clause(self) -> None:
        self.assertEqual(
            ["TS 36.323 5.1.1", "TS 36.323 5.6", "TS 33.401 B"],
            list(suite_report.clauses_of("TS 36.323 5.1.1, 5.6, TS 33.401 B")),
        )
        self.assertEqual(["a rule"], list(suite_report.clauses_of("a rule")))
        found = {
            each["clause"]: (each["rows"], each["differs"])
            for each in suite_report.by_clause(entries_of(result("differs")))
        }
        self.assertEqual(1, found["TS 36.323 5.1.1"][1])
        self.assertEqual(0, found["TS 33.401 7.2.4.4"][1])
        self.assertEqual(list(found), sorted(found, key=suite_report.order_of))
        text = suite_report.printed(document(result("differs")), False, True)
        self.assertRegex(text, r"(?m)^TS 36\.323 5\.1\.1 +\d+ +0 +1 +\d+$")

    def test_a_build_reads_the_rows(self) -> None:
        [made] = suite_page.suites_of(
            document(result("differs"), result("passed", SERVICE), result("timed out", TABLE.rows[0].visit))
        )
        self.assertEqual((1, 1), (made.count("failure"), made.count("error")))
        read = xml.etree.ElementTree.fromstring(junit.xml([made]))
        self.assertEqual(len(made.cases), len(read.findall("./testsuite/testcase")))
        case = next(case for case in read.iter("testcase") if case.get("name") == str(SEND))
        self.assertEqual(
            ("suite.phone.SendUser", "text: wanted 01, got 02"), (case.get("classname"), case[0].get("message"))
        )
        self.assertEqual(
            "built without proof", {each.get("name"): each.get("value") for each in read.iter("property")}["program"]
        )

    @unittest.skipUnless(shutil.which("xmllint"), "xmllint is not here")
    def test_what_a_build_reads_is_of_its_schema(self) -> None:
        told = document(
            result("differs"),
            result("passed", SERVICE),
            result("timed out", TABLE.rows[0].visit),
            result("not compared", TABLE.rows[4].visit),
        )
        schema = suite.SUITE.parents[1] / "share" / "schema" / "junit.xsd"
        for text, status in ((junit.xml(suite_page.suites_of(told)), 0), ("<testsuites><testsuite/></testsuites>", 3)):
            ran = subprocess.run(
                ["xmllint", "--noout", "--schema", str(schema), "-"], input=text.encode(), capture_output=True
            )
            self.assertEqual(status, ran.returncode, ran.stderr.decode())

    def test_what_xml_cannot_have_is_a_question_mark(self) -> None:
        made = junit.xml(
            [junit.Suite("a\0<", "b", 1, {}, [junit.TestCase("c", "d", "failure", "\x1b\n&", "\ud800]]>", "\ufffe")])]
        )
        case = xml.etree.ElementTree.fromstring(made)[0][1]
        self.assertEqual(("?\n&", "?]]>", "?"), (case[0].get("message"), case[0].text, case[1].text))

    def test_the_page_has_rows_and_clauses(self) -> None:
        page = suite_page.html(document(result("differs")))
        self.assertIn('<td class="differs">differs</td><td>phone | SendUser | done</td>', page)
        self.assertIn("<td>TS 33.401 7.2.4.4</td>", page)
        self.assertNotIn("<script", page)

    def test_a_refusal_by_another_cause_is_right_where_only_answers_count(self) -> None:
        wanted, other, done = frames.Reply(1), frames.Reply(7).spelled(), frames.Reply().spelled()
        self.assertEqual(
            [True, False, False],
            [
                played.is_same(wanted, wanted.spelled(), False),
                played.is_same(wanted, other, False),
                played.is_same(wanted, done, True),
            ],
        )
        self.assertTrue(played.is_same(wanted, other, True))
        self.assertFalse(played.is_same(wanted, frames.Reply(7, alarm=True).spelled(), True))

    def test_a_case_for_each_row_is_cut_off_behind_it(self) -> None:
        steps = [{"do": "smc"}, {"do": "idle"}, {"do": "service"}, {"do": "resend"}]
        case = played.Case("a", scenarios.Scenario(SCENARIO.setup, steps))
        run = played.Played([result("passed", SERVICE, 2), result("passed", SEND, 3)], {0, 2})
        self.assertEqual([[0, 2], [0, 2, 3]], [each.numbers for each in suite.cut([case], [run], TABLE)])


class Words(unittest.TestCase):
    def test_options_are_read(self) -> None:
        found = suite.read_words(
            "own",
            [
                "--suite",
                "--phone",
                f"{sys.executable} a.py",
                "--station",
                f"2={sys.executable}",
                "--answers",
                "done",
                "--each",
                "--timeout",
                "0.5",
            ],
        )
        self.assertEqual({"phone", "station 2"}, set(found.product))
        self.assertEqual(
            ([sys.executable, "a.py"], ["phone", "station"], True, True, 0.5),
            (found.product["phone"], found.actors, found.by_answer, found.is_each, found.seconds),
        )
        self.assertEqual(list(rows.ACTORS), suite.read_words("own", ["--suite"]).actors)
        found = suite.read_words("own", ["--suite", "--jobs", "3", "--junit", "a.xml", "--clauses"])
        self.assertEqual((3, "a.xml", True), (found.jobs, found.junit, found.by_clauses))

    def test_wrong_words_are_told(self) -> None:
        for words, told in (
            (["--phone"], "needs a word"),
            (["x.toml"], "takes no FILE"),
            (["--bad"], "takes no option --bad"),
            (["--answers", "all"], "takes done"),
            (["--timeout", "0"], "above 0"),
            (["--allow", "/nowhere"], "cannot be read"),
            (["--jobs", "0"], "--jobs is 1 to 256"),
            (["--core", "no-such-program"], "no program"),
        ):
            with self.subTest(words), self.assertRaisesRegex(WrongWords, re.escape(told)):
                suite.read_words("own", words)

    def test_a_scenario_is_taken_by_its_name(self) -> None:
        self.assertEqual(["nas-01"], [case.name for case in suite.cases_of(suite.SuiteOptions(names=["nas-01"]))])
        with self.assertRaisesRegex(WrongWords, "no scenario nas"):
            suite.cases_of(suite.SuiteOptions(names=["nas"]))

    def test_a_station_that_no_scenario_has_is_told(self) -> None:
        with self.assertRaisesRegex(WrongWords, "^--station 7=CMD: no scenario that is driven has station 7, but 0"):
            suite.cases_of(suite.SuiteOptions({"station 7": ["x"]}, names=["nas-01"]))


class Calls(unittest.TestCase):
    def test_an_actor_that_fails_leaves_the_other_rows_not_compared(self) -> None:
        file = pathlib.Path(__file__).resolve().parents[2] / "examples" / "suite" / "actors" / "core.py"
        with tempfile.TemporaryDirectory() as room:
            wrong = pathlib.Path(room) / "core.py"
            wrong.write_text(
                f"import sys\nsys.path.insert(0, {str(file.parent)!r})\nimport core, serving\ncore.Core.StartSmc = "
                "lambda self: sys.exit('it fell')\nserving.main('core', core.Core)\n"
            )
            steps = [{"do": "smc"}, {"do": "release"}]
            commands = played.Commands([sys.executable, str(file)], {"core": [sys.executable, str(wrong)]}, 60)
            run = played.play(played.Case("a", scenarios.Scenario(SCENARIO.setup, steps)), commands, False)
        self.assertEqual(
            [("StartSmc", "failed"), ("Release", "not compared")],
            [(each.visit.input, each.outcome) for each in run.results],
        )
        self.assertIn("it fell", run.results[0].told)

    def test_what_is_wrong_is_one_line(self) -> None:
        sys.argv[1:], kept = ["own", "proved", "--suite", "--bad"], sys.argv[1:]
        with contextlib.redirect_stderr(io.StringIO()) as said:
            self.assertEqual(2, suite.main())
        sys.argv[1:] = kept
        self.assertEqual("lte_sec: status 2: drive --suite takes no option --bad\n", said.getvalue())


if __name__ == "__main__":
    unittest.main()
