"""What became of the handovers and key changes of the kept reports."""
import pathlib
import re
import unittest

from lte_sec.runs import kenb_changes, verdict

EXAMPLES = pathlib.Path(__file__).resolve().parent.parent.parent / "examples"
NOTHING = ["no handover and no key change", "nothing to judge"]
RECONNECTION = (
    "7 steps give one key again, if the core's window has the phone's next NAS COUNT: idle, service, deliver, "
    "connect, deliver, deliver, deliver"
)
AUTHENTICATION = (
    "11 steps give one key again, with a new KASME: auth, smc, deliver, deliver, idle, service, deliver, "
    "connect, deliver, deliver, deliver"
)


def report(name: str) -> str:
    return (EXAMPLES / f"{name}.out").read_text()


def cut(text: str, count: int, roots: int) -> str:
    """A report of the first steps, and of the rows of the first KASMEs."""
    lines = text.splitlines()
    end = next(place for place, line in enumerate(lines) if line.startswith("end "))
    later = [place for place, line in enumerate(lines) if " root " in line][roots]
    return "\n".join([*lines[:count], f"end {count} 0 0", *lines[end + 1 : later]]) + "\n"


class Verdicts(unittest.TestCase):
    def test_only_these_of_the_kept_runs_differ(self) -> None:
        told: dict[int, set[str]] = {0: set(), 1: set(), 3: set()}
        for file in [*EXAMPLES.glob("run/*.out"), *EXAMPLES.glob("worked/*.out"), *EXAMPLES.glob("two/*.out")]:
            if file.stem in ("coincidence", "no-scenario"):
                self.assertRaises(kenb_changes.NoReport, verdict.judged, file.read_text())
            else:
                told[verdict.judged(file.read_text()).status].add(file.stem)
        self.assertLessEqual({"complete-lost", "eight-ahead", "eight-preparations", "key-change-overtaken"}, told[1])
        self.assertLessEqual({"bidding-down", "rejects", "repeated-root", "wrong-ksi"}, told[3])
        self.assertLessEqual({"ordinary", "key-change", "seven-ahead", "relocation"}, told[0])

    def test_each_handover_and_key_change_is_told(self) -> None:
        for name, lines in (
            (
                "run/ordinary",
                [
                    "steps 11 to 15: phone and station 1 have one key",
                    "steps 20 to 24: phone and station 0 have one key",
                    "all agree",
                ],
            ),
            (
                "worked/wide-earfcn",
                [
                    "steps 9 to 13: phone and station 1 have one key",
                    "steps 18 to 22: phone and station 0 have one key",
                    "all agree",
                ],
            ),
            ("run/wrong-ksi", NOTHING),
            (
                "worked/key-change-overtaken",
                [
                    "steps 12 to 16: phone and station 0 have different keys; of different KASMEs",
                    "step 20: connection or key change: no station took its key",
                    RECONNECTION,
                    "keys differ",
                ],
            ),
        ):
            self.assertEqual(lines, verdict.judged(report(name)).lines(), name)

    def test_what_was_not_made_is_told(self) -> None:
        for name, lines in (
            (
                "run/cancelled-s1",
                [
                    "step 10: handover over S1 to station 1, cell 11,101: not commanded",
                    "steps 13 to 17: phone and station 1 have one key",
                    "steps 21 to 24: phone and station 0 have one key, not completed",
                    "all agree; 1 of 3 not made",
                ],
            ),
            (
                "run/two-preparations",
                [
                    "steps 8 to 9: handover over X2 to station 1, cell 11,101: not commanded",
                    "steps 12 to 17: phone and station 1 have one key",
                    "all agree; 1 of 2 not made",
                ],
            ),
            (
                "worked/within-a-station",
                [
                    "steps 8 to 11: phone and station 0 have one key",
                    "step 12: handover within the station to station 0, cell 10,100: not commanded",
                    "step 14: handover within the station to station 0, cell 10,100: not commanded, or not obeyed",
                    "all agree; 2 of 3 not made",
                ],
            ),
        ):
            self.assertEqual(lines, verdict.judged(report(name)).lines(), name)

    def test_a_request_that_no_station_took_is_told(self) -> None:
        """The target refuses what the source asks over X2: the report is that of the ordinary run up to there."""
        lines = report("run/ordinary").splitlines()
        cut = [*lines[:11], "11 station 1 PrepFull", *lines[27:]]
        text = "\n".join([*cut[:12], "end 12 7 16", *cut[13:]]) + "\n"
        self.assertEqual(
            ["step 10: handover over X2 to cell 11,101: not prepared", "all agree; 1 of 1 not made"],
            verdict.judged(text).lines(),
        )

    def test_a_key_change_that_the_phone_did_not_obey_is_told(self) -> None:
        lines = report("run/key-change").splitlines()
        end = next(place for place, line in enumerate(lines) if line.startswith("end "))
        text = "\n".join([*lines[:13], "end 13 9 25", *lines[end + 1 :]]) + "\n"
        self.assertEqual(
            ["step 12: key change in station 0, cell 10,100: not obeyed", "all agree; 1 of 1 not made"],
            verdict.judged(text).lines(),
        )

    def test_keys_that_a_handover_does_not_share_are_told_with_their_distance(self) -> None:
        last = verdict.judged(report("run/eight-preparations")).lines()[-3:]
        self.assertEqual(
            ["steps 52 to 56: phone and station 1 have different keys; 8 steps ahead", RECONNECTION, "keys differ"],
            last,
        )

    def test_what_gives_one_key_again_is_told(self) -> None:
        for name, healed in (
            ("eight-ahead", "step 80: a connection gives one key again"),
            ("complete-lost", "step 30: a connection gives one key again"),
        ):
            self.assertEqual([healed, "keys differ"], verdict.judged(report(f"run/{name}")).lines()[-2:], name)
        parted = cut(report("run/complete-lost"), 21, 3)
        self.assertEqual([AUTHENTICATION, "keys differ"], verdict.judged(parted).lines()[-2:])
        document = verdict.judged(parted).document()
        self.assertEqual((AUTHENTICATION.split(": ")[1].split(", "), None), (document["heals"], document["healed"]))

    def test_the_document_says_what_the_lines_say(self) -> None:
        told = verdict.judged(report("run/ordinary"))
        first = {
            "kind": "handover over X2",
            "first": 11,
            "last": 15,
            "station": 1,
            "cell": [11, 101],
            "outcome": "one key",
            "more": "",
        }
        document = told.document()
        self.assertEqual((1, "all agree", 0), (document["version"], document["verdict"], document["status"]))
        self.assertEqual(first, document["items"][0])  # type: ignore[index]

    def test_other_texts_are_no_reports(self) -> None:
        self.assertRaisesRegex(
            kenb_changes.NoReport, "it is a scenario", verdict.judged, (EXAMPLES / "run" / "ordinary.toml").read_text()
        )
        ordinary = report("run/ordinary")
        for text in (
            "",
            "end 0 0\n",
            ordinary[:500],
            ordinary.replace("\n5 station", "\n7 station"),
            ordinary[:-200],
            ordinary.replace("row 5", "row 6"),
        ):
            self.assertRaises(kenb_changes.NoReport, verdict.judged, text)

    def test_octets_that_are_no_text_are_no_report(self) -> None:
        self.assertRaisesRegex(
            kenb_changes.NoReport,
            "it is no text, since octet ff in line 2 is not UTF-8",
            verdict.text_of,
            b"0 both done\n\xff",
        )
        self.assertRaisesRegex(kenb_changes.NoReport, "it is empty", verdict.judged, "")

    def test_the_page_names_each_outcome(self) -> None:
        page = (EXAMPLES.parent / "docs" / "SCENARIOS.md").read_text()
        table = page[page.index("## Verdicts") :].split("\n## ")[0]
        for outcome in kenb_changes.Outcome:
            self.assertTrue(re.search(rf"^\| {re.escape(outcome.value)} \|", table, re.M), outcome)


if __name__ == "__main__":
    unittest.main()
