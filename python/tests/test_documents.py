"""The documents of texts that are fixed: each says what its text says."""
from __future__ import annotations

import json
import unittest
from pathlib import Path

from lte_sec.runs.documents import answer_of, of_audit, of_calc, of_fleet, of_ladder, run_of

EXAMPLES = Path(__file__).resolve().parents[2] / "examples"


def lines(name: str) -> list[str]:
    return (EXAMPLES / f"{name}.out").read_text().splitlines()


class Documents(unittest.TestCase):
    def test_a_fleet_has_the_steps_and_keys_of_each_phone(self) -> None:
        told = of_fleet(lines("fleet/two-phones"))
        self.assertEqual(
            ([0, 1], 16),
            (sorted({step["phone"] for step in told["steps"]}), sum(key["phone"] == 1 for key in told["keys"])),
        )
        step = next(one for one in told["steps"] if one["phone"] == 1 and one["step"] == 4)
        self.assertEqual(
            ("core", "done", {"record": 2, "over": "s1"}, 0, "initial"),
            (step["actor"], step["answer"], step["sent"], step["key"]["ncc"], step["key"]["way"]),
        )
        self.assertEqual(
            [{"step": 1, "by": 0}, {"step": 3, "by": 0}, {"step": 5, "by": 1}], of_fleet(lines("fleet/taken"))["taken"]
        )
        self.assertEqual("fleet 6 coincidence 2 0 1 3", of_fleet(lines("fleet/cross"))["coincidence"])

    def test_two_cores_have_their_numbers(self) -> None:
        told = run_of(lines("two/relocation"))
        self.assertEqual(
            {"core 0", "core 1"}, {step["actor"] for step in told["steps"] if step["actor"].startswith("core")}
        )
        self.assertEqual(
            {"row": 12, "kind": "kenb", "values": [0, 2], "holders": ["phone", "core", "station 1"]},
            {name: told["keys"][12][name] for name in ("row", "kind", "values", "holders")},
        )

    def test_an_audit_has_the_path_of_each_station(self) -> None:
        told = of_audit(lines("audit/ordinary"))
        self.assertEqual([{"station": 0, "path": [7, 8]}, {"station": 1, "path": [8]}], told["keys"][8]["stations"])
        self.assertEqual((True, None, []), (told["checked"], told["coincidence"], told["keys"][0]["stations"]))
        self.assertEqual("f7", of_audit(lines("audit/ordinary"), {8: "f7"})["keys"][8]["frame"])

    def test_a_ladder_has_its_keys(self) -> None:
        self.assertEqual(
            ["root", "kenb", "nh", "nh", "star"], [key["kind"] for key in of_ladder(lines("ladder/chain"))["keys"]][:5]
        )
        self.assertEqual("3 coincidence root 1", of_ladder(lines("ladder/coincidence"))["coincidence"])

    def test_each_line_of_calc_has_its_answer(self) -> None:
        for name in ("keys", "pdus", "vectors", "bad"):
            answers = lines(f"calc/{name}")
            told = of_calc((EXAMPLES / f"calc/{name}.txt").read_text().split("\n"), answers)["lines"]
            self.assertEqual(answers, [one["answer"] for one in told], name)
            json.dumps(told)

    def test_answers_of_calc_have_names(self) -> None:
        for word, answer, out, refused in (
            ("kenb", "ab" * 32, {"kenb": "ab" * 32}, None),
            ("eea2", "-", {"text": ""}, None),
            ("eia2", "9f3b6a95", {"mac": "9f3b6a95"}, None),
            ("nas", "opens 2 5 0748010203", {"type": 2, "count": 5, "text": "0748010203"}, None),
            ("srb", "opens 7 6869 unchecked", {"count": 7, "text": "6869", "unchecked": True}, None),
            (
                "nas",
                "opens 2 5 eia1 eea2 eea3 0748",
                {"type": 2, "count": 5, "algorithms": "eia1 eea2 eea3", "text": "0748"},
                None,
            ),
            (
                "nas",
                "opens 2 5 eia1 no NAS message",
                {"type": 2, "count": 5, "algorithms": "eia1", "no_nas_message": True},
                None,
            ),
            ("short-mac-i", "0a76", {"short-mac-i": "0a76"}, None),
            ("srb", "no algorithm but uplink opens 5 eia1 eea2 00", {}, "no algorithm but uplink opens 5 eia1 eea2 00"),
            ("service-request", "opens 165", {"count": 165}, None),
            ("seal-nas", "17feb0", {"pdu": "17feb0"}, None),
            (
                "reach",
                f"vertical 1 {'00' * 32} {'11' * 32}",
                {"way": "vertical", "steps": 1, "nh": "00" * 32, "kenb-star": "11" * 32},
                None,
            ),
            (
                "nas",
                "mac fails 5 wanted 0a769661 got 0a769660 text 07",
                {"count": 5, "wanted": "0a769661", "got": "0a769660", "text": "07"},
                "mac fails",
            ),
            (
                "service-request",
                "mac fails 5 wanted 0a76 got 0a77",
                {"count": 5, "wanted": "0a76", "got": "0a77"},
                "mac fails",
            ),
            ("nas", "short", {}, "short"),
            ("nas", "no count", {}, "no count"),
            ("srb", "count spent", {}, "count spent"),
            ("nas", "bad header 07", {}, "bad header 07"),
            ("kenb", "bad kasme", {}, "bad kasme"),
        ):
            self.assertEqual({"answer": answer, "out": out, "refused": refused}, answer_of(word, answer), answer)


if __name__ == "__main__":
    unittest.main()
