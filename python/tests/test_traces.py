"""The captures with known keys, line by line against the truth that was written when they were made."""
from __future__ import annotations

import json
import shutil
import tempfile
import unittest
from pathlib import Path
from typing import Any

from lte_sec.captures.capture_files import read, read_all
from lte_sec.captures.decoding import Message
from lte_sec.captures.cells import Cells, read_cells
from lte_sec.common.report import DIFFERS, Line, status
from lte_sec.common.terms import Derivations, Kasme
from lte_sec.judge.trace import Trace
from lte_sec.judge.reading import check

from .standin import StandIn

TRACES = Path(__file__).resolve().parents[2] / "examples" / "traces"
NAMES = ("A", "B1-star-earfcn", "B2-nh-twice", "C", "A-1-1", "C-3-3")
TSHARK = shutil.which("tshark") is not None


def truth_of(name: str) -> dict[str, Any]:
    truth: dict[str, Any] = json.loads((TRACES / f"{name}.truth.json").read_text(encoding="utf-8"))
    return truth


def traced(name: str, found: list[Message], cells: bool = True) -> Trace:
    kasmes = [Kasme(one["name"], bytes.fromhex(one["hex"])) for one in truth_of(name)["kasme"]]
    return check(
        Derivations(StandIn(), kasmes), Cells(read_cells(TRACES / f"{name}.cells.txt") if cells else []), found
    )


class Truth(unittest.TestCase):
    traces: dict[str, Trace]

    def lines(self, name: str, what: str) -> dict[str, Line]:
        found = [line for line in self.traces[name].lines if line.what in what.split()]
        self.assertEqual(len(found), len({line.frame for line in found}))
        return {line.frame: line for line in found}

    @classmethod
    def setUpClass(cls) -> None:
        cls.traces = {name: traced(name, list(read(TRACES / f"{name}.json.gz"))) for name in NAMES}

    def test_each_key_is_what_it_is(self) -> None:
        for name in NAMES:
            lines = self.lines(name, "KeNB KeNB* NH")
            wanted = {str(one["frame"]): one for one in truth_of(name)["messages"] if one.get("key")}
            self.assertEqual(set(lines), set(wanted))
            for frame, one in wanted.items():
                line, key = lines[frame], one["key"]
                self.assertEqual(
                    (
                        line.message,
                        line.what,
                        line.hex,
                        line.kasme,
                        line.base,
                        line.found,
                        line.wanted,
                        line.ncc,
                        line.wanted_ncc,
                        line.verdict != DIFFERS,
                    ),
                    (
                        one["message"],
                        key["what"],
                        key["hex"],
                        key["kasme"],
                        key["base"],
                        key["form"],
                        key["wanted"],
                        key["ncc"],
                        key["wanted_ncc"],
                        key["right"],
                    ),
                    (name, frame),
                )

    def test_each_nas_message_is_read(self) -> None:
        for name in NAMES:
            lines = self.lines(name, "MAC")
            wanted = {str(one["frame"]): one for one in truth_of(name)["nas"] if one["header"]}
            self.assertEqual(set(lines), set(wanted))
            for frame, one in wanted.items():
                line = lines[frame]
                self.assertEqual(
                    (line.count, line.found, line.kasme, (line.plain or b"").hex(), line.verdict == "right"),
                    (one["count"], one["mac"], one["kasme"], one["plain"], one["mac_right"]),
                    (name, frame),
                )
                text = ", text right" if one["header"] in (2, 4) else ""
                self.assertIn(
                    f"NAS {one['direction']} COUNT {one['count']} header {one['header']} MAC right{text} {one['name']}",
                    line.text,
                )

    def test_phone_and_station_agree_where_they_do(self) -> None:
        for name in NAMES:
            lines = self.lines(name, "agreement")
            wanted = {str(one["frame"]): one for one in truth_of(name)["handovers"]}
            self.assertEqual(set(lines), set(wanted))
            for frame, one in wanted.items():
                line = lines[frame]
                self.assertEqual(
                    (line.found, line.wanted, line.hex, line.verdict == "right"),
                    (one["station"], one["phone"], one["station_hex"], one["agree"]),
                    (name, frame),
                )

    def test_one_fault_is_one_difference(self) -> None:
        for name in NAMES:
            lines = self.traces[name].lines
            self.assertEqual(
                [line.frame for line in lines if line.verdict == DIFFERS and line.what != "agreement"],
                [str(one["frame"]) for one in truth_of(name)["faults"]],
            )
            self.assertEqual(status(lines), 1 if truth_of(name)["faults"] else 0)

    def test_the_cells_of_the_trace_itself_do_as_well(self) -> None:
        for name in NAMES:
            lines = traced(name, list(read(TRACES / f"{name}.json.gz")), cells=False).lines
            self.assertEqual(
                [(line.frame, line.verdict) for line in lines],
                [(line.frame, line.verdict) for line in self.traces[name].lines],
            )

    def test_commands_over_the_air_are_compared(self) -> None:
        for name in ("A", "C"):
            found = list(read_all([TRACES / f"{name}.json.gz", TRACES / f"{name}.rrc.json.gz"]))
            lines = [line for line in traced(name, found).lines if line.message == "RRC"]
            wanted = [one for one in truth_of(name)["rrc"] if "ncc" in one]
            self.assertEqual(
                [line.text for line in lines],
                [
                    (
                        f"frame {name}.rrc.json.gz {one['frame']} RRC command right: NCC {one['ncc']} cell "
                        f"({one['pci']},{one['earfcn']})"
                    )
                    for one in wanted
                ],
            )

    def test_a_station_that_is_named_by_the_line(self) -> None:
        texts = [line.text for line in self.traces["B1-star-earfcn"].lines if line.verdict == DIFFERS]
        self.assertEqual(
            texts,
            [
                "frame 34 X2 HandoverRequest KeNB* differs: is star(nh(2),10,6300), wanted star(nh(2),10,100)",
                (
                    "frame 34 phone and enb1 come apart here: the phone takes star(nh(2),10,100), enb1 has "
                    "star(nh(2),10,6300)"
                ),
            ],
        )

    @unittest.skipUnless(TSHARK, "tshark is not here")
    def test_tshark_gives_what_is_stored(self) -> None:
        for name in (*NAMES, "A.rrc", "C.rrc"):
            self.assertEqual(list(read(TRACES / f"{name}.pcapng")), list(read(TRACES / f"{name}.json.gz")), name)

    @unittest.skipUnless(TSHARK, "tshark is not here")
    def test_what_is_no_capture_is_told_in_one_line(self) -> None:
        with tempfile.TemporaryDirectory() as room:
            file = Path(room) / "no.pcapng"
            file.write_bytes(b"no capture")
            with self.assertRaisesRegex(Exception, "^tshark cannot read .*no.pcapng: .+$"):
                list(read(file))


if __name__ == "__main__":
    unittest.main()
