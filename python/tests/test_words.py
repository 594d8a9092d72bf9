"""The words of the launcher, repeated uses, and Wireshark's table."""
from __future__ import annotations

import contextlib
import gzip
import io
import json
import shutil
import subprocess
import sys
import tempfile
import unittest
from pathlib import Path
from unittest import mock

from lte_sec.common import derive
from lte_sec.traces import trace_words as words
from lte_sec.captures.capture_files import read
from lte_sec.traces.log_cells import cells_of
from lte_sec.common.mistakes import kdf
from lte_sec.traces.repeats import first_repeat
from lte_sec.common.terms import TraceError
from lte_sec.traces.wireshark import rows

from .standin import StandIn
from .test_traces import TRACES, TSHARK, traced

KASME = json.loads((TRACES / "A.truth.json").read_text())["kasme"][0]["hex"]


def run(*given: str, text: str = "") -> tuple[int, str, str]:
    """The status of a call of the launcher, and what it writes."""
    out, err = io.StringIO(), io.StringIO()
    with mock.patch.object(words, "proved_calls", StandIn), mock.patch.object(
        sys, "stdin", io.TextIOWrapper(io.BytesIO(text.encode()), encoding="utf-8")
    ):
        with contextlib.redirect_stdout(out), contextlib.redirect_stderr(err):
            status = words.main(list(given))
    return status, out.getvalue(), err.getvalue()


class Words(unittest.TestCase):
    def test_statuses_of_a_trace(self) -> None:
        cells = ["--cells", str(TRACES / "A.cells.txt")]
        for name, kasme, status in (("A", KASME, 0), ("B1-star-earfcn", KASME, 1), ("A", "00" * 32, 3)):
            got, out, err = run("check-trace", *cells, str(TRACES / f"{name}.json.gz"), kasme)
            self.assertEqual((got, err), (status, ""), out)

    def test_plain_texts(self) -> None:
        _, out, _ = run("check-trace", "--plain", str(TRACES / "A.json.gz"), f"ue1={KASME}")
        self.assertIn(
            "frame 26 NAS up COUNT 1 header 2 MAC right, text right Attach complete plain 074300035200c2\n", out
        )

    def test_what_is_wrong_is_told_in_one_line(self) -> None:
        there = str(TRACES / "A.json.gz")
        for given, line in (
            ((), "the words are:"),
            (("check-trace", there), "the KASMEs of its phones"),
            (("check-trace", "none.pcapng", KASME), "there is no capture none.pcapng"),
            (("check-trace", "--cells", "none", there, KASME), "the cells none cannot be read"),
            (("explain", "ff"), "a KASME is 64 hex digits"),
            (("explain", "--counts", "0", KASME), "--counts is 1 to"),
            (("explain", "--cell", "504,1", KASME), "--cell is PCI,EARFCN-DL"),
            (("check-trace", "--what", there, KASME), "there is no option --what"),
            (("repeats", "none"), "none cannot be read"),
            (("check-trace", "--cells", str(TRACES / "A.truth.json"), there, KASME), "A.truth.json:1: a cell is"),
        ):
            status, out, err = run(*given)
            self.assertEqual((status, out), (2, ""), given)
            self.assertIn(line, err)
            self.assertNotIn("Traceback", err)

    def test_explain_reads_a_log(self) -> None:
        log = (TRACES.parents[1] / "docs/cookbook/handover.log").read_text()
        kasme = "6f1d9a0c55e2473bb8a4c07e12f3d96a80bc4e7719d2053fe6a1b8c4d7720e95"
        status, out, _ = run("explain", "--cell", "301,1575", "--cell=87,3100", kasme, text=log)
        self.assertEqual(status, 1)
        self.assertIn(" star(nh(2),301,3100) on kenb(5) mixed cell\n", out)

    def test_explain_sweeps_cells_and_names_mistakes(self) -> None:
        kasme = bytes.fromhex(KASME)
        kenb = kdf(kasme, 0x11, bytes(4))
        star = kdf(kenb, 0x13, (17).to_bytes(2, "big"), (1575).to_bytes(2, "big"))
        right = kdf(kenb, 0x13, (301).to_bytes(2, "big"), (1575).to_bytes(2, "big"))
        turned = b"".join(right[at : at + 4][::-1] for at in range(0, 32, 4))
        status, out, _ = run(
            "explain",
            "--json",
            "--cell",
            "301,1575",
            KASME,
            text="\n".join(key.hex() for key in (kenb, star, kdf(kasme, 0x12, kasme), turned)),
        )
        found = json.loads(out)["keys"]
        self.assertEqual(status, 1)
        self.assertEqual([one["form"] for one in found], ["kenb(0)", "star(kenb(0),17,1575)", None, None])
        self.assertEqual(
            [one["mistake"] for one in found],
            [None, "unknown cell", "SYNC-input is KASME", "the octets of each word of 4 are reversed"],
        )
        self.assertEqual(found[3]["wanted"], {"hex": right.hex(), "form": "star(kenb(0),301,1575)"})

    def test_repeated_uses(self) -> None:
        self.assertEqual(str(first_repeat(["# a", "7 1 0 5", "7 1 1 5", "7,2,0,5", "8 1 0 5", ""])), "none")
        self.assertEqual(str(first_repeat(["7 1 0 5 00:11", "7 1 0 0x5 0011"])), "none")
        self.assertEqual(
            str(first_repeat(["7 1 0 5 0011", "7 1 0 5 0012"])),
            "lines 1 and 2: key 7, bearer 1, direction 0, COUNT 5 are used twice",
        )
        for bad in ("7 1 0", "7 1 0 five", "7\t1\t0"):
            with self.assertRaises(TraceError):
                first_repeat([bad])
        self.assertEqual(run("repeats", text="a 1 0 1\na 1 0 1\n")[0], 1)
        self.assertEqual(run("repeats", text="a 1 0 1\na 1 0 2\n")[:2], (0, "none\n"))

    def test_what_repeats_reads_has_bounds(self) -> None:
        for count, status in ((f"{2**32 - 1}", 0), (f"{2**32}", 2), ("-1", 2), ("\u00b2", 2), ("9" * 30, 2)):
            self.assertEqual(run("repeats", text=f"a 1 0 {count}\n")[0], status, count)
        status, out, err = run("repeats", text="a 1 0 1 " + "00" * 40_000 + "\n")
        self.assertEqual((status, out, err.count("\n")), (9, "", 1))
        self.assertIn("status 9: repeats: line 1 has more than 65,536 characters", err)
        with mock.patch("lte_sec.traces.repeats.MOST", 2):
            status, _, err = run("repeats", text="a 1 0 1\na 1 0 2\na 1 0 3\n")
        self.assertEqual(status, 9)
        self.assertIn("line 3: repeats reads 2 uses", err)

    def test_a_cell_that_is_none_is_a_fault_of_its_line(self) -> None:
        told = gzip.decompress((TRACES / "A.json.gz").read_bytes()).decode()
        for old, new, line in (
            (
                '"x2ap.dL_EARFCN": "6300"',
                '"x2ap.dL_EARFCN": "300000"',
                (
                    "frame 18 X2 X2SetupResponse tells of cell 0010201 (301,300000), which is none: PCI is 0 to 503, "
                    "EARFCN-DL 0 to 262143"
                ),
            ),
            ('"x2ap.pCI": "301"', '"x2ap.pCI": "504"', "tells of cell 0010201 (504,6300), which is none"),
            (
                '"lte-rrc.dl_CarrierFreq": "6300"',
                '"lte-rrc.dl_CarrierFreq": "300000"',
                (
                    "frame 29 X2 HandoverRequestAcknowledge command differs: cell is (301,300000), wanted "
                    "(301,6300); (301,300000) is no cell"
                ),
            ),
        ):
            with tempfile.NamedTemporaryFile("w", suffix=".json") as file:
                self.assertIn(old, told)
                file.write(told.replace(old, new))
                file.flush()
                status, out, err = run("check-trace", file.name, KASME)
            self.assertIn(line, out)
            self.assertEqual((status, err), (1 if "command" in line else 0, ""), out)

    def test_a_line_that_calc_does_not_answer_shows_no_key(self) -> None:
        calc = derive.Calc.__new__(derive.Calc)
        calc.program = mock.Mock()
        calc.program.stdout.readline.return_value = "bad pci\n"
        with self.assertRaisesRegex(TraceError, "^calc does not answer a line star$"):
            calc.kenb_star(bytes(32), 504, 0)

    def test_uses_as_tshark_prints_them(self) -> None:
        for lines, text, status in (
            (
                ["1\t0x00\t0x00\t5", "1\t\t\t", "1\t0\tuplink\t0x05"],
                (
                    "lines 1 and 3: key 1, bearer 0, direction 0, COUNT 5 are used twice; 1 PDU without security "
                    "context passed over"
                ),
                1,
            ),
            (
                ["1,1\t1,2\t0,0\t5,5", "1\t\t\t", "\t\t\t", "1,1\t\t\t"],
                "none; 3 PDUs without security context passed over",
                0,
            ),
            (["1,1\t1,1\t0,0\t5,5"], "lines 1 and 1: key 1, bearer 1, direction 0, COUNT 5 are used twice", 1),
            (["1,1\t1,1\t0,0\t5,5\t00:11,00:11"], "none", 0),
            (
                ["1,,,", "1,2,1,7", "1,2,down,7"],
                (
                    "lines 2 and 3: key 1, bearer 2, direction 1, COUNT 7 are used twice; 1 PDU without security "
                    "context passed over"
                ),
                1,
            ),
            (["1,2\t1\t0\t5"], "none; not judged: line 1, whose PDUs do not all have a security context", 3),
        ):
            found = first_repeat(lines)
            self.assertEqual((str(found), found.status), (text, status))

    def test_a_text_with_hex_and_no_key(self) -> None:
        self.assertEqual(run("explain", KASME, text="id 0x00112233 of 9988776655443322\n")[0], 3)
        for text, why in (("", "nothing in it"), ("\n \n", "nothing in it"), ("nothing here\n", "no key")):
            self.assertEqual(run("explain", KASME, text=text), (3, "", f"lte_sec: the text has {why}\n"))

    def test_explain_with_another_kasme_says_that_no_key_fits(self) -> None:
        text, few = "\n".join([StandIn().kenb(bytes(32), 1).hex(), "7" * 64]), (
            "--counts",
            "8",
            "--depth",
            "2",
            "--cell",
            "10,100",
        )
        lines = "".join(f"line {place}: {key} none\n" for place, key in enumerate(text.splitlines(), 1))
        for kasmes, whose in (((KASME,), "this KASME"), ((KASME, "11" * 32), "any of these 2 KASMEs")):
            self.assertEqual(
                run("explain", *few, *kasmes, text=text),
                (
                    1,
                    lines,
                    (
                        f"lte_sec: no key of the text fits {whose}; --far goes on, among "
                        "the algorithm keys of all KeNB*s\n"
                    ),
                ),
            )
            self.assertEqual(run("explain", "--far", *few, *kasmes, text=text), (1, lines, ""))
            self.assertEqual(
                [
                    json.loads(run("explain", "--json", *far, *few, *kasmes, text=text)[1])["fits"]
                    for far in ((), ("--far",))
                ],
                [False, True],
            )
        self.assertIn("kenb(1) of KASME 2", run("explain", *few, KASME, "00" * 32, text=text)[1])

    def test_explain_without_a_cell_takes_those_of_the_log(self) -> None:
        star = f"K_eNB* {StandIn().kenb_star(StandIn().kenb(bytes.fromhex(KASME), 5), 87, 3100).hex()}\n"
        for text, status, said in (
            ("pci=87 earfcn=3100\n", 0, "no cell is given; those of the text are tried: 87,3100"),
            ("to PCI 87\n", 1, "no cell is given, and a KeNB* needs one: --cell PCI,EARFCN"),
            ("phys_cell_id: 87\ndl_earfcn: 3100\n", 0, "those of the text are tried: 87,3100"),
            ("pci=504 earfcn=1\n", 1, "needs one"),
        ):
            got, out, err = run("explain", "--counts", "8", "--depth", "2", KASME, text=text + star)
            self.assertEqual(got, status, out)
            self.assertIn(said, err)
        self.assertEqual(
            run("explain", "--cell", "87,3100", "--counts", "8", KASME, text="pci=1 earfcn=1\n" + star)[::2], (0, "")
        )
        self.assertEqual(
            run("explain", "--counts", "8", KASME, text=StandIn().kenb(bytes.fromhex(KASME), 5).hex())[::2], (0, "")
        )

    def test_cells_of_a_log(self) -> None:
        for text, pairs in (
            ("HandoverRequest to=enb2 pci=87 earfcn=3100 ncc=0", [(87, 3100)]),
            ("PCI: 0x57, DL EARFCN 3100", [(87, 3100)]),
            ('"physCellId": 301, "dl-CarrierFreq": 1575', [(301, 1575)]),
            ("pci=1\npci=2\nearfcn=100", [(1, 100), (2, 100)]),
            ("pci=1 earfcn=100\npci=2", [(1, 100), (2, 100)]),
            ("spci=3 earfcn=4x", []),
            ("pci=1 earfcn=300000", []),
        ):
            self.assertEqual([(site.pci, site.earfcn) for site in cells_of(text.splitlines())], pairs, text)

    def test_explain_reads_logs_as_products_write_them(self) -> None:
        logs = TRACES.parents[1] / "examples/logs"
        kasme = "6f1d9a0c55e2473bb8a4c07e12f3d96a80bc4e7719d2053fe6a1b8c4d7720e95"
        for name, forms in (
            ("open5gs", ["kenb(5)", "nh(2) on kenb(5)"]),
            ("srsran", ["kenb(5)", "alg(kenb(5),3,2)", "alg(kenb(5),4,2)", "star(kenb(5),87,3100)"]),
            (
                "printed",
                ["kenb(5)"] * 3 + ["alg(kenb(5),3,2)", "alg(kenb(5),4,2)", "star(kenb(5),87,3100)", "nh(2) on kenb(5)"],
            ),
        ):
            self.assertIn("Written by hand", (logs / f"{name}.log").read_text())
            status, out, _ = run("explain", "--counts", "8", "--depth", "4", "--keys", str(logs / f"{name}.log"), kasme)
            self.assertEqual((status, [line.split(" ", 3)[3] for line in out.splitlines()]), (0, forms))

    def test_a_kasme_that_is_none_is_told_so(self) -> None:
        there = str(TRACES / "A.json.gz")
        for word, why in (
            (KASME[:62], "a KASME has 64 hex digits, and this word has 62"),
            ("0x" + KASME, "write a KASME without 0x"),
            (f"ue={KASME}0", "this word has 65"),
            ("g" + KASME[1:], f"letter 1 of this word is 'g': g{KASME[1:]}"),
            (KASME[:40] + "O" + KASME[41:], "letter 41 of this word is 'O'"),
            (f"ue={KASME[:-1]}l", "letter 64"),
            (":".join(KASME[place : place + 2] for place in range(0, 64, 2)), "without colons"),
        ):
            status, out, err = run("check-trace", there, word)
            self.assertEqual((status, out), (2, ""))
            self.assertIn(why, err)

    def test_one_document_for_machines(self) -> None:
        status, out, _ = run(
            "check-trace",
            "--json",
            "--cells",
            str(TRACES / "B1-star-earfcn.cells.txt"),
            str(TRACES / "B1-star-earfcn.json.gz"),
            f"ue1={KASME}",
        )
        told = json.loads(out)
        self.assertEqual(
            (status, told["version"], told["status"], told["summary"]),
            (1, 1, 1, {"right": 12, "differs": 2, "not judged": 0}),
        )
        line = next(one for one in told["lines"] if one["what"] == "KeNB*" and one["verdict"] == "differs")
        self.assertEqual(
            {
                name: line[name]
                for name in ("frame", "message", "is", "wanted", "ncc", "wanted_ncc", "base", "kasme", "cell")
            },
            {
                "frame": "34",
                "message": "HandoverRequest",
                "is": "star(nh(2),10,6300)",
                "wanted": "star(nh(2),10,100)",
                "ncc": 2,
                "wanted_ncc": 2,
                "base": "kenb(0)",
                "kasme": "ue1",
                "cell": [10, 100],
            }
            | {"message": line["message"]},
        )
        self.assertTrue(all(isinstance(one["time"], float) for one in told["lines"]))

    @unittest.skipUnless(TSHARK and shutil.which("editcap"), "tshark and editcap are not here")
    def test_a_copy_with_comments(self) -> None:
        with tempfile.TemporaryDirectory() as room:
            copy = Path(room) / "copy.pcapng"
            status, out, err = run(
                "check-trace",
                "--annotate",
                str(copy),
                "--cells",
                str(TRACES / "B1-star-earfcn.cells.txt"),
                str(TRACES / "B1-star-earfcn.pcapng"),
                KASME,
            )
            self.assertEqual((status, err), (1, ""))
            shown = subprocess.run(
                [
                    "tshark",
                    "-n",
                    "-r",
                    str(copy),
                    "-Y",
                    'frame.comment contains "differs"',
                    "-T",
                    "fields",
                    "-e",
                    "frame.number",
                ],
                capture_output=True,
                text=True,
            )
            self.assertEqual(shown.stdout.split(), ["34"])
            self.assertEqual(out.splitlines()[-1], "12 right, 2 differs, 0 not judged")

    def test_the_table_has_the_keys_in_use(self) -> None:
        for name in ("A", "C"):
            truth = json.loads((TRACES / f"{name}.truth.json").read_text())
            changed = [
                (one["key"]["kasme"], one["key"]["form"])
                for one in truth["messages"]
                if one["message"] == "UEContextModificationRequest"
            ]
            used: dict[tuple[str, str, str], dict[str, str]] = {}
            for one in truth["keys"]:  # the KeNB of a key change is no key of PDCP: that is the KeNB* made from it
                if one["form"][:5] in ("alg(3", "alg(4", "alg(5") and (one["kasme"], one["parent"]) not in changed:
                    used.setdefault((one["kasme"], one["base"], one["parent"]), {})[one["form"][4]] = one["used"]
            trace = traced(name, list(read(TRACES / f"{name}.json.gz")))
            table = "\n".join(map(str, rows(trace.seen, trace.derivations.calls))).splitlines()
            wanted = {(keys["3"], keys["5"], keys["4"]) for keys in used.values()}
            got = {tuple(json.loads(f"[{row}]")[1:]) for row in table if not row.startswith("#")}
            self.assertEqual(got, wanted)


if __name__ == "__main__":
    unittest.main()
