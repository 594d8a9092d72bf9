"""Captures as they are: cut, with a snap length, malformed, changed in place, with S6a and GTPv2-C beside S1; and files
that are none."""
from __future__ import annotations

import gzip
import json
import shutil
import subprocess
import tempfile
import unittest
from pathlib import Path

from lte_sec.captures.capture_files import read, read_all
from lte_sec.captures.cells import Cells, read_cells
from lte_sec.common.report import DIFFERS, UNKNOWN, Line, status
from lte_sec.judge.reading import check
from lte_sec.common.terms import Derivations, Kasme

from .standin import StandIn
from .test_spoilt import report, stored
from .test_traces import TRACES, TSHARK
from .test_words import KASME, run

CALLS = StandIn()
VALUE = bytes.fromhex(KASME)
KENB = CALLS.kenb(VALUE, 0)
TOOLS = TSHARK and all(shutil.which(tool) for tool in ("editcap", "text2pcap", "mergecap"))


def chain(number: int) -> bytes:
    sync = KENB
    for _ in range(number):
        sync = CALLS.nh(VALUE, sync)
    return sync


def differing(lines: list[Line]) -> list[str]:
    return [line.text for line in lines if line.verdict == DIFFERS and line.what != "agreement"]


class Files(unittest.TestCase):
    def setUp(self) -> None:
        room = tempfile.TemporaryDirectory()
        self.addCleanup(room.cleanup)
        self.room = Path(room.name)

    def file(self, name: str, octets: bytes) -> Path:
        path = self.room / name
        path.write_bytes(octets)
        return path

    def changed(self, *changes: tuple[bytes, bytes]) -> list[Line]:
        """The lines of capture A with octets changed in place, each once."""
        octets = (TRACES / "A.pcapng").read_bytes()
        for old, new in changes:
            self.assertEqual((octets.count(old), len(old)), (1, len(new)))
            octets = octets.replace(old, new)
        return self.lines(self.file("changed.pcapng", octets))

    def lines(self, *captures: Path, kasmes: tuple[str, ...] = (KASME,)) -> list[Line]:
        named = [Kasme(f"k{place}", bytes.fromhex(kasme)) for place, kasme in enumerate(kasmes)]
        return check(
            Derivations(CALLS, named),
            Cells(read_cells(TRACES / "A.cells.txt")),
            read_all(list(captures)),
            budget=20_000,
        ).lines

    # -- files that are cut or none

    def test_a_file_of_json_that_is_cut_or_foreign_is_told_in_one_line(self) -> None:
        whole = gzip.decompress((TRACES / "A.json.gz").read_bytes())
        packed = (TRACES / "A.json.gz").read_bytes()
        for name, octets, why in (
            ("cut.json", whole[: len(whole) // 2], "is cut"),
            ("cut.json.gz", packed[: len(packed) // 2], "is cut"),
            ("foreign.json", b'{"a": 1}', "is not what tshark -T json prints"),
            ("list.json", b"[\n  {\n  }\n]\n", "a packet without layers"),
            ("dense.json", json.dumps(json.loads(whole)).encode(), "is not what tshark -T json prints"),
            ("empty.json", b"", "is cut"),
            ("no.json.gz", whole, "is no gzip file"),
            ("bits.json", bytes(range(256)), "it is no text"),
            ("damaged.json.gz", packed[:100] + bytes([packed[100] ^ 255]) + packed[101:], "damaged"),
            ("time.json", whole.replace(b'"frame.time_epoch"', b'"frame.when"', 1), "a packet without its time"),
        ):
            with self.subTest(name):
                got, out, err = run("check-trace", str(self.file(name, octets)), KASME)
                self.assertEqual((got, out), (2, ""))
                self.assertEqual(len(err.splitlines()), 1)
                self.assertIn(why, err)

    @unittest.skipUnless(TOOLS, "tshark is not here")
    def test_a_capture_that_is_cut_is_judged_as_far_as_it_goes(self) -> None:
        octets = (TRACES / "A.pcapng").read_bytes()
        file = self.file("cut.pcapng", octets[: len(octets) // 2 + 2])
        got, out, err = run("check-trace", "--cells", str(TRACES / "A.cells.txt"), str(file), KASME)
        self.assertEqual((got, err), (3, ""))
        self.assertRegex(
            out.splitlines()[-2],
            (
                "^frame 2[0-9] capture behind this frame not judged: cut.pcapng is judged "
                "to its frame 2[0-9] only: .*cut short"
            ),
        )
        self.assertIn("frame 24 InitialContextSetupRequest KeNB right: kenb(0)\n", out)
        self.assertNotIn("frame 41", out)

    @unittest.skipUnless(TOOLS, "tshark is not here")
    def test_a_snap_length_is_told(self) -> None:
        subprocess.run(
            ["editcap", "-s", "120", str(TRACES / "A.pcapng"), str(self.room / "short.pcapng")],
            check=True,
            capture_output=True,
        )
        lines = self.lines(self.room / "short.pcapng")
        self.assertIn(
            "frame 24 message of this frame not judged: the capture has only 120 of its 234 octets (snap length)",
            [line.text for line in lines],
        )
        self.assertEqual((differing(lines), status(lines)), ([], 3))

    @unittest.skipUnless(TOOLS, "tshark is not here")
    def test_what_tshark_calls_malformed_is_told(self) -> None:
        lines = self.changed((bytes.fromhex("490020") + KENB, bytes.fromhex("ffffff") + KENB))
        self.assertIn(
            "frame 24 message of this frame not judged: tshark calls it malformed", [line.text for line in lines]
        )
        self.assertEqual((differing(lines), status(lines)), ([], 3))

    @unittest.skipUnless(TOOLS, "tshark is not here")
    def test_ciphertext_that_looks_plain_hides_no_key(self) -> None:
        truth = json.loads((TRACES / "A.truth.json").read_text())
        accept = bytes.fromhex(next(one["wire"] for one in truth["nas"] if one["frame"] == 24))
        lines = self.changed((accept, accept[:6] + b"\x07\x42\xff\xff\xff" + accept[11:]))
        self.assertIn("frame 24 InitialContextSetupRequest KeNB right: kenb(0)", [line.text for line in lines])
        self.assertEqual([text[:19] for text in differing(lines)], ["frame 24 NAS down C"])

    # -- captures changed in place

    @unittest.skipUnless(TOOLS, "tshark is not here")
    def test_keys_changed_in_place(self) -> None:
        nh, back = chain(2), CALLS.kenb_star(chain(2), 10, 100)
        refreshed = CALLS.kenb_star(CALLS.kenb_star(nh, 301, 6300), 10, 100)
        lines = self.changed((back, refreshed))
        self.assertEqual((differing(lines), sum(line.verdict == UNKNOWN for line in lines)), ([], 2))
        lines = self.changed((back, CALLS.kenb_star(CALLS.kenb_star(nh, 302, 1575), 10, 100)))
        self.assertEqual([text[:35] for text in differing(lines)], ["frame 34 X2 HandoverRequest KeNB* d"])
        lines = self.changed((nh, chain(1)), (back, CALLS.kenb_star(chain(1), 10, 100)))
        self.assertEqual(differing(lines), ["frame 32 PathSwitchRequestAcknowledge NH differs: is nh(1), wanted nh(2)"])

    @unittest.skipUnless(TOOLS, "tshark is not here")
    def test_headers_changed_in_place(self) -> None:
        truth = json.loads((TRACES / "A.truth.json").read_text())
        wire = bytes.fromhex(next(one["wire"] for one in truth["nas"] if one["frame"] == 27))
        for header, told in (
            (9, "header type differs: is 9, which TS 24.301 9.3.1 reserves"),
            (0, "plain behind security"),
            (3, "differs"),
            (4, "header type differs: is 4, wanted 2"),
        ):
            lines = self.changed((wire, bytes([header << 4 | 7]) + wire[1:]))
            self.assertEqual([text[:14] for text in differing(lines)], ["frame 27 NAS d"], header)
            self.assertIn(told, differing(lines)[0])

    def test_capabilities_changed_in_place(self) -> None:
        lines = stored("A")
        place = next(
            place for place, line in enumerate(lines) if '"s1ap.integrityProtectionAlgorithms": "e0:00"' in line
        )
        lines[place] = lines[place].replace("e0:00", "80:00")
        from lte_sec.captures.capture_files import messages

        told = [line for line in report("A", list(messages(lines))) if line.verdict == DIFFERS]
        self.assertEqual(
            [line.text for line in told][:1],
            [
                (
                    "frame 24 InitialContextSetupRequest capabilities differ: are integrity 100, wanted 111 (bits "
                    "for algorithms 1, 2, 3)"
                )
            ],
        )

    # -- keys from the capture itself

    def capture(self, name: str, octets: bytes, *ports: str) -> Path:
        """A capture of one packet, by text2pcap."""
        text = "2024-05-14T08:59:00.000000Z\n000000 " + octets.hex(" ") + "\n"
        subprocess.run(
            ["text2pcap", "-t", "ISO", *ports, "-", str(self.room / name)],
            input=text,
            text=True,
            check=True,
            capture_output=True,
        )
        return self.room / name

    @unittest.skipUnless(TOOLS, "tshark is not here")
    def test_kasmes_of_s6a(self) -> None:
        def avp(code: int, data: bytes) -> bytes:
            return (
                code.to_bytes(4, "big")
                + b"\xc0"
                + (12 + len(data)).to_bytes(3, "big")
                + (10415).to_bytes(4, "big")
                + data
                + bytes(-len(data) % 4)
            )

        vectors = b"".join(
            avp(
                1414,
                avp(1419, bytes([0, 0, 0, turn]))
                + avp(1447, bytes(16))
                + avp(1448, bytes(8))
                + avp(1449, bytes(16))
                + avp(1450, kasme),
            )
            for turn, kasme in ((1, bytes(32)), (2, VALUE))
        )
        body = avp(1413, vectors)
        answer = (
            b"\x01"
            + (20 + len(body)).to_bytes(3, "big")
            + b"\x40"
            + (318).to_bytes(3, "big")
            + (16777251).to_bytes(4, "big")
            + bytes(8)
            + body
        )
        home = self.capture("s6a.pcapng", answer, "-S", "3868,3868,46")
        lines = self.lines(home, TRACES / "A.pcapng", kasmes=())
        self.assertEqual(lines[0].text, "frame 1 S6a AuthenticationInformationAnswer has the KASMEs s6a-1.1, s6a-1.2")
        self.assertEqual((differing(lines), status(lines)), ([], 0))
        self.assertIn(
            "frame A.pcapng 24 InitialContextSetupRequest KeNB right: kenb(0) of s6a-1.2", [line.text for line in lines]
        )
        got, out, err = run("check-trace", str(TRACES / "A.json.gz"))
        self.assertEqual((got, out), (2, ""))
        self.assertIn("the capture has no S6a and no GTPv2-C that tells one", err)

    @unittest.skipUnless(TOOLS, "tshark is not here")
    def test_what_a_core_hands_to_the_next(self) -> None:
        def relocation(nh: bytes, ncc: int, ksi: int = 0) -> Path:
            context = (
                bytes([4 << 5 | 1 << 4 | ksi, 0, 0x22])
                + bytes(6)
                + VALUE
                + nh
                + bytes([ncc])
                + bytes([2, 0xF0, 0x70, 0, 0])
                + bytes(12)
            )
            body = b"\x6b" + len(context).to_bytes(2, "big") + b"\0" + context
            request = b"\x48\x85" + (8 + len(body)).to_bytes(2, "big") + bytes(8) + body
            return self.capture("s10.pcapng", request, "-u", "2123,2123")

        for nh, ncc, ksi, told in (
            (chain(4), 4, 0, []),
            (chain(5), 4, 0, ["GTPv2 ForwardRelocationRequest NH differs: is nh(5), wanted nh(4)"]),
            (chain(4), 4, 3, ["GTPv2 ForwardRelocationRequest KASME is that of k0; KSI differs: is 3, wanted 0"]),
        ):
            handed = list(read(relocation(nh, ncc, ksi)))
            self.assertEqual([(one.link, one.name) for one in handed], [("GTPv2", "ForwardRelocationRequest")])
            found = list(read(TRACES / "A.json.gz"))
            place = next(place for place, one in enumerate(found) if one.name == "HandoverRequired")
            handed[0].frame, handed[0].time = "40.5", found[place].time
            found[place + 1 : place + 1] = handed
            for one in found:
                one.nh = nh if one.name == "HandoverRequest" and one.link == "S1" else one.nh
            lines = check(
                Derivations(CALLS, [Kasme("k0", VALUE)]), Cells(read_cells(TRACES / "A.cells.txt")), found
            ).lines
            self.assertEqual([text.removeprefix("frame 40.5 ") for text in differing(lines)], told)
            self.assertIn("frame 41 HandoverRequest NH right: ", "\n".join(map(str, lines)))


if __name__ == "__main__":
    unittest.main()
