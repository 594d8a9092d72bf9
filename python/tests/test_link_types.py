"""Captures whose link type tshark does not decode by itself, that are cut, or that are empty."""
from __future__ import annotations

import shutil
import struct
import tempfile
import unittest
from pathlib import Path

from lte_sec.captures import capture_files as captures
from lte_sec.captures.link_types import Ways, preferences, user_dlt
from lte_sec.common.terms import DOWN, UP, Derivations, TraceError, kasmes_of

from .standin import StandIn
from .test_traces import TRACES
from .test_words import KASME, run

CAPTURE = TRACES / "A.pcapng"


def nas() -> list[bytes]:
    """The NAS messages of a trace."""
    return [pdu for message in captures.read(TRACES / "A.json.gz") for pdu in message.nas]


def written(file: Path, dlt: int, packets: list[bytes]) -> Path:
    """A capture with this link type."""
    head = struct.pack("<IHHiIII", 0xA1B2C3D4, 2, 4, 0, 0, 65535, dlt)
    file.write_bytes(
        head
        + b"".join(struct.pack("<IIII", number, 0, len(one), len(one)) + one for number, one in enumerate(packets, 1))
    )
    return file


class Numbers(unittest.TestCase):
    def test_a_number_is_one_of_those_for_users(self) -> None:
        self.assertEqual(
            [user_dlt("48"), user_dlt("45"), user_dlt("60"), user_dlt("61"), user_dlt("1"), user_dlt("")],
            [150, 147, 162, None, None, None],
        )

    def test_tshark_is_told_of_all_but_nas(self) -> None:
        self.assertEqual(
            preferences(["150=s1ap", "148=nas-eps"]), ["-o", 'uat:user_dlts:"User 3 (DLT=150)","s1ap","0","","0",""']
        )
        for wrong in ("150", "150=", "146=s1ap", "163=s1ap", "x=s1ap", "150=nothing"):
            with self.assertRaises(TraceError):
                preferences([wrong])

    def test_the_way_of_a_message_is_told_by_its_type_or_its_mac(self) -> None:
        ways = Ways(Derivations(StandIn(), kasmes_of([KASME])))
        found = [ways.way(pdu) for pdu in nas()]
        self.assertEqual(found, [UP, DOWN, UP, DOWN, UP, DOWN, UP, DOWN])


@unittest.skipIf(shutil.which("tshark") is None, "tshark is not here")
class Files(unittest.TestCase):
    def setUp(self) -> None:
        folder = tempfile.TemporaryDirectory()
        self.addCleanup(folder.cleanup)
        self.room = Path(folder.name)

    def test_nas_alone_is_judged(self) -> None:
        file = written(self.room / "nas.pcap", 148, nas())
        status, out, err = run("check-trace", "--dlt", "148=nas-eps", str(file), KASME)
        self.assertEqual((status, err), (0, ""))
        self.assertIn("frame 5 NAS up COUNT 0 header 4 MAC right, text right Security mode complete\n", out)
        self.assertTrue(out.endswith("5 right, 0 differs, 0 not judged\n"), out)

    def test_a_link_type_that_is_not_decoded_is_told_with_what_decodes_it(self) -> None:
        for word in ("check-trace", "wireshark"):
            status, out, err = run(word, str(written(self.room / "s1ap.pcap", 150, [b"\0\x11\0"])), KASME)
            self.assertEqual((status, out, err.count("\n")), (2, "", 1))
            self.assertIn(
                (
                    '--dlt 150=s1ap decodes it, or in Wireshark the line "User 3 (DLT=150)","s1ap","0","","0","" of '
                    "its table user_dlts"
                ),
                err,
            )

    def test_half_a_capture_is_not_told_as_whole(self) -> None:
        half = self.room / "half.pcapng"
        half.write_bytes(CAPTURE.read_bytes()[:-20])
        status, _, err = run("wireshark", str(half), KASME)
        self.assertEqual(status, 3)
        self.assertIn("half.pcapng is judged to its frame", err)

    def test_an_empty_capture_is_said(self) -> None:
        status, out, err = run("wireshark", str(written(self.room / "empty.pcap", 1, [])), KASME)
        self.assertEqual((status, out, err), (3, "", "lte_sec: the capture has no message of S1AP, X2AP, RRC or NAS\n"))


class Names(unittest.TestCase):
    def test_the_core_has_the_name_of_its_setup(self) -> None:
        _, out, _ = run("check-trace", "--json", str(TRACES / "A.json.gz"), KASME)
        self.assertIn('"mme1"', out)
