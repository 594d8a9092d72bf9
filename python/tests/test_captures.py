"""What tshark's JSON says: bundled messages, wide EARFCNs, several NAS messages, ends with several addresses, words of
cells."""
from __future__ import annotations

import gzip
import tempfile
import unittest
from pathlib import Path

from lte_sec.captures.capture_files import messages
from lte_sec.captures.decoding import Command, Message, Pairs, Radio
from lte_sec.captures.cells import Cells, Site, read_cells, sites_of
from lte_sec.captures.fields import command
from lte_sec.captures.layers import pdu
from lte_sec.common.terms import TraceError
from lte_sec.captures.stations import Stations, station_end
from lte_sec.judge.told_cells import learn
from lte_sec.common.report import UNKNOWN

from .test_traces import TRACES, traced


def stored(name: str) -> list[str]:
    with gzip.open(TRACES / f"{name}.json.gz", "rt", encoding="utf-8") as lines:
        return list(lines)


def bundled(lines: list[str]) -> list[str]:
    """The JSON of a capture in which the layers of the first two NAS transports stand in one frame."""
    begins = [place for place, line in enumerate(lines) if line.startswith("  {")]
    first, second = [
        place for place in begins if any("DownlinkNASTransport_element" in line for line in lines[place : place + 200])
    ][:2]
    layers = next(place for place in range(second, len(lines)) if '"s1ap": {' in lines[place])
    end = next(place for place in range(layers, len(lines)) if lines[place].startswith("        }"))
    close = next(
        place
        for place in range(first, len(lines))
        if lines[place].startswith("        }") and '"s1ap": {' in "".join(lines[first:place])
    )
    return [*lines[:close], "        },\n", *lines[layers : end + 1], *lines[close + 1 :]]


class Captures(unittest.TestCase):
    def test_bundled_messages_are_all_there(self) -> None:
        lines = stored("A")
        whole, more = list(messages(lines)), list(messages(bundled(lines)))
        self.assertEqual(len(more), len(whole) + 1)
        frames = [message.frame for message in more if message.name == "DownlinkNASTransport"]
        self.assertEqual(frames[:2], ["20", "20"])

    def test_wide_earfcns_of_x2(self) -> None:
        cell = [("x2ap.pCI", "77"), ("x2ap.cellId_element", [("x2ap.eUTRANcellIdentifier", "00:10:30:10")])]
        wide = [("x2ap.id", "95"), ("x2ap.extensionValue_element", [("x2ap.EARFCNExtension", "131972")])], [
            ("x2ap.id", "96"),
            ("x2ap.extensionValue_element", [("x2ap.EARFCNExtension", "66436")]),
        ]
        fdd = [
            (
                "x2ap.fDD_element",
                [("x2ap.uL_EARFCN", "65535"), ("x2ap.dL_EARFCN", "65535"), ("x2ap.a", wide[0]), ("x2ap.b", wide[1])],
            )
        ]
        tdd = [
            (
                "x2ap.tDD_element",
                [
                    ("x2ap.eARFCN", "65535"),
                    ("x2ap.a", [("x2ap.id", "94"), ("x2ap.v", [("x2ap.EARFCNExtension", "66000")])]),
                ],
            )
        ]
        near = [
            (
                "x2ap.Neighbour_Information_item_element",
                [
                    ("x2ap.eCGI_element", [("x2ap.eUTRANcellIdentifier", "00:10:10:10")]),
                    ("x2ap.pCI", "10"),
                    ("x2ap.eARFCN", "100"),
                ],
            )
        ]
        for mode, earfcn in ((fdd, 66436), (tdd, 66000)):
            found = list(sites_of([("x2ap.servedCellInfo_element", cell + mode), ("x2ap.neighbour_Info_tree", near)]))
            self.assertEqual(
                [(site.eci, site.pci, site.earfcn) for site in found], [(0x10301, 77, earfcn), (0x10101, 10, 100)]
            )

    def test_wide_earfcns_of_commands(self) -> None:
        inside = ("lte-rrc.mobilityControlInfo_element",)
        radio: Radio = [
            (inside, "lte-rrc.targetPhysCellId", "77"),
            (inside, "lte-rrc.dl_CarrierFreq", "65535"),
            (inside, "lte-rrc.dl_CarrierFreq_v9e0", "66436"),
            (("lte-rrc.securityConfigHO_element",), "lte-rrc.nextHopChainingCount", "3"),
            (("lte-rrc.measConfig_element",), "lte-rrc.dl_CarrierFreq", "1"),
        ]
        self.assertEqual(command(radio, b"a"), Command(3, 77, 66436, False, b"a"))
        self.assertIsNone(command(radio[4:], b""))

    def test_nothing_that_tshark_was_asked_for(self) -> None:
        self.assertEqual(list(messages(["[]\n"])), [])
        self.assertEqual(list(messages(["[\n", "\n", "]\n"])), [])

    def test_several_nas_messages_of_one(self) -> None:
        items = [
            ("s1ap.id", "24"),
            ("s1ap.item_element", [("s1ap.nAS_PDU", "27:01"), ("s1ap.nAS_PDU", "27:02")]),
            ("s1ap.ENB_UE_S1AP_ID", "7"),
        ]
        tree: Pairs = [
            (
                "s1ap.S1AP_PDU_tree",
                [
                    (
                        "s1ap.initiatingMessage_element",
                        [("s1ap.value_element", [("s1ap.E_RABSetupRequest_element", items)])],
                    )
                ],
            )
        ]
        found = list(pdu(Message("1", 0.0, "", ""), "s1ap", tree))
        self.assertEqual(
            [(one.link, one.name, one.enb_id, one.nas) for one in found],
            [("S1", "E_RABSetupRequest", 7, [b"\x27\x01", b"\x27\x02"])],
        )

    def test_a_field_that_is_none_is_told(self) -> None:
        lines = [line.replace('"s1ap.SecurityKey": "ab', '"s1ap.SecurityKey": "xx') for line in stored("A")]
        told = [str(line) for line in traced("A", list(messages(lines))).lines if line.verdict == UNKNOWN]
        self.assertEqual([text[:39] for text in told if "tshark" in text], ["frame 24 message of this frame not judg"])

    def test_an_end_with_two_addresses_is_one(self) -> None:
        told = [
            Message("1", 1.0, "S1", "DownlinkNASTransport", "core:1", "first:1", "0x1"),
            Message("2", 2.0, "S1", "DownlinkNASTransport", "core:1", "second:1", "0x1"),
            Message("3", 3.0, "S1", "UplinkNASTransport", "second:1", "core:1", "0x2"),
        ]
        Stations.of(Cells(), told)
        self.assertEqual([station_end(message) for message in told], ["first:1"] * 3)

    def test_cells_of_commands_where_nothing_else_tells_them(self) -> None:
        told = [
            Message("1", 1.0, "X2", "HandoverRequest", "a", "b", old_x2=4, eci=0x10301),
            Message(
                "2",
                2.0,
                "X2",
                "HandoverRequestAcknowledge",
                "b",
                "a",
                old_x2=4,
                command=Command(0, 77, 66436, False, b""),
            ),
        ]
        cells = Cells([Site(0x10101, 10, 100, None, "enb1")])
        learn(cells, told)
        self.assertEqual(cells.pairs(), {(10, 100), (77, 66436)})
        self.assertEqual((cells.station(0x10102), cells.station(0x10301)), ("enb1", "eNB 103"))

    def test_bad_cells_are_told_with_their_line(self) -> None:
        for text, why in (
            ("# a\nenb1 10101 504 100", ":2: PCI is"),
            ("enb1 10101 10", ":1: a cell is"),
            ("enb1 x 10 100", ":1: a cell is"),
        ):
            with tempfile.TemporaryDirectory() as room:
                file = Path(room) / "cells"
                file.write_text(text)
                with self.assertRaisesRegex(TraceError, why):
                    read_cells(file)


if __name__ == "__main__":
    unittest.main()
