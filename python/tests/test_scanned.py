"""Packets cut from tshark's JSON in pieces of any size, and read by their lines as by all of their JSON."""
from __future__ import annotations

import json
import re
import unittest
from collections.abc import Iterator
from dataclasses import replace

from lte_sec.captures.capture_files import messages
from lte_sec.captures.decoding import Message
from lte_sec.captures.layers import of_packet
from lte_sec.captures.packets import cut
from lte_sec.captures.scanner import of_lines, scanned
from lte_sec.common.terms import TraceError

from .test_spoilt import NAMES, stored

EVERY = (*NAMES, "A-1-1", "C-3-3", "lost-answers", "A.rrc", "C.rrc")
VALUES = ("", "00", "01", "0x1f", "-1", "zz", "00:11", "ff:ff:ff:ff", "3")  # in place of others


def packets(name: str) -> list[str]:
    return list(cut(stored(name), name))


def spoilt(text: str) -> Iterator[str]:
    """The packet with another value in each of its lines that have one, one after the other, but for numbers of IEs,
    which tshark makes itself."""
    for place, found in enumerate(re.finditer(r'"(?:s1ap|x2ap|lte-rrc)\.(?!id")[^"]*": "([^"]*)"', text)):
        yield text[: found.start(1)] + VALUES[place % len(VALUES)] + text[found.end(1) :]


def told(text: str, by_lines: bool) -> list[Message] | str:
    try:
        return list((of_lines if by_lines else of_packet)(text, "", "it"))
    except TraceError as fault:
        return str(fault)


class Scanned(unittest.TestCase):
    def test_lines_tell_what_all_of_the_json_tells(self) -> None:
        for name in EVERY:
            for text in packets(name):
                with self.subTest(capture=name):
                    self.assertEqual(told(text, True), told(text, False))

    def test_most_packets_are_read_by_their_lines(self) -> None:
        """All but the setups of X2, which tell cells."""
        read = [scanned(text, "", "it") for text in packets("C")]
        self.assertEqual(([message is None for message in read].count(True), len(read)), (2, 77))

    def test_values_that_are_none_end_alike(self) -> None:
        tried = 0
        for text in packets("A")[4:24:3]:
            for other in spoilt(text):
                tried += 1
                self.assertEqual(told(other, True), told(other, False))
        self.assertGreater(tried, 100)

    def test_what_is_rare_is_left_to_all_of_the_json(self) -> None:
        text = next(one for one in packets("A") if "InitialContextSetupRequest_element" in one)
        others = {
            "a snap length": text.replace('"frame.cap_len": "', '"frame.cap_len": "1'),
            "what does not decode": text.replace('"s1ap.nAS_PDU"', '"_ws.malformed"'),
            "an escape": text.replace('"frame.marked": "0"', '"frame.marked": "\\u0030"'),
            "a layer behind": text[: text.rindex("\n      }")]
            + ',\n        "s1ap": {\n          "a": "b"\n        }\n      }\n    }\n}',
            "two layers of IP": text.replace(
                '\n        "ip": {', '\n        "ip": {\n          "ip.src": "10.9.9.9"\n        },\n        "ip": {', 1
            ),
            "another layout": json.dumps(json.JSONDecoder(object_pairs_hook=dict).decode(text), indent=1),
            "a link type of a user": text.replace('"frame.encap_type": "1"', '"frame.encap_type": "45"'),
            "other cells": text.replace('"s1ap.UESecurityCapabilities_element"', '"s1ap.uE_HistoryInformation_tree"'),
        }
        for what, other in others.items():
            with self.subTest(what=what):
                self.assertTrue(other != text)
                self.assertIsNone(scanned(other, "", "it"))
                self.assertEqual(told(other, True), told(other, False))

    def test_pieces_of_any_size_are_the_same_packets(self) -> None:
        text = "".join(stored("A")[:1200]) + "\n]\n"
        text = text[: text.rindex("\n  }") + 4] + "\n]\n"
        whole = list(cut([text], "it"))
        self.assertGreater(len(whole), 3)
        for size in (1, 2, 3, 5, 7, 64, 1000, 8192, len(text) - 1):
            self.assertEqual(list(cut((text[at : at + size] for at in range(0, len(text), size)), "it")), whole)

    def test_a_packet_that_begins_anew_drops_what_came_before(self) -> None:
        one, *others = packets("A")[:2]
        text = "[\n  {\n    half\n  {" + one[1:-1] + "  },\n  {" + others[0][1:-1] + "  }\n]"
        self.assertEqual(
            [replace(message, frame="") for message in messages([text])],
            [
                replace(message, frame="")
                for message in messages(["[\n  {" + one[1:-1] + "  }\n", "  {" + others[0][1:-1] + "  }\n]"])
            ],
        )

    def test_what_tshark_does_not_print_is_told(self) -> None:
        for text, why in (
            ("", "is cut"),
            ("[\n", "is cut"),
            ("[\n  {\n", "is cut"),
            ("x", "is not what tshark"),
            ("[\n  {\n  }\n]\n", "without layers"),
            ("[\n  }\n]\n", "is not what"),
        ):
            with self.assertRaisesRegex(TraceError, why):
                list(messages([text]))


if __name__ == "__main__":
    unittest.main()
