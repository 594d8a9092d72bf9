"""The list of what was seen: each message with its link, ends, connection and phone, and names that would spoil lines
as escapes."""
from __future__ import annotations

import contextlib
import copy
import io
import json
import unittest

from lte_sec.captures.cells import Cells
from lte_sec.common.escaped import shown
from lte_sec.judge.reading import check
from lte_sec.judge.account import Account
from lte_sec.common.terms import Derivations, Kasme
from lte_sec.traces.trace_document import as_json, comments, lines

from .simulated import CALLS, CELLS, ENDS, Phone, World
from .sound_worlds import ENB1, ENB2, ENB3, KASMES

HOSTILE = "enb1\nframe 1 NAS differs\ud800\u202e"


def two_phones() -> World:
    world, one, other = World(), Phone("one", KASMES[0]), Phone("other", KASMES[1])
    world.attach(one, ENB1)
    world.attach(other, ENB1)
    world.x2(one, ENB2)
    world.s1(other, ENB3)
    world.again(one, ENB1)
    return world


def seen(world: World) -> Account:
    named = [Kasme(f"k{place}", kasme) for place, kasme in enumerate(KASMES)]
    return check(Derivations(CALLS, named), Cells(CELLS), copy.deepcopy(world.messages), budget=1_000).seen


class SeenList(unittest.TestCase):
    def test_each_message_is_there_with_connection_and_phone(self) -> None:
        world = two_phones()
        found = seen(world)
        self.assertEqual([one.frame for one in found.messages], [one.frame for one in world.messages])
        self.assertEqual([one.frame for one in found.messages if one.connection is None], [])
        self.assertEqual({one.connection: one.phone for one in found.messages}, {1: 1, 2: 2, 3: 1})
        asked = [one for one in found.messages if one.kind == "HandoverRequest"]
        self.assertEqual(
            [(one.link.kind, one.source.name, one.target.name, one.connection) for one in asked],
            [("X2", "enb1", "enb2", 1), ("S1", "10.0.0.1:36412", "enb3", 2)],
        )
        self.assertEqual(
            [(one.link.one, one.link.way) for one in found.messages if one.kind == "PathSwitchRequest"],
            [("enb2", "up")],
        )
        of_x2 = {one.kind for one in found.messages if one.handover == asked[0].handover}
        self.assertLessEqual(
            {"HandoverRequest", "HandoverRequestAcknowledge", "PathSwitchRequest", "UEContextRelease"}, of_x2
        )

    def test_each_key_has_both_octets(self) -> None:
        world = two_phones()
        asked = next(one for one in world.messages if one.link == "X2")
        right, asked.key = asked.key, bytes(32)
        values = [value for one, value in seen(world).values() if one.frame == asked.frame and value.what == "KeNB*"]
        self.assertEqual(
            [(value.hex, value.wanted_hex, value.found, value.wanted) for value in values],
            [("00" * 32, (right or b"").hex(), "none", "star(kenb(0),10,100)".replace("10,100", "301,6300"))],
        )

    def test_the_document_numbers_messages(self) -> None:
        found = seen(two_phones())
        document = json.loads(as_json(found))
        self.assertEqual(len(document["messages"]), len(found.messages))
        for line in document["lines"]:
            self.assertEqual(document["messages"][line["number"]]["frame"], line["frame"])
        self.assertEqual(
            {line["nas"]["name"] for line in document["lines"] if line["what"] == "MAC"}
            & {"Attach accept", "Service request"},
            {"Attach accept", "Service request"},
        )

    def test_names_that_would_spoil_lines_are_escaped(self) -> None:
        world = two_phones()
        first = copy.copy(world.messages[0])
        first.name, first.nas, first.station, first.station_name, first.enb_id = (
            "S1SetupRequest",
            [],
            ENB2 >> 8,
            HOSTILE,
            None,
        )
        first.frame, first.time, first.source = "0", 0.0, ENDS["enb2"]
        world.messages.insert(0, first)
        named = [Kasme(f"k\n{place}", kasme) for place, kasme in enumerate(KASMES)]
        found = check(Derivations(CALLS, named), Cells(), copy.deepcopy(world.messages), budget=1_000).seen
        out = io.TextIOWrapper(io.BytesIO(), encoding="utf-8")
        with contextlib.redirect_stdout(out):
            for line in lines(found):
                print(line)
            print(as_json(found))
            print(*comments(found).values(), sep="\n")
        every = [*lines(found), *comments(found).values()]
        self.assertEqual([line for line in every if "\n" in line], [])
        self.assertTrue(any("enb1\\x0aframe 1 NAS differs\\ud800\\u202e" in line for line in every))
        self.assertEqual(shown("as it is: Ä €"), "as it is: Ä €")


if __name__ == "__main__":
    unittest.main()
