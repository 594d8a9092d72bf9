"""Links that a trace covers, second taps, clocks, stations behind one end, and cells that change: what is told of
them."""
from __future__ import annotations

import copy
import unittest
from dataclasses import replace

from lte_sec.captures.cells import Cells, Site
from lte_sec.captures.coverage import Coverage, taken, word
from lte_sec.captures.decoding import Message
from lte_sec.judge.reading import Said, check
from lte_sec.common.report import DIFFERS, NOTE, RIGHT
from lte_sec.judge.account import Account
from lte_sec.captures.stations import Stations
from lte_sec.captures.taps import without_second_taps
from lte_sec.common.terms import Derivations, Kasme, TraceError

from .simulated import CALLS, CELLS, ENDS, World
from .situations import numbered, without_commands
from .sound_worlds import ENB1, ENB2, ENB3, KASMES, attached


def seen(messages: list[Message], said: Said = Said()) -> Account:
    named = [Kasme(f"k{place}", kasme) for place, kasme in enumerate(KASMES)]
    return check(Derivations(CALLS, named), Cells(CELLS), copy.deepcopy(messages), budget=1_000, said=said).seen


def differing(account: Account) -> list[str]:
    return [value.text for _, value in account.values() if value.verdict == DIFFERS]


def world() -> World:
    made, phone = attached()
    for eci in (ENB2, ENB1, ENB2):
        made.x2(phone, eci)
    made.s1(phone, ENB3)
    return made


class Covered(unittest.TestCase):
    def test_the_note_names_links(self) -> None:
        self.assertEqual(seen(world().messages).head, ("links covered: S1 of enb1, enb2, enb3; X2 of enb1 and enb2",))
        at_one = [one for one in world().messages if one.link == "X2" or ENDS["enb1"] in (one.source, one.target)]
        self.assertEqual(seen(at_one).head[0], "links covered: S1 of enb1; X2 of enb1 and enb2")
        self.assertTrue(seen(at_one).head[1].startswith("links not covered: S1 of enb2: "))

    def test_the_user_has_the_last_word(self) -> None:
        told = seen(world().messages, Said(("X2/enb1/enb3",), ("S1/enb2/down",)))
        self.assertIn("S1 of enb1, enb3, enb2 up", told.head[0])
        self.assertIn("S1 of enb2 down", told.head[1])
        for wrong in ("enb1", "S1", "S1/enb1/left", "X2/enb1", "S1/"):
            with self.assertRaisesRegex(TraceError, "^a link is S1/STATION"):
                word(wrong)

    def test_one_direction_is_missed_only_where_the_other_is_thick(self) -> None:
        coverage = Coverage()
        for station, ways in (("a", "up down"), ("b", "up"), ("c", "up up up up")):
            for way in ways.split():
                coverage.s1_seen(station, way)
        self.assertEqual([coverage.s1(station) for station in "abcd"], [True, True, False, False])

    def test_a_message_that_presupposes_the_other_direction_shows_that_this_is_missed(self) -> None:
        """Messages down name the identity that the station gave, so that it sent something; a path switch may just be
        the first message up."""
        enb, core = ENDS["enb2"], "10.0.0.1:36412"
        thick = [
            Message("1", 1.0, "S1", "UplinkNASTransport", ENDS["enb1"], core, enb_id=1),
            Message("2", 2.0, "S1", "DownlinkNASTransport", core, ENDS["enb1"], enb_id=1),
        ]
        for names, covered in (
            (("DownlinkNASTransport",), (False, True)),
            (("UEContextReleaseComplete",), (True, False)),
            (("UplinkNASTransport",), (True, False)),
            (("InitialUEMessage",), (True, True)),
            (("PathSwitchRequest", "UplinkNASTransport"), (True, True)),
        ):
            thin = [
                Message(name, 3.0, "S1", name, *((core, enb) if name.startswith("Down") else (enb, core)), enb_id=7)
                for name in names
            ]
            messages = [*thick, *thin]
            found = taken(Stations.of(Cells(CELLS), messages).links(), (), ())
            self.assertEqual((found.s1(enb, "up"), found.s1(enb, "down")), covered, names)


class Taps(unittest.TestCase):
    def test_a_second_tap_is_left_out(self) -> None:
        messages = world().messages
        again = sorted(
            [
                *messages,
                *(replace(one, frame=f"b.pcap {one.frame}", time=one.time + 0.001, tag="0x7") for one in messages),
            ],
            key=lambda one: one.time,
        )
        doubled = [copy.copy(one) for one in messages for _ in range(2)]
        for place, one in enumerate(doubled):
            one.frame = str(place + 1)
        for name, both in (("two captures", again), ("one capture", doubled)):
            with self.subTest(name):
                told = seen(both)
                self.assertEqual(differing(told), [])
                self.assertIn(f"{len(messages)} messages are shown twice", told.head[-1])

    def test_what_comes_again_by_itself_stays(self) -> None:
        messages = world().messages
        repeated = [*messages[:5], replace(messages[4], frame="5b"), *messages[5:]]
        self.assertEqual(without_second_taps(repeated), (repeated, ""))

    def test_a_clock_of_x2_that_is_off(self) -> None:
        for off in (-1.2, -0.02, 0.3, 1.4):
            made = world()
            last: dict[str, float] = {}
            for place, one in enumerate(made.messages):
                one.time = 100.0 + 0.5 * place
                last[one.link] = one.time
            moved = sorted(
                (replace(one, time=one.time + off) if one.link == "X2" else one for one in made.messages),
                key=lambda one: one.time,
            )
            with self.subTest(off):
                told = seen(moved)
                self.assertEqual(differing(told), [])
                self.assertEqual(
                    any("clock of X2" in line for line in told.head),
                    moved != made.messages and [one.frame for one in moved] != [one.frame for one in made.messages],
                )


class Gaps(unittest.TestCase):
    def test_a_lost_exchange_with_the_core(self) -> None:
        """A handover over S1 that was cancelled is not in the capture: SCTP's numbers tell it from a core that skips a
        number."""
        for lost in (True, False):
            made, phone = attached()
            made.x2(phone, ENB2)
            before = len(made.messages)
            made.s1(phone, ENB3, cancel="early")
            gone = made.messages[before:]
            made.x2(phone, ENB1)
            made.x2(phone, ENB2)
            kept = [one for one in made.messages if one not in gone]
            numbered(made.messages if lost else kept, (1 << 32) - 2)
            told = seen(kept)
            texts = [value.text for _, value in told.values() if value.what == "NH"]
            self.assertEqual([text for text in differing(told) if "NH" in text] == [], lost, texts)
            self.assertEqual(any("after frames that the capture lost" in text for text in texts), lost, texts)

    def test_a_lost_security_mode_exchange(self) -> None:
        """A Security Mode exchange is taken as unseen only where a link is not covered or the capture lost frames; else
        what stands behind it is not judged."""
        for lost in (True, False):
            messages = without_commands(1)().messages
            for one in messages if not lost else ():
                one.tsns = ()
            told = seen(messages)
            self.assertEqual(differing(told), [])
            self.assertEqual(
                any("after a Security Mode exchange that the trace lacks" in value.text for _, value in told.values()),
                lost,
            )
            self.assertEqual(all(value.verdict in (RIGHT, NOTE) for _, value in told.values()), lost)


class Places(unittest.TestCase):
    def test_stations_behind_one_end(self) -> None:
        for setup in (False, True):
            made, phone = attached()
            for eci in (ENB2, ENB1, ENB3, ENB2):
                made.x2(phone, eci)
            gateway = "10.9.9.9:36412"
            hidden = {ENDS["enb1"]: gateway, ENDS["enb2"]: gateway}
            moved = [
                replace(one, source=hidden.get(one.source, one.source), target=hidden.get(one.target, one.target))
                if one.link == "S1"
                else one
                for one in made.messages
            ]
            if setup:
                moved.insert(
                    0,
                    Message(
                        "0", 0.0, "S1", "S1SetupRequest", gateway, made.core, station=0x7777, station_name="gateway"
                    ),
                )
            self.assertEqual(differing(seen(moved)), [], setup)

    def test_a_cell_that_changes(self) -> None:
        made, phone = attached()
        made.x2(phone, ENB2)
        changed = Site(ENB1, 40, 100, 18100, "enb1")
        update = made.add("X2", "ENBConfigurationUpdate", ENDS["enb1"], ENDS["enb2"], sites=[changed])
        before = CELLS[0]
        CELLS[0] = changed
        try:
            made.x2(phone, ENB1)
            made.x2(phone, ENB2)
        finally:
            CELLS[0] = before
        setup = Message(
            "0",
            0.0,
            "X2",
            "X2SetupRequest",
            ENDS["enb1"],
            ENDS["enb2"],
            sites=[replace(site, station="") for site in CELLS if site.up],
        )
        named = [Kasme("k0", KASMES[0])]
        trace = check(Derivations(CALLS, named), Cells(), copy.deepcopy([setup, *made.messages]), budget=1_000)
        self.assertEqual(differing(trace.seen), [])
        unseen = [setup, *(one for one in made.messages if one is not update)]
        trace = check(Derivations(CALLS, named), Cells(), copy.deepcopy(unseen), budget=1_000)
        self.assertEqual(differing(trace.seen), [])
        self.assertIn("(the cell has PCI 40 now, as the target answers)", "\n".join(map(str, trace.lines)))
        one_way = [one for one in unseen if one.link != "X2" or one.source != ENDS["enb1"] or one is setup]
        trace = check(
            Derivations(CALLS, named),
            Cells(),
            copy.deepcopy(one_way),
            budget=2_000,
            said=Said((), ("X2/eNB 101/eNB 102",)),
        )
        self.assertEqual(differing(trace.seen), [])
        self.assertIn("right if the cell has PCI 40 now", "\n".join(map(str, trace.lines)))


if __name__ == "__main__":
    unittest.main()
