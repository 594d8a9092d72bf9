"""Messages in a file of their own are those that were put in; what is looked for in all of them is found though little
of each is kept."""
from __future__ import annotations

import copy
import json
import random
import unittest
from collections import Counter
from dataclasses import replace
from operator import attrgetter
from unittest.mock import patch

from lte_sec.captures.capture_files import read, read_all
from lte_sec.captures.cells import Cells, read_cells
from lte_sec.captures.decoding import Message
from lte_sec.judge.grounds import FirstPlaces
from lte_sec.captures.message_store import BLOCK, Kept
from lte_sec.judge import connections
from lte_sec.judge.account import Use
from lte_sec.judge.line_store import KeptLines, in_order
from lte_sec.judge.reading import check
from lte_sec.nas.sent_counts import SentCounts
from lte_sec.common.report import DIFFERS, NOTE, RIGHT, UNKNOWN, Line, Verdict
from lte_sec.captures.taps import APART, MANY, SecondTaps, alike, capture_of
from lte_sec.common.terms import DOWN, UP, Derivations, Kasme, Key, Term, kasmes_of
from lte_sec.traces.trace_document import as_json, lines as lines_of

from .crowds import crowd
from .simulated import CALLS, CELLS
from .standin import StandIn
from .test_scanned import EVERY
from .test_spoilt import TRACES

KASME = "e61a3129c8e399d6dd3cec512a9c671da2004c5e8e780d3df853bb3055ee7cba"


def message(number: int, time: float, frame: str = "") -> Message:
    return Message(
        frame or str(number), time, "S1", "UplinkNASTransport", f"station:{number % 7}", "core:1", enb_id=number
    )


def second_of_old(messages: list[Message]) -> set[int]:
    """The places of what comes twice, with all messages at hand."""
    last: dict[object, Message] = {}
    same: set[int] = set()
    elsewhere: set[int] = set()
    for place, one in enumerate(messages):
        before = last.get(alike(one))
        if before is not None and 0 <= one.time - before.time <= APART:
            (same if capture_of(before) == capture_of(one) else elsewhere).add(place)
            del last[alike(one)]
        else:
            last[alike(one)] = one
    return elsewhere | (same if 2 * len(same) >= 0.9 * len(messages) else set())


class KeptMessages(unittest.TestCase):
    def test_messages_are_those_that_were_put_in(self) -> None:
        for name in EVERY:
            found = list(read(TRACES / f"{name}.json.gz"))
            kept = Kept(found)
            self.assertEqual(
                (list(kept), len(kept), kept[3:1:-1], kept[-1]), (found, len(found), found[3:1:-1], found[-1])
            )
            self.assertEqual(
                (list(kept.times), kept.links["S1"]),
                ([one.time for one in found], sum(one.link == "S1" for one in found)),
            )

    def test_one_may_be_put_back_and_all_in_another_order(self) -> None:
        found: list[Message] = [message(number, float(-number % 5)) for number in range(1000)]
        kept = Kept(found)
        kept[7] = found[7] = replace(found[7], source="x" * 2 * BLOCK, time=9.5)
        kept.append(message(1000, 2.5))
        found.append(message(1000, 2.5))
        self.assertEqual((list(kept), kept[7], kept[1000]), (found, found[7], found[1000]))
        self.assertEqual(list(kept.by_time()), sorted(found, key=attrgetter("time")))
        self.assertEqual(list(kept.only((5, 3, 3))), [found[5], found[3], found[3]])

    def test_a_trace_is_read_alike_from_a_list_and_from_a_file(self) -> None:
        kasmes = kasmes_of([KASME])
        for name in ("A", "A.rrc", "B2-nh-twice", "lost-answers"):
            captures = (
                [TRACES / "A.json.gz", TRACES / "A.rrc.json.gz"] if name == "A.rrc" else [TRACES / f"{name}.json.gz"]
            )
            kept = read_all(captures)
            cells = read_cells(TRACES / "A.cells.txt")
            by_list, by_file = check(Derivations(StandIn(), list(kasmes)), Cells(cells), list(kept), budget=100), check(
                Derivations(StandIn(), list(kasmes)), Cells(cells), kept, budget=100
            )
            self.assertEqual([str(line) for line in by_list.lines], [str(line) for line in by_file.lines])


class Lines(unittest.TestCase):
    def lines(self, number: int) -> list[Line]:
        return [
            Line(
                str(place // 2),
                "NAS",
                "MAC",
                (RIGHT, DIFFERS, UNKNOWN)[place % 3],
                found=str(place),
                place=None if place % 5 == 0 else place // 2 + 1,
            )
            for place in range(number)
        ]

    def test_lines_are_those_that_were_put_in(self) -> None:
        with patch("lte_sec.judge.line_store.NEWEST", 16), patch("lte_sec.judge.line_store.BATCH", 8):
            lines, kept = self.lines(100), KeptLines()
            for place, line in enumerate(lines):
                self.assertEqual(list(kept.since(max(0, place - 3))), lines[max(0, place - 3) : place])
                kept.append(line)
                kept.settle(lambda frame: int(frame))
            self.assertEqual((len(kept.recent), len(kept), len(kept.batches)), (20, 100, 10))
            for place in (0, 50, 99):
                kept[place] = lines[place] = replace(lines[place], verdict=NOTE, found="other")
            self.assertEqual((list(kept), kept[-1 + 100], kept[9]), (lines, lines[99], lines[9]))
            self.assertEqual(kept.verdicts(), Counter(line.verdict for line in lines))
            self.assertEqual(
                [kept.count(verdict) for verdict in Verdict],
                [sum(line.verdict == verdict for line in lines) for verdict in Verdict],
            )
            backwards = lambda frame: 50 - int(frame)  # noqa: E731
            by_frame, by_place = KeptLines(), None
            by_frame.extend(lines)
            ordered, by_place = by_frame.sort(backwards)
            wanted = sorted(lines, key=lambda line: 50 - int(line.frame))
            self.assertEqual(list(ordered), wanted)
            self.assertEqual(
                list(by_place),
                sorted(wanted, key=lambda line: 50 - int(line.frame) if line.place is None else line.place),
            )
            kept.hold()
            kept.settle(backwards)
            self.assertEqual(
                (kept.recent, kept.batches, kept.verdicts()), (lines, [], Counter(line.verdict for line in lines))
            )

    def test_a_key_of_very_many_others_keeps_the_lines_in_memory(self) -> None:
        term = Term("kenb", (0,))
        for _ in range(20_000):
            term = Term("star", (1, 1), term)
        with patch("lte_sec.judge.line_store.NEWEST", 0), patch("lte_sec.judge.line_store.BATCH", 2):
            kept = KeptLines()
            for line in self.lines(4):
                line.key = Key(bytes(32), term)
                kept.append(line)
                kept.settle(lambda frame: None)
            self.assertEqual((len(kept.recent), kept.is_held), (4, True))

    def test_a_report_is_the_same_where_its_lines_are_in_a_file(self) -> None:
        for name in ("A", "B1-star-earfcn", "B2-nh-twice", "C", "lost-answers"):
            kasmes = (
                [one["hex"] for one in json.loads((TRACES / f"{name}.truth.json").read_text())["kasme"]]
                if name != "lost-answers"
                else [KASME]
            )
            reports = []
            for newest in (1000, 0):
                with patch("lte_sec.judge.line_store.NEWEST", newest), patch("lte_sec.judge.line_store.BATCH", 4):
                    cells = Cells(read_cells(TRACES / f"{name}.cells.txt"))
                    trace = check(
                        Derivations(StandIn(), kasmes_of(kasmes)),
                        cells,
                        read_all([TRACES / f"{name}.json.gz"]),
                        budget=1000,
                    )
                    reports.append(
                        (
                            list(lines_of(trace.seen)),
                            [str(line) for line in trace.lines],
                            trace.seen.verdicts(),
                            as_json(trace.seen),
                        )
                    )
                    self.assertEqual(bool(trace.judge.lines.batches), newest == 0)
            self.assertEqual(reports[0], reports[1])


class Ended(unittest.TestCase):
    def told(self, most: int) -> tuple[str, list[Use], int]:
        """What is told of a trace with faults where so many connections that ended are kept, and how many are left."""
        world = crowd(300, 4, 4)
        kasmes = [Kasme(phone.name, phone.kasme) for phone in world.phones]
        with patch.object(connections, "ENDED", most):
            trace = check(Derivations(CALLS, kasmes), Cells(CELLS), copy.deepcopy(world.messages), budget=300)
        return as_json(trace.seen, {}), list(trace.seen.uses), len(trace.connections)

    def test_a_report_is_the_same_where_connections_that_ended_are_forgotten(self) -> None:
        kept, forgotten = self.told(1_000_000), self.told(0)
        self.assertEqual(kept[:2], forgotten[:2])
        self.assertLess(forgotten[2], kept[2])

    def test_what_was_sent_at_a_count_is_known_by_its_sum(self) -> None:
        draw, sent, dealt = random.Random(7), SentCounts(), dict[tuple[int, int], tuple[bytes, int]]()
        self.assertFalse(sent)
        for number in range(1, 400):
            direction, count = draw.choice((UP, DOWN)), draw.choice((draw.randrange(100), draw.randrange(1 << 24)))
            dealt[direction, count] = draw.randbytes(9), number
            sent.put(direction, count, *dealt[direction, count])
        for (direction, count), (pdu, number) in dealt.items():
            found = sent.get(direction, count)
            assert found is not None
            self.assertTrue(found.has(pdu) and not found.has(pdu + b"x") and found.connection == number)
            if (direction, count + 1) not in dealt:
                self.assertIsNone(sent.get(direction, count + 1))

    def test_numbers_of_one_place_stay_in_their_order(self) -> None:
        draw = random.Random(8)
        places = [draw.randrange(50) for _ in range(300)]
        self.assertEqual(list(in_order(range(300), places)), sorted(range(300), key=places.__getitem__))
        self.assertEqual(list(in_order(range(0), [])), [])


class Looked(unittest.TestCase):
    def test_second_taps_are_found_though_old_messages_are_not_kept(self) -> None:
        chance = random.Random(1)
        for back in (0.0, 40.0):  # seconds by which times go back now and then
            found: list[Message] = []
            time = 0.0
            for number in range(3 * MANY):
                time += chance.random() / 50 - (back if number % 5000 == 4999 else 0)
                found.append(message(number, time))
                if chance.random() < 0.2:
                    found.append(
                        replace(
                            found[-1 - chance.randrange(min(len(found), 400))],
                            time=time,
                            frame=chance.choice(("", "other ")) + f"{number}",
                        )
                    )
            taps = SecondTaps(found)
            for place, one in enumerate(found):
                taps.take(place, one)
            self.assertEqual(taps.left(), second_of_old(found))
            self.assertGreater(len(taps.left()), 100)
            self.assertLess(len(taps.last), 2 * MANY)

    def test_the_first_place_of_each_frame(self) -> None:
        frames = ["3", "3", "5", "other 5", "4", "5", "9", "04", "x", "", "other 5", "9" * 30, "12"]
        places = FirstPlaces()
        for place, frame in enumerate(frames):
            places.take(place, frame)
        self.assertEqual([places.get(frame) for frame in frames], [frames.index(frame) for frame in frames])
        self.assertEqual([places.get(frame) for frame in ("1", "8", "y", "13")], [None] * 4)


if __name__ == "__main__":
    unittest.main()
