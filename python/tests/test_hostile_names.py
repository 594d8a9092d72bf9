"""Names that a user or a network may choose: whatever they say, each line has the causes and clauses that it has with
plain names, and its text is the same but for the names."""
from __future__ import annotations

import copy
import os
import unittest
from collections.abc import Callable
from dataclasses import dataclass, replace

from lte_sec.judge.questions import Phone as AskedPhone
from lte_sec.common.causes import Cause
from lte_sec.captures.cells import Cells
from lte_sec.captures.decoding import Message
from lte_sec.judge.reading import check
from lte_sec.replay.recording import record
from lte_sec.common.report import DIFFERS, Line
from lte_sec.common.terms import Derivations, Kasme, kasmes_of
from lte_sec.judge.trace import Trace

from . import test_faults, test_simulated
from .simulated import CALLS, CELLS, World
from .situations import KASMES
from .test_situations import SITUATIONS

NAMES = (  # for KASMEs, stations and captures: what any text of the package says
    "ue; COUNT used twice on 3 May",
    "late",
    "sent again; header type differs: is 4, wanted 3",
    "x differs: y; NCC differs: is 1, wanted 2 (late)",
    "plain, which TS 24.301 9.9 does not allow",
    "it is ciphered by 128-EEA3",
    "warning: MAC wrong: is {found}, wanted [differs]",
    "a handover to a without messages between the stations in the trace",
    "phone and a come apart here: the phone takes b",
    "TS 33.401 7.2.10 KeNB* for (1,2)",
    "in use before, from frame 1 on",
    "it is KASME; all octets are 00",
    "frame 1 NAS up COUNT 3 header 2 MAC right",
    "kenb(0) of star(nh(2),1,2)",
)
Made = Callable[[], World]
WORLDS: dict[str, Made] = {
    **{name: made for name, (made, _) in test_simulated.BROKEN.items()},
    **{name: one.broken for name, one in SITUATIONS.items()},
    **{name: made for name, (made, _) in test_faults.BROKEN.items()},
}


@dataclass(frozen=True)
class Named:
    """How all that has a name is called."""

    kasmes: tuple[str, ...]
    stations: dict[str, str]
    label: str

    def trace(self, world: World) -> Trace:
        """The world with these names; every second frame is one of a second capture."""
        messages = [self.message(copy.copy(one), place) for place, one in enumerate(world.messages)]
        cells = [replace(site, station=self.stations[site.station]) for site in CELLS]
        return check(
            Derivations(CALLS, [Kasme(name, value) for name, value in zip(self.kasmes, KASMES)]),
            Cells(cells),
            messages,
            budget=300,
        )

    def message(self, message: Message, place: int) -> Message:
        return replace(message, frame=f"{self.label} {message.frame}") if place % 2 else message

    def plain(self, text: str) -> str:
        """A text with plain names in the place of these."""
        names = {
            **dict(zip(self.kasmes, PLAIN.kasmes)),
            **{own: PLAIN.stations[name] for name, own in self.stations.items()},
            self.label: PLAIN.label,
        }
        for name in sorted(names, key=len, reverse=True):
            text = text.replace(name, names[name])
        return text


PLAIN = Named(tuple(f"#K{place}#" for place in range(4)), {"enb1": "#S1#", "enb2": "#S2#", "enb3": "#S3#"}, "#B#")


def hostile(turn: int) -> Named:
    """Names of the list, each kind of thing with others."""
    names = [f"{NAMES[(turn + place) % len(NAMES)]} {place}" for place in range(8)]
    return Named(tuple(names[:4]), dict(zip(("enb1", "enb2", "enb3"), names[4:7])), names[7])


def causes(trace: Trace) -> list[tuple[object, ...]]:
    """What each line says, by causes and numbers."""
    return [
        (
            line.verdict,
            line.kind,
            line.of,
            [one.cause for one in line.causes],
            line.clause,
            line.ncc,
            line.count,
            line.hex,
            line.wanted_hex,
        )
        for line in trace.lines
    ]


def replayed(trace: Trace) -> list[tuple[object, ...]]:
    """What `replay` takes of each message."""
    return [
        (
            len(met.nas),
            [one.is_right for one in met.nas],
            met.key is not None and met.key.is_late,
            len(met.more),
            met.within,
        )
        for met in record(trace).met
    ]


def questions(trace: Trace) -> list[str]:
    """What is asked of each phone."""
    phones = sorted({one.phone for one in trace.seen.messages if one.phone is not None})
    return [
        AskedPhone(trace, [one for one in trace.seen.messages if one.phone == number]).question(1, True)
        for number in phones
    ]


class HostileNames(unittest.TestCase):
    def test_no_name_changes_a_cause(self) -> None:
        every = 1 if os.environ.get("EVERY_PLACE") else 4
        for turn, (name, made) in enumerate([*WORLDS.items()][::every]):
            world = made()
            plain, other = PLAIN.trace(world), hostile(turn).trace(world)
            with self.subTest(world=name):
                self.assertEqual(causes(plain), causes(other))
                self.assertEqual(
                    [line.text for line in plain.lines], [hostile(turn).plain(line.text) for line in other.lines]
                )
                self.assertEqual(replayed(plain), replayed(other))
                self.assertEqual(questions(plain), questions(other))

    def test_a_mac_of_a_kasme_with_a_sentence_for_a_name(self) -> None:
        """It is blamed on the MAC alone, and `replay` does not take it for one that comes again."""
        world = test_simulated.BROKEN["a MAC of another KASME"][0]()
        for name in NAMES:
            kasmes = tuple(f"{name} {place}" for place in range(4))
            lines = replace(PLAIN, kasmes=kasmes).trace(world).lines
            wrong = [line for line in lines if line.verdict == DIFFERS]
            self.assertEqual([line.clause for line in wrong], ["TS 24.301 4.4.3.3"], name)
            self.assertTrue(any(one.cause is Cause.MAC_OF_KASME for one in wrong[0].causes), wrong[0].text)

    def test_two_kasmes_of_one_name_are_told_apart(self) -> None:
        first, second, third = ("00" * 32, "11" * 32, "22" * 32)
        for words, names in (
            ([f"ue={first}", f"ue={second}", f"ue={third}"], ["ue", "ue (2)", "ue (3)"]),
            ([f"KASME 2={first}", second], ["KASME 2", "KASME 2 (2)"]),
            ([first, f"KASME 1={second}"], ["KASME 1 (2)", "KASME 1"]),
            ([f"a\x01={first}", f"a\\x01={second}"], ["a\x01", "a\\x01 (2)"]),
            ([first, second], ["KASME 1", "KASME 2"]),
        ):
            self.assertEqual([one.name for one in kasmes_of(words)], names)

    def test_what_is_withdrawn_keeps_its_names(self) -> None:
        for name in NAMES:
            why = Cause.MANY_HISTORIES.because(most=1)
            line = Line(
                "3",
                "",
                "agreement",
                DIFFERS,
                Cause.COME_APART.because(station=name, phone="a", held="b"),
                doubt=why,
                subject="",
            )
            self.assertEqual(
                line.text, f"frame 3 phone and {name} not judged: the phone takes a, {name} has b ({why[0]})"
            )


if __name__ == "__main__":
    unittest.main()
