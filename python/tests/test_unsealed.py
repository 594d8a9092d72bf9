"""Mistakes of MACs and ciphers of a driven phone, each made here in the place of a message of the ordinary run."""
from __future__ import annotations

import dataclasses
import unittest
from pathlib import Path
from unittest import mock

from lte_sec.drive import frames, protection as protected, seal_mistakes as unsealed
from lte_sec.common import pdu_mistakes as pdu_reasons
from lte_sec.runs import scenarios
from lte_sec.drive.frames import Reply
from lte_sec.runs.run_report import rows_of

from .standin import StandIn

EXAMPLES = Path(__file__).resolve().parents[2] / "examples"
REPORT = (EXAMPLES / "run/ordinary.out").read_text().splitlines()
ROWS = {row.number: row for row in rows_of(REPORT).values()}
SCENARIO = scenarios.read((EXAMPLES / "run/ordinary.toml").read_bytes())
CALLS = StandIn()
UP, DOWN = 0, 1
NAS_COMMAND, RRC_COMMAND, PACKET, RECONFIGURATION, LAST_PACKET = 2, 6, 8, 14, 26  # steps at which the phone is told


def told() -> dict[int, tuple[bytes, Reply]]:
    """What the phone is told at each step, and its reply."""
    lines = [
        bytes.fromhex(line.split()[1])[2:]
        for line in (EXAMPLES / "serve/phone.frames").read_text().splitlines()
        if line.strip()
    ]
    steps = [int(line.split()[0]) for line in REPORT if line.split()[1] in ("phone", "both")]
    return {step: (body, frames.read_reply(reply)) for step, body, reply in zip(steps, lines[2::2], lines[3::2])}


TOLD = told()


def step(place: int) -> unsealed.ActorStep:
    return unsealed.ActorStep("a program", ROWS, SCENARIO, place, "phone")


def mistakes(place: int, got: Reply) -> list[str]:
    with mock.patch.object(unsealed, "body_at", lambda *_: TOLD[place][0]):
        return [*map(str, unsealed.mistakes(CALLS, step(place), TOLD[place][1], got))]


def sends(place: int, record: bytes) -> list[str]:
    return mistakes(place, dataclasses.replace(TOLD[place][1], record=record))


def refuses(place: int, computed: bytes, received: bytes) -> list[str]:
    return mistakes(place, Reply(unsealed.MAC_FAILS, bytes(4) + computed + received))


def record(place: int) -> bytes:
    found = TOLD[place][1].record
    assert found is not None
    return found


class Sent(unittest.TestCase):
    def test_the_macs_and_ciphers_of_an_srb(self) -> None:
        it = protected.srb(CALLS, step(RECONFIGURATION).course(UP, "srb1"), record(RECONFIGURATION))
        assert it
        self.assertEqual((2, 0, 0), (it.eea, it.count, it.bearer))
        enc, integrity = (CALLS.algorithm_key(it.above, type, 2) for type in (3, 4))
        head, plain = it.octets[:1], it.opened(CALLS)

        def ciphered(octets: bytes, key: bytes = enc[16:], way: int = UP, bearer: int = 0) -> bytes:
            return head + CALLS.eea2(key, 0, bearer, way, octets)

        for why, octets in {
            "MAC-I: it is that of the other direction": ciphered(
                plain[:-4] + CALLS.eia2(integrity[16:], 0, 0, DOWN, head + plain[:-4])
            ),
            "MAC-I: it is zeros": ciphered(plain[:-4] + bytes(4)),
            "text: it is not ciphered": head + plain,
            "text: it is ciphered by KRRCint": ciphered(plain, integrity[16:]),
            "text: it is ciphered for the other direction": ciphered(plain, way=DOWN),
            "text: it is ciphered by the first half of KRRCenc": ciphered(plain, enc[:16]),
            "text and MAC-I: they are those of BEARER 1": ciphered(
                plain[:-4] + CALLS.eia2(integrity[16:], 0, 1, UP, head + plain[:-4]), bearer=1
            ),
        }.items():
            self.assertEqual([why], sends(RECONFIGURATION, octets))
        self.assertEqual([], sends(RECONFIGURATION, ciphered(plain[:-4] + b"abcd")))
        self.assertEqual([], sends(RECONFIGURATION, head))

    def test_an_srb_that_is_not_ciphered_yet(self) -> None:
        it = protected.srb(CALLS, step(RRC_COMMAND).course(UP, "srb1"), record(RRC_COMMAND))
        assert it and it.eea == 0
        plain = it.octets[1:]
        self.assertEqual(
            ["text: it is ciphered by 128-EEA2"],
            sends(RRC_COMMAND, it.octets[:1] + CALLS.eea2(CALLS.algorithm_key(it.above, 3, 2)[16:], 0, 0, UP, plain)),
        )

    def test_a_nas_message(self) -> None:
        it = protected.nas(CALLS, step(NAS_COMMAND).course(UP, "nas"), record(NAS_COMMAND))
        assert it
        enc, integrity = (CALLS.algorithm_key(it.kasme, type, 2) for type in (1, 2))
        head, number, count = it.pdu[:1], it.pdu[5:6], it.count

        def message(text: bytes, way: int = UP, key: bytes = integrity[16:]) -> bytes:
            return head + CALLS.eia2(key, count, 0, way, number + text) + number + text

        text = it.pdu[6:]
        for why, octets in {
            "MAC: it is that of the other direction": message(text, DOWN),
            "MAC: it is that of KNASenc": message(text, key=enc[16:]),
            "MAC: it is that of the first half of KNASint": message(text, key=integrity[:16]),
            "text: it is not ciphered": message(b"\2"),
            "text: it is ciphered by KNASint": message(CALLS.eea2(integrity[16:], it.count, 0, UP, b"\2")),
        }.items():
            self.assertEqual([why], sends(NAS_COMMAND, octets))

    def test_a_packet(self) -> None:
        packet = bytes.fromhex(SCENARIO.steps[PACKET]["text"])
        it = protected.drb(CALLS, step(PACKET).course(UP, "drb1"), record(PACKET), packet)
        assert it
        key = CALLS.algorithm_key(it.above, 3, 2)[16:]
        head = record(PACKET)[:2]
        self.assertEqual(
            ["packet: it is ciphered by KRRCenc"],
            sends(PACKET, head + CALLS.eea2(key, it.count, it.bearer, UP, packet)),
        )
        key = CALLS.algorithm_key(it.above, 5, 2)[16:]
        self.assertEqual(
            [], sends(PACKET, head + CALLS.eea2(key, it.count + 3, it.bearer, UP, packet))
        )  # two octets fit by chance at some COUNT


class Came(unittest.TestCase):
    def test_a_mac_that_is_computed_otherwise(self) -> None:
        for place, name, way in (
            (NAS_COMMAND, "nas", "the MAC that it wants"),
            (RECONFIGURATION, "srb1", "the MAC-I that it wants"),
        ):
            octets = TOLD[place][0][1 if name == "nas" else 7 :]
            self.assertEqual([f"{way}: it is zeros"], refuses(place, bytes(4), self.received(place, octets)))
            self.assertEqual(
                [f"{way}: it is that of the other direction"],
                refuses(place, self.computed(place, octets, UP), self.received(place, octets)),
            )

    def srb(self, octets: bytes) -> pdu_reasons.Pdu:
        it = protected.srb(CALLS, step(RECONFIGURATION).course(DOWN, "srb1"), octets)
        assert it
        return it

    def received(self, place: int, octets: bytes) -> bytes:
        return octets[1:5] if place == NAS_COMMAND else self.srb(octets).opened(CALLS)[-4:]

    def computed(self, place: int, octets: bytes, way: int) -> bytes:
        if place == NAS_COMMAND:
            it = protected.nas(CALLS, step(place).course(DOWN, "nas"), octets)
            assert it
            return CALLS.eia2(CALLS.algorithm_key(it.kasme, 2, 2)[16:], it.count, 0, way, octets[5:])
        srb = self.srb(octets)
        return CALLS.eia2(
            CALLS.algorithm_key(srb.above, 4, 2)[16:], srb.count, 0, way, octets[:1] + srb.opened(CALLS)[:-4]
        )

    def test_a_text_that_is_deciphered_otherwise(self) -> None:
        octets = TOLD[RECONFIGURATION][0][7:]
        it = self.srb(octets)
        other = CALLS.eea2(CALLS.algorithm_key(it.above, 4, 2)[16:], it.count, 0, DOWN, octets[1:])
        self.assertEqual(["text: it is deciphered by KRRCint"], refuses(RECONFIGURATION, b"abcd", other[-4:]))

    def test_a_packet_that_is_deciphered_otherwise(self) -> None:
        body, reply = TOLD[LAST_PACKET]
        it = protected.drb(CALLS, step(LAST_PACKET).course(DOWN, "drb1"), body[7:], reply.text or b"")
        assert it
        other = CALLS.eea2(CALLS.algorithm_key(it.above, 3, 2)[16:], it.count, it.bearer, DOWN, it.body)
        self.assertEqual(
            ["text: it is deciphered by KRRCenc"], mistakes(LAST_PACKET, dataclasses.replace(reply, text=other))
        )


class Courses(unittest.TestCase):
    def test_counts_are_those_behind_what_was_skipped(self) -> None:
        steps: list[scenarios.Step] = [
            {"do": "skip", "who": "phone", "bearer": "srb1", "n": 1000},
            {"do": "idle"},
            {"do": "skip", "who": "station", "station": 0, "bearer": "srb1", "n": 90},
        ]
        up, down = (protected.BearerHistory({}, steps, way, "srb1") for way in (UP, DOWN))
        self.assertEqual(
            ([1001], [92]),
            (
                [count for count in up.counts(1001 & 31, 32) if count > 99],
                [count for count in down.counts(92 & 31, 32) if count > 9],
            ),
        )
        self.assertEqual(
            [0, 1, 2], [protected.BearerHistory({}, [], UP, name).number for name in ("srb1", "srb2", "drb3")]
        )


if __name__ == "__main__":
    unittest.main()
