"""Faults that products have, each once as the standard has it, where nothing differs, and once with the fault: one
difference, by name."""
from __future__ import annotations

import copy
import unittest

from lte_sec.captures.cells import Cells
from lte_sec.judge.reading import check
from lte_sec.common.report import DIFFERS, Line
from lte_sec.common.terms import Derivations, Kasme

from .faulty import (
    LONG,
    Made,
    accepted_again,
    begins_there,
    eea2,
    header_1_up,
    kdf,
    key_by,
    keys,
    mac_by,
    mac_without_overflow,
    replayed,
    service_at,
    setup_again,
    short_mac_at,
    text_by,
    tracked,
    tracking_ciphered,
)
from .faulty_modes import behind_a_reject, commanded_again, lacking, null_integrity, other_algorithm, renewed
from .simulated import CALLS, CELLS, World
from .situations import ENB1, ENB2, KASMES, attached

SOUND: dict[str, Made] = {
    "a first message at COUNT 258": tracked(258, 258),
    "a text as it must be": text_by(eea2),
    "an authentication in a secured connection": renewed(""),
    "algorithms that the phone has": lacking(2, 2),
    "EIA0 in an emergency call": null_integrity(True),
    "a Command that the phone refuses": behind_a_reject(False),
    "a Command again behind a Reject": commanded_again(False),
    "a Complete under the algorithms of its Command": other_algorithm(True),
    "a message again, at once": replayed("at once"),
    "a setup again after it failed": setup_again(True),
    "a short MAC at its COUNT": short_mac_at(42),
    "a request that is refused": short_mac_at(42, False),
}
BROKEN: dict[str, tuple[Made, str]] = {
    "a text in clear": (text_by(lambda phone: LONG), "MAC right; text differs: it is not ciphered"),
    "a text at another COUNT": (text_by(lambda phone: eea2(phone, 5)), "text differs: it is ciphered at COUNT 5"),
    "a text for the other direction": (
        text_by(lambda phone: eea2(phone, direction=0)),
        "text differs: it is ciphered for the other direction",
    ),
    "a text by the first half of its key": (
        text_by(lambda phone: eea2(phone, key=keys(phone.kasme)[0][:16])),
        "text differs: it is ciphered by the first half of KNASenc",
    ),
    "a text by KNASint": (
        text_by(lambda phone: eea2(phone, key=keys(phone.kasme)[1][16:])),
        "text differs: it is ciphered by KNASint",
    ),
    "a text under another algorithm": (
        text_by(lambda phone: CALLS.eea1(keys(phone.kasme, 1)[0][16:], phone.down, 0, 1, LONG)),
        "text differs: it is ciphered by 128-EEA1",
    ),
    "a text with another BEARER": (
        text_by(lambda phone: eea2(phone, bearer=1)),
        "text differs: it is ciphered with BEARER 1",
    ),
    "a text that is none": (text_by(lambda phone: bytes(len(LONG))), "text differs: it is no NAS message"),
    "header type 1 up with ciphering on": (header_1_up, "header type differs: is 1, wanted 2"),
    "a Tracking Area Update Request ciphered": (tracking_ciphered, "header type differs: is 2, wanted 1"),
    "EEA3 that the phone lacks": (lacking(3, 2), "EEA3 is commanded, which the phone does not have"),
    "EIA3 that the phone lacks": (lacking(2, 3), "EIA3 is commanded, which the phone does not have"),
    "EIA0 in a secured connection": (null_integrity(False), "EIA0 in a secured connection without emergency"),
    "KSI 7": (renewed("KSI 7"), "KSI differs: is 7"),
    "another KSI than authenticated": (
        renewed("another KSI"),
        "KSI differs: is 3, wanted 1, that of the Authentication Request",
    ),
    "COUNT down not reset": (renewed("down not reset"), "COUNT differs: is 8, where a KASME begins at 0"),
    "COUNT up not reset": (renewed("up not reset"), "COUNT differs: is 6, where a KASME begins at 0"),
    "a Complete under the KASME before": (
        renewed("Complete under the old KASME"),
        "Security mode complete under the KASME before",
    ),
    "a Complete under the algorithms before": (
        other_algorithm(False),
        "MAC right, text right; Security mode complete under EIA2, where the Command brought EIA1",
    ),
    "a second Command at a used COUNT": (commanded_again(True), "COUNT used twice"),
    "going on behind a Reject": (behind_a_reject(True), "under a context that the phone refused"),
    "octets again, later": (replayed("late"), "COUNT used again: a replay, 20 COUNTs behind"),
    "octets again, in another connection": (
        replayed("in another connection"),
        "COUNT used again: a replay, of another connection",
    ),
    "KeNB of a COUNT without its overflow": (
        service_at(258, 2),
        "KeNB differs: is kenb(2), wanted kenb(258) of k0 (COUNT is 2, the low 5 bits of 258)",
    ),
    "KeNB of a COUNT 32 less": (
        service_at(258, 226),
        "KeNB differs: is kenb(226), wanted kenb(258) of k0 (COUNT is 226, 32 less than 258)",
    ),
    "a short MAC of another COUNT": (short_mac_at(10), "NAS up COUNT 42 header 12 MAC wrong"),
    "the same of a request that is refused": (short_mac_at(10, False), "NAS up COUNT 42 header 12 MAC wrong"),
    "the same where the trace begins with it": (
        begins_there(service_at(258, 226)),
        "KeNB differs: is kenb(226), wanted kenb(258) of k0 (COUNT is 226, 32 less than 258)",
    ),
    "KeNB of a COUNT 32 more": (
        service_at(258, 290),
        "KeNB differs: is kenb(290), wanted kenb(258) of k0 (COUNT is 290, 32 more than 258)",
    ),
    "KeNB of a COUNT 256 more": (
        service_at(258, 514),
        "KeNB differs: is kenb(514), wanted kenb(258) of k0 (COUNT is 514, 256 more than 258)",
    ),
    "a Service Request accepted again": (
        accepted_again(0),
        "KeNB differs: is kenb(2) of k0, in use before, from frame 10 on",
    ),
    "a Service Request accepted again 40 connections later": (
        accepted_again(40),
        "KeNB differs: is kenb(2) of k0, in use before, from frame 10 on",
    ),
    "another KeNB after a setup that failed": (setup_again(False), "KeNB differs: is kenb(3), wanted kenb(2) of k0"),
    "a MAC of the other direction": (
        mac_by(lambda key, count, body: CALLS.eia2(key[16:], count, 0, 1, body)),
        "MAC wrong",
    ),
    "a MAC with another BEARER": (
        mac_by(lambda key, count, body: CALLS.eia2(key[16:], count, 3, 0, body)),
        "it is that of BEARER 3",
    ),
    "a MAC without the sequence number": (
        mac_by(lambda key, count, body: CALLS.eia2(key[16:], count, 0, 0, body[1:])),
        "it is without the sequence number",
    ),
    "a MAC by the first half of its key": (
        mac_by(lambda key, count, body: CALLS.eia2(key[:16], count, 0, 0, body)),
        "it is that of the first half of KNASint",
    ),
    "a MAC of zeros": (mac_by(lambda key, count, body: bytes(4)), "it is zeros"),
    "a MAC reversed": (
        mac_by(lambda key, count, body: CALLS.eia2(key[16:], count, 0, 0, body)[::-1]),
        "it is reversed",
    ),
    "a MAC without the overflow of COUNT": (mac_without_overflow(2), "NAS up COUNT 258 header 2 MAC wrong"),
    "the same without ciphering": (mac_without_overflow(0), "NAS up COUNT 258 header 2 MAC wrong"),
    "the same of a first message": (tracked(2, 258), "NAS up COUNT 258 header 1 MAC wrong"),
    "KeNB without the overflow, of a first message": (
        tracked(258, 2),
        "KeNB differs: is kenb(2), wanted kenb(258) of k0 (COUNT is 2, the low 5 bits of 258)",
    ),
    "PCI and EARFCN swapped": (
        key_by(
            lambda nh, pci, earfcn: kdf(
                nh, b"\x13" + earfcn.to_bytes(2, "big") + b"\0\2" + pci.to_bytes(2, "big") + b"\0\2"
            )
        ),
        "(PCI and EARFCN are swapped; got ",
    ),
    "PCI and EARFCN little-endian": (
        key_by(
            lambda nh, pci, earfcn: kdf(
                nh, b"\x13" + pci.to_bytes(2, "little") + b"\0\2" + earfcn.to_bytes(2, "little") + b"\0\2"
            )
        ),
        "(PCI and EARFCN are little-endian; got ",
    ),
    "EARFCN in four octets": (
        key_by(
            lambda nh, pci, earfcn: kdf(
                nh, b"\x13" + pci.to_bytes(2, "big") + b"\0\2" + earfcn.to_bytes(4, "big") + b"\0\4"
            )
        ),
        "(EARFCN has 4 octets, not 2; got ",
    ),
    "KeNB* with the FC of NH": (
        key_by(
            lambda nh, pci, earfcn: kdf(
                nh, b"\x12" + pci.to_bytes(2, "big") + b"\0\2" + earfcn.to_bytes(2, "big") + b"\0\2"
            )
        ),
        "(FC is 0x12, not 0x13; got ",
    ),
}


def new_kasme_over_s1() -> World:
    """An authentication, and then a handover over S1 whose NH is KeNB of the new KASME, as another system has it."""
    world, phone = attached()
    world.x2(phone, ENB2)
    world.reauthenticate(phone, KASMES[1])
    world.s1(phone, ENB1, nh=CALLS.kenb(KASMES[1], 0), ncc=0)
    return world


def without_first_frames() -> World:
    """The capture begins after the attach: X2 and a path switch tell of a phone by the core's identity alone."""
    world, phone = attached()
    world.messages.clear()
    for eci in (ENB2, ENB1, ENB2):
        world.x2(phone, eci)
    return world


def service_with(key: bytes) -> World:
    world = service_at(3, 0)()
    setup = next(one for one in reversed(world.messages) if one.name == "InitialContextSetupRequest")
    setup.key = key
    return world


class Faults(unittest.TestCase):
    def lines(self, world: World) -> list[Line]:
        named = [Kasme(f"k{place}", kasme) for place, kasme in enumerate(KASMES[:4])]
        return check(Derivations(CALLS, named), Cells(CELLS), copy.deepcopy(world.messages), budget=2_000).lines

    def test_what_keeps_the_standard_is_not_blamed(self) -> None:
        for name, made in SOUND.items():
            with self.subTest(name):
                self.assertEqual([str(line) for line in self.lines(made()) if line.verdict == DIFFERS], [])

    def test_each_fault_is_one_difference_by_name(self) -> None:
        for name, (made, text) in BROKEN.items():
            with self.subTest(name):
                world = made()
                lines = self.lines(world)
                shown = "\n".join(map(str, lines))
                self.assertEqual(
                    [line.frame for line in lines if line.verdict == DIFFERS and line.what != "agreement"],
                    world.faults,
                    shown,
                )
                self.assertEqual(len(world.faults), 1)
                self.assertIn(
                    text,
                    next(
                        line.text
                        for line in lines
                        if line.frame == world.faults[0] and line.verdict == DIFFERS and line.what != "agreement"
                    ),
                )

    def test_a_new_kasme_in_a_handover_over_s1_differs(self) -> None:
        world = new_kasme_over_s1()
        lines = [line for line in self.lines(world) if line.verdict == DIFFERS and line.what == "NH"]
        self.assertEqual([line.frame for line in lines], world.faults)
        self.assertIn(
            "NH differs: is kenb(0) of k1, wanted nh(3) of k0; NCC differs: is 0, wanted 3 (KeNB of a new KASME",
            lines[0].text,
        )

    def test_a_capture_without_its_first_frames_has_one_phone(self) -> None:
        world = without_first_frames()
        named = [Kasme("k0", KASMES[0])]
        seen = check(Derivations(CALLS, named), Cells(CELLS), copy.deepcopy(world.messages), budget=2_000).seen
        self.assertEqual({one.connection for one in seen.messages}, {1})
        self.assertEqual([value.text for _, value in seen.values() if value.verdict == DIFFERS], [])

    def test_mistakes_of_kenb_are_named(self) -> None:
        count = (3).to_bytes(4, "little")
        for name, key in (
            ("it is KASME itself", KASMES[0]),
            ("COUNT is little-endian", kdf(KASMES[0], b"\x11" + count + b"\0\4")),
            ("all octets are 00", bytes(32)),
        ):
            text = "\n".join(line.text for line in self.lines(service_with(key)) if line.verdict == DIFFERS)
            self.assertIn(
                (
                    f"KeNB differs: is none, wanted kenb(3) of k0 ({name}; got {key.hex()}, wanted "
                    f"{CALLS.kenb(KASMES[0], 3).hex()})"
                ),
                text,
            )

    def test_text_right_is_said_of_ciphered_messages(self) -> None:
        world = text_by(eea2)()
        self.assertIn(
            "frame 5 NAS up COUNT 1 header 2 MAC right, text right Attach complete of k0",
            "\n".join(map(str, self.lines(world))).replace("frame 6", "frame 5"),
        )


if __name__ == "__main__":
    unittest.main()
