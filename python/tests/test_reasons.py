"""Each mistake of the catalogue (`common.mistakes`), made here by hand, is named."""
from __future__ import annotations

import hmac
import os
import tempfile
import unittest
from collections.abc import Callable
from unittest import mock

from lte_sec.common import pdu_mistakes as pdu_reasons, mistakes as reasons
from lte_sec.drive import strict
from lte_sec.common.causes import Why, told
from lte_sec.common.derive import Calc

from .standin import StandIn


def in_words(find: Callable[..., Why]) -> Callable[..., str]:
    """What is found, in words."""
    return lambda *given, **more: told(find(*given, **more))


of_star, of_kenb, of_nh, of_algorithm = (
    in_words(reasons.star),
    in_words(reasons.kenb),
    in_words(reasons.nh),
    in_words(reasons.algorithm),
)
of_mac, of_srb = in_words(reasons.mac), in_words(pdu_reasons.srb)
CALLS = StandIn()
KEY, KASME, SYNC = bytes(range(32)), bytes(range(32, 64)), bytes(range(64, 96))


def made(key: bytes, text: str) -> bytes:
    """The KDF over a text in hex."""
    return hmac.digest(key, bytes.fromhex(text), "sha256")


STARS = {  # PCI 301 (012d), EARFCN 1575 (0627)
    "PCI and EARFCN are swapped": "13 0627 0002 012d 0002",
    "PCI is little-endian": "13 2d01 0002 0627 0002",
    "EARFCN is little-endian": "13 012d 0002 2706 0002",
    "PCI and EARFCN are little-endian": "13 2d01 0002 2706 0002",
    "EARFCN has 3 octets, not 2": "13 012d 0002 000627 0003",
    "EARFCN has 4 octets, not 2": "13 012d 0002 00000627 0004",
    "PCI has one octet": "13 2d 0001 0627 0002",
    "EARFCN is left out": "13 012d 0002",
    "PCI is left out": "13 0627 0002",
    "the inputs have no lengths": "13 012d 0627",
    "FC is 0x11, not 0x13": "11 012d 0002 0627 0002",
    "FC is 0x12, not 0x13": "12 012d 0002 0627 0002",
    "FC is 0x14, not 0x13": "14 012d 0002 0627 0002",
    "FC is 0x15, not 0x13": "15 012d 0002 0627 0002",
}
KENBS = {  # COUNT 258
    "COUNT is 2, the low 5 bits of 258": "11 00000002 0004",
    "COUNT is 257, 1 less than 258": "11 00000101 0004",
    "COUNT is 260, 2 more than 258": "11 00000104 0004",
    "COUNT is 226, 32 less than 258": "11 000000e2 0004",
    "COUNT is 322, 64 more than 258": "11 00000142 0004",
    "COUNT is 514, 256 more than 258": "11 00000202 0004",
    "COUNT is 65794, 65536 more than 258": "11 00010102 0004",
    "COUNT is little-endian": "11 02010000 0004",
    "COUNT has three octets": "11 000102 0003",
    "FC is 0x12, not 0x11": "12 00000102 0004",
    "FC is 0x13, not 0x11": "13 00000102 0004",
    "COUNT has no length": "11 00000102",
}


ALGORITHMS = {  # type 4, identity 2
    "algorithm type and identity are swapped": "15 02 0001 04 0001",
    "the inputs have no lengths": "15 04 02",
    "the inputs have two octets each": "15 0004 0002 0002 0002",
    "the identity is left out": "15 04 0001",
    "FC is 0x11, not 0x15": "11 04 0001 02 0001",
    "FC is 0x12, not 0x15": "12 04 0001 02 0001",
    "FC is 0x13, not 0x15": "13 04 0001 02 0001",
    "FC is 0x14, not 0x15": "14 04 0001 02 0001",
}


class OnAnSrb(unittest.TestCase):
    def test_each_mistake_of_a_mac_is_named(self) -> None:
        whole, cipher, body = bytes(range(32)), bytes(range(32, 64)), bytes.fromhex("03010203")
        it = pdu_reasons.Srb(whole, cipher, 2, 0, 7, 1, body)
        key = whole[16:]
        right = CALLS.eia2(key, 7, 1, 0, body)
        for value, name in (
            (CALLS.eia2(key, 7, 1, 1, body), "it is that of the other direction"),
            (CALLS.eia2(whole[:16], 7, 1, 0, body), "it is that of the first half of KRRCint"),
            (CALLS.eia2(cipher[16:], 7, 1, 0, body), "it is that of KRRCenc"),
            (right[::-1], "it is reversed"),
            (CALLS.eia2(key, 7, 1, 0, body[1:]), "it is without the header"),
            (CALLS.eia1(key, 7, 1, 0, body), "it is that of 128-EIA1"),
            (CALLS.eia3(key, 7, 1, 0, body), "it is that of 128-EIA3"),
            (CALLS.eia2(key, 7, 0, 0, body), "it is that of BEARER 0"),
            (CALLS.eia2(key, 39, 1, 0, body), "it is that of COUNT 39"),
            (bytes(4), "it is zeros"),
            (right, ""),
            (b"\1\2\3\4", ""),
        ):
            self.assertEqual(of_srb(CALLS, value, it), name)
        self.assertEqual(of_srb(CALLS, right, pdu_reasons.Srb(whole, cipher, 0, 0, 7, 1, body)), "")


ON_SRB = bytes.fromhex("0748aabb")
RRC_ENCRYPTION, RRC_INTEGRITY = (CALLS.algorithm_key(KEY, type, 2) for type in (3, 4))


def pdu(eea: int = 2, count: int = 70, bearer: int = 0, direction: int = 1, cipher_key: bytes | None = None) -> bytes:
    """A PDU of an SRB under KEY as KeNB, sealed so."""
    head = bytes([count & 31])
    made = CALLS.eia2(RRC_INTEGRITY[16:], count, bearer, direction, head + ON_SRB)
    key = CALLS.algorithm_key(KEY, 3, eea)[16:] if cipher_key is None else cipher_key
    return head + reasons.cipher(CALLS, eea, key, count, bearer, direction, ON_SRB + made)


def with_mac(made: bytes) -> bytes:
    """The PDU with this MAC, ciphered right."""
    return b"\6" + CALLS.eea2(RRC_ENCRYPTION[16:], 70, 0, 1, ON_SRB + made)


def ciphered_so(count: int = 70, bearer: int = 0, direction: int = 1) -> bytes:
    """The PDU with its own MAC, ciphered so."""
    return b"\6" + CALLS.eea2(
        RRC_ENCRYPTION[16:], count, bearer, direction, ON_SRB + CALLS.eia2(RRC_INTEGRITY[16:], 70, 0, 1, b"\6" + ON_SRB)
    )


PDUS = {  # by what is wrong, at COUNT 70, BEARER 0, down
    "": pdu(),
    "MAC-I: it is that of the other direction": with_mac(CALLS.eia2(RRC_INTEGRITY[16:], 70, 0, 0, b"\6" + ON_SRB)),
    "MAC-I: it is that of COUNT 6, the sequence number": with_mac(
        CALLS.eia2(RRC_INTEGRITY[16:], 6, 0, 1, b"\6" + ON_SRB)
    ),
    "MAC-I: it is over the ciphered text": with_mac(
        CALLS.eia2(RRC_INTEGRITY[16:], 70, 0, 1, b"\6" + CALLS.eea2(RRC_ENCRYPTION[16:], 70, 0, 1, ON_SRB))
    ),
    "text: it is not ciphered": pdu()[:1] + CALLS.eea2(RRC_ENCRYPTION[16:], 70, 0, 1, pdu()[1:]),
    "text: it is ciphered for the other direction": ciphered_so(direction=0),
    "text: it is ciphered by the first half of KRRCenc": pdu(cipher_key=RRC_ENCRYPTION[:16]),
    "text: it is ciphered by KRRCint": pdu(cipher_key=RRC_INTEGRITY[16:]),
    "text: it is ciphered by 128-EEA1": pdu(eea=1),
    "text: it is ciphered with BEARER 1": ciphered_so(bearer=1),
    "text: it is ciphered at COUNT 6": ciphered_so(count=6),
    "text: it is ciphered at COUNT 71": ciphered_so(count=71),
    "text and MAC-I: they are those of the other direction": pdu(direction=0),
    "text and MAC-I: they are those of BEARER 1": pdu(bearer=1),
    "text and MAC-I: they are those of COUNT 6": pdu(count=6),
    "text and MAC-I: they are those of COUNT 102": pdu(count=102),
}


class Pdus(unittest.TestCase):
    def test_each_mistake_of_a_pdu_is_named(self) -> None:
        for why, octets in PDUS.items():
            self.assertEqual(why, str(pdu_reasons.pdu(CALLS, pdu_reasons.Pdu(KEY, 2, 2, 1, 70, 0, octets))))
        self.assertEqual(
            "text: it is ciphered by 128-EEA2", str(pdu_reasons.pdu(CALLS, pdu_reasons.Pdu(KEY, 0, 2, 1, 70, 0, pdu())))
        )
        self.assertEqual("", str(pdu_reasons.pdu(CALLS, pdu_reasons.Pdu(KEY, 2, 2, 1, 70, 0, bytes(9)))))


class Strict(unittest.TestCase):
    """The mistake of a line of calc by its answer; the answers here are made by the stand-in."""

    def test_lines_nas_and_srb(self) -> None:
        kasme = KASME.hex()
        integrity = CALLS.algorithm_key(KASME, 2, 2)[16:]
        body = b"\5" + bytes.fromhex("0748")
        right, wrong = CALLS.eia2(integrity, 5, 0, 0, body), CALLS.eia2(integrity, 5, 0, 1, body)
        answer = f"mac fails 5 wanted {right.hex()} got {wrong.hex()} text 0748".encode()
        self.assertEqual(
            strict.mistake(CALLS, ["nas", kasme, "0", "5", "uplink", (b"\x17" + wrong + body).hex()], answer),
            "the MAC is wrong: it is that of the other direction",
        )
        key = CALLS.algorithm_key(KASME, 4, 2)[16:]
        right, wrong = (CALLS.eia2(key, 5, bearer, 1, b"\5\7") for bearer in (0, 1))
        answer = f"mac fails 5 wanted {right.hex()} got {wrong.hex()} text 07".encode()
        self.assertEqual(
            strict.mistake(CALLS, ["srb", kasme, "0/2", "5", "0", "downlink", (b"\5\7" + wrong).hex()], answer),
            "the MAC is wrong: it is that of BEARER 1",
        )
        self.assertEqual(
            strict.mistake(CALLS, ["service-request", kasme, "5", "c70512ab"], b"mac fails 5 wanted 1234 got 12ab"), ""
        )
        answer = b"mac fails 70 wanted 01020304 got 05060708 text 0748aabb"
        for why, octets in PDUS.items():
            found = strict.mistake(CALLS, ["srb", KEY.hex(), "2", "70", "0", "downlink", octets.hex()], answer)
            what, _, rest = why.replace("MAC-I", "MAC", 1).partition(": ")
            self.assertEqual(
                f"{what} are wrong: {rest}" if "and" in what else f"the {what} is wrong: {rest}" if why else "", found
            )

    def test_what_any_algorithms_give_is_named(self) -> None:
        cases = (
            (
                b"no count",
                "2",
                "opens 2 5 eia1 eea2 0748010203",
                "any",
                "the MAC is wrong: it is that of 128-EIA1 at COUNT 5",
            ),
            (
                b"no count",
                "2/1",
                "no algorithm but downlink opens 1 7 eia2 0748",
                "any",
                "the MAC is wrong: it is that of the other direction, of 128-EIA2 at COUNT 7",
            ),
            (b"no count", "2", "no algorithm", "any", ""),
            (b"no count", "any", "", None, ""),
            (
                b"opens 2 5 e66bd0ff86",
                "1",
                "opens 2 5 eia2 eea2 0748010203",
                "5",
                "the text is no NAS message; it is one under EEA2",
            ),
            (
                b"opens 2 5 e66bd0ff86 unchecked",
                "1/0",
                "opens 2 5 eia2 eea0 0748 eea3 0201d9",
                "5",
                "the text is no NAS message; it is one under EEA0 or EEA3",
            ),
            (b"opens 2 5 e66bd0ff86", "1", "opens 2 5 eia2 no NAS message", "5", "the text is no NAS message"),
            (b"opens 1 5 6869", "1", "opens 1 5 eia2 6869 no NAS message", "5", "the text is no NAS message"),
        )
        for answer, eea, fits, count, said in cases:
            calc = mock.create_autospec(Calc, instance=True)
            calc.answer.return_value = fits
            self.assertEqual(said, strict.fitting(calc, ["nas", KASME.hex(), eea, "0", "uplink", "27"], answer))
            self.assertEqual(
                [mock.call("nas", KASME.hex(), "any", count, "uplink", "27")] if count else [],
                calc.answer.call_args_list,
            )

    def test_a_text_that_is_no_nas_message_is_seen_by_its_front(self) -> None:
        for answer in (
            b"opens 2 5 0748",
            b"opens 1 0 0201d9",
            b"opens 3 0 -",
            b"opens 7 6869",
            b"opens 7 6869 unchecked",
            b"opens 5",
            b"opens 2 5 eia1 eea2 0748",
        ):
            self.assertFalse(strict.is_odd(answer), answer)
        for answer in (b"opens 2 5 07", b"opens 2 5 0788", b"opens 2 5 0201", b"opens 2 5 020119 unchecked"):
            self.assertTrue(strict.is_odd(answer), answer)

    def test_lines_are_read_again_from_a_file_or_a_copy(self) -> None:
        with tempfile.NamedTemporaryFile() as file, mock.patch.dict(os.environ, {strict.COPY: file.name}):
            file.write(b"# a\nkenb x\n\nnas y\n")
            file.flush()
            self.assertEqual([(2, ["kenb", "x"]), (4, ["nas", "y"])], strict.lines_again(False))
            with mock.patch.object(strict, "MOST", 12):  # the line that is cut there is left out
                self.assertEqual([(2, ["kenb", "x"])], strict.lines_again(False))
        with mock.patch.dict(os.environ, {strict.COPY: "/nowhere"}):
            self.assertEqual([], strict.lines_again(False))


class Keys(unittest.TestCase):
    def test_kenb_star(self) -> None:
        for name, text in STARS.items():
            self.assertEqual(of_star(made(KEY, text), KEY, 301, 1575), name)
        right = made(KEY, "13 012d 0002 0627 0002")
        self.assertEqual(of_star(made(KEY[::-1], "13 012d 0002 0627 0002"), KEY, 301, 1575), "the key is reversed")
        self.assertEqual(of_star(right[::-1], KEY, 301, 1575), "the octets are reversed")
        self.assertEqual(of_star(KEY, KEY, 301, 1575), "it is the key without the step to the cell")
        self.assertEqual(
            of_star(made(KEY, "13 004d 0002 0384 0002"), KEY, 77, 66436), "EARFCN has its low two octets only"
        )
        self.assertEqual((of_star(right, KEY, 301, 1575), of_star(SYNC, KEY, 301, 1575)), ("", ""))

    def test_algorithm_keys(self) -> None:
        for name, text in ALGORITHMS.items():
            self.assertEqual(of_algorithm(made(KEY, text), KEY, 4, 2), name)
            self.assertEqual(of_algorithm(made(KEY, text)[16:], KEY, 4, 2), name)
        right = made(KEY, "15 04 0001 02 0001")
        self.assertEqual(of_algorithm(made(KEY[::-1], "15 04 0001 02 0001"), KEY, 4, 2), "the key is reversed")
        self.assertEqual(
            (of_algorithm(right[::-1], KEY, 4, 2), of_algorithm(right[16:][::-1], KEY, 4, 2)),
            ("the octets are reversed",) * 2,
        )
        self.assertEqual(of_algorithm(right[:16], KEY, 4, 2), "it is the first half of the key, not the last")
        self.assertEqual(of_algorithm(KEY[:16], KEY, 4, 2), "it is the first half of the key that it is made of")
        self.assertEqual(of_algorithm(KEY[16:], KEY, 4, 2), "it is the last half of the key that it is made of")
        self.assertEqual(of_algorithm(KEY, KEY, 4, 2), "it is the key that it is made of")
        self.assertEqual((of_algorithm(right, KEY, 4, 2), of_algorithm(right[16:], KEY, 4, 2)), ("", ""))

    def test_kenb(self) -> None:
        for name, text in KENBS.items():
            self.assertEqual(of_kenb(made(KASME, text), KASME, 258), name)
        self.assertEqual(of_kenb(made(KASME, "11 00000001 0004"), KASME, 65537), "COUNT is 1, the low 5 bits of 65537")
        self.assertEqual(of_kenb(made(KASME, "11 00000021 0004"), KASME, 65569), "COUNT is 33, the low 8 bits of 65569")
        self.assertEqual(
            of_kenb(made(KASME, "11 00000121 0004"), KASME, 65825), "COUNT is 289, the low 16 bits of 65825"
        )
        for name, value in (
            ("it is KASME itself", KASME),
            ("it is KASME, reversed", KASME[::-1]),
            ("all octets are 00", bytes(32)),
            ("all octets are ff", b"\xff" * 32),
        ):
            self.assertEqual(of_kenb(value, KASME, 258), name)
        self.assertEqual(of_kenb(made(KASME[::-1], "11 00000102 0004"), KASME, 258), "KASME is reversed")
        self.assertEqual(of_kenb(made(KASME, "11 00000102 0004")[::-1], KASME, 258), "the octets are reversed")

    def test_nh(self) -> None:
        sync, kasme = SYNC.hex(), KASME.hex()
        for name, value in {
            "FC is 0x11, not 0x12": made(KASME, f"11 {sync} 0020"),
            "FC is 0x13, not 0x12": made(KASME, f"13 {sync} 0020"),
            "SYNC-input has no length": made(KASME, f"12 {sync}"),
            "KASME and SYNC-input are swapped": made(SYNC, f"12 {kasme} 0020"),
            "SYNC-input is reversed": made(KASME, f"12 {SYNC[::-1].hex()} 0020"),
            "KASME is reversed": made(KASME[::-1], f"12 {sync} 0020"),
            "the octets are reversed": made(KASME, f"12 {sync} 0020")[::-1],
            "it is the SYNC-input itself": SYNC,
            "all octets are 00": bytes(32),
            "all octets are ff": b"\xff" * 32,
        }.items():
            self.assertEqual(of_nh(value, KASME, SYNC), name)


if __name__ == "__main__":
    unittest.main()
