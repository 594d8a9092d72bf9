"""Tests of the binding to the library of proved calls: published vectors, other implementations, and each refusal."""
from __future__ import annotations

import hashlib
import hmac
import random
import sys
import unittest
from pathlib import Path

TOP = Path(__file__).resolve().parents[2]
sys.path.insert(0, str(TOP / "python"))

from tests import ciphers  # noqa: E402

try:
    from lte_sec import library
except ImportError as fault:
    raise unittest.SkipTest(str(fault)) from None

CASES = 2000
KASME = bytes(range(32))
UP, DOWN = library.UPLINK, library.DOWNLINK


def derived(key: bytes, fc: int, *parameters: bytes) -> bytes:
    """A key of TS 33.220 B.2, by Python's own HMAC."""
    text = bytes([fc]) + b"".join(parameter + len(parameter).to_bytes(2, "big") for parameter in parameters)
    return hmac.new(key, text, hashlib.sha256).digest()


class Derivations(unittest.TestCase):
    """Beside Python's hmac and hashlib."""

    def test_random_derivations_are_those_of_hmac(self) -> None:
        draw = random.Random(1)
        for _ in range(CASES):
            key, sync = draw.randbytes(32), draw.randbytes(32)
            count, pci, earfcn = (
                draw.getrandbits(24),
                draw.randint(0, 503),
                draw.choice([65535, 65536, draw.randint(0, 262143)]),
            )
            kind, identity = draw.randint(1, 6), draw.randint(0, 15)
            wide = earfcn.to_bytes(3 if earfcn > 65535 else 2, "big")
            self.assertEqual(library.kenb(key, count), derived(key, 0x11, count.to_bytes(4, "big")))
            self.assertEqual(library.nh(key, sync), derived(key, 0x12, sync))
            self.assertEqual(library.kenb_star(key, pci, earfcn), derived(key, 0x13, pci.to_bytes(2, "big"), wide))
            self.assertEqual(
                library.algorithm_key(key, kind, identity), derived(key, 0x15, bytes([kind]), bytes([identity]))
            )

    def test_kasme(self) -> None:
        draw = random.Random(6)
        for _ in range(CASES):
            ck, ik, plmn, sqn_xor_ak = map(draw.randbytes, (16, 16, 3, 6))
            self.assertEqual(library.kasme(ck, ik, plmn, sqn_xor_ak), derived(ck + ik, 0x10, plmn, sqn_xor_ak))
        # by libosmocore's osmo_kdf_kasme
        kasme = library.kasme(bytes(range(16)), bytes(range(16, 32)), b"\x00\xf1\x10", bytes(6))
        self.assertEqual(kasme.hex(), "c5db04c2129761d1eb0fd756a3788928d694ef23ff9b7614a4244c59116a6686")

    def test_out_of_range(self) -> None:
        for call in (
            lambda: library.kasme(bytes(16), bytes(16), bytes(4), bytes(6)),
            lambda: library.kenb(KASME[1:], 0),
            lambda: library.kenb(KASME, 1 << 24),
            lambda: library.kenb(KASME, 1 << 32),
            lambda: library.kenb_star(KASME, 504, 0),
            lambda: library.kenb_star(KASME, 0, 262144),
            lambda: library.algorithm_key(KASME, 0, 2),
            lambda: library.algorithm_key(KASME, 7, 2),
            lambda: library.algorithm_key(KASME, 1, 16),
            lambda: library.eea2(KASME[:16], 0, 32, UP, b""),
            lambda: library.eia2(KASME[:16], 0, 0, 2, b""),
        ):
            self.assertRaises(library.OutOfRange, call)


class Ciphers(unittest.TestCase):
    """TS 33.401 Annex C: set 1 of C.1, whole octets, and sets 2 and 5 of C.2."""

    def test_eea2(self) -> None:
        key = bytes.fromhex("d3c5d592327fb11c4035c6680af8c6d1")
        plain = bytes.fromhex("981ba6824c1bfb1ab485472029b71d808ce33e2cc3c0b5fc1f3de8a6dc66b1")
        sent = "e9fed8a63d155304d71df20bf3e82214b20ed7dad2f233dc3c22d7bdeeed8e"
        self.assertEqual(library.eea2(key, 0x398A59B4, 21, DOWN, plain).hex(), sent)

    def test_eea2_of_any_length_and_twice(self) -> None:
        key, text = KASME[:16], bytes(i % 251 for i in range(70001))
        sealed = library.eea2(key, 1, 3, UP, text)
        self.assertEqual(sealed[:1500], library.eea2(key, 1, 3, UP, text[:1500]))
        self.assertEqual(library.eea2(key, 1, 3, UP, sealed), text)
        self.assertEqual(library.eea2(key, 1, 3, UP, b""), b"")

    def test_snow_3g_and_zuc_beside_python(self) -> None:
        draw = random.Random(7)
        for name in ("eea1", "eea3", "eia1", "eia3"):
            for length in (0, 1, 8, 31, 63, 64, 65, 130):
                key, text = draw.randbytes(16), draw.randbytes(length)
                given = key, draw.getrandbits(32), draw.randrange(32), draw.randrange(2), text
                self.assertEqual(getattr(library, name)(*given), getattr(ciphers, name)(*given), (name, length))

    def test_eia2(self) -> None:
        for key, count, bearer, direction, text, mac in (
            ("d3c5d592327fb11c4035c6680af8c6d1", 0x398A59B4, 26, 1, "484583d5afe082ae", "b93787e6"),
            (
                "83fd23a244a74cf358da3019f1722635",
                0x36AF6144,
                15,
                1,
                "35c68716633c66fb750c266865d53c11ea05b1e9fa49c8398d48e1efa5909d3947902837f5ae96d5a05bc8d61ca8dbef"
                "1b13a4b4abfe4fb1006045b674bb54729304c382be53a5af05556176f6eaa2ef1d05e4b083181ee674cda5a485f74d7a",
                "e657e182",
            ),
        ):
            found = library.eia2(bytes.fromhex(key), count, bearer, direction, bytes.fromhex(text))
            self.assertEqual(found.hex(), mac)


class Pdus(unittest.TestCase):
    """Each kind made, opened and refused; its octets are laid out here again from the two ciphers."""

    enc, integrity = library.algorithm_key(KASME, 1, 2), library.algorithm_key(KASME, 2, 2)

    def nas(self, **counts: int) -> library.NasContext:
        return library.NasContext(self.enc, self.integrity, **counts)

    def test_nas(self) -> None:
        draw = random.Random(2)
        for _ in range(200):
            header, count, text = draw.randint(1, 4), draw.randrange(1 << 24), draw.randbytes(draw.randrange(400))
            sent = library.eea2(self.enc[16:], count, 0, UP, text) if header in (2, 4) else text
            covered = bytes([count % 256]) + sent
            pdu = self.nas(send=count).seal(header, UP, text)
            self.assertEqual(
                pdu, bytes([16 * header + 7]) + library.eia2(self.integrity[16:], count, 0, UP, covered) + covered
            )
            self.assertEqual(self.nas(receive=max(count - 255, 0)).open(UP, pdu), library.Opened(text, count, header))
            self.assertEqual(self.nas().open_at(count, UP, pdu).text, text)
            at = draw.randrange(1, 5)
            turned = pdu[:at] + bytes([pdu[at] ^ 1]) + pdu[at + 1 :]
            with self.assertRaises(library.MacFails) as fails:
                self.nas(receive=count).open(UP, turned)
            self.assertEqual(
                (fails.exception.count, fails.exception.wanted, fails.exception.got), (count, pdu[1:5], turned[1:5])
            )
        self.assertRaises(library.OtherCount, self.nas().open_at, count ^ 1, UP, pdu)
        self.assertRaises(library.Short, self.nas().open, UP, pdu[:5])
        self.assertRaises(library.BadHeader, self.nas().open, UP, b"\x07" + pdu[1:])
        self.assertRaises(library.CountSpent, self.nas(send=1 << 24).seal, 1, UP, b"")
        self.assertRaises(library.CountSpent, self.nas(receive=1 << 24).open, UP, pdu)
        self.assertRaises(library.OutOfRange, self.nas(send=(1 << 24) + 1).seal, 1, UP, b"")
        self.assertRaises(library.OutOfRange, self.nas(receive=8).accept, 7)
        context = self.nas(receive=8)
        context.accept(9)
        self.assertEqual(context.receive_count, 10)

    def test_srb(self) -> None:
        draw = random.Random(3)
        for _ in range(200):
            count, bearer, text = draw.getrandbits(32), draw.randrange(32), draw.randbytes(draw.randrange(300))
            front = bytes([count % 32])
            plain = text + library.eia2(self.integrity[16:], count, bearer, DOWN, front + text)
            made = library.SrbContext(self.enc, self.integrity, bearer, send=count).send(DOWN, text)
            self.assertEqual(made, front + library.eea2(self.enc[16:], count, bearer, DOWN, plain))
            receiver = library.SrbContext(self.enc, self.integrity, bearer, receive=max(count - 31, 0))
            self.assertEqual(receiver.open(DOWN, made), library.Opened(text, count, 0))
            receiver.accept(count)
            self.assertEqual(receiver.receive_count, count + 1)
            self.assertEqual(receiver.open_at(count, DOWN, made).text, text)
            self.assertRaises(library.OtherCount, receiver.open_at, count ^ 1, DOWN, made)
            self.assertRaises(library.MacFails, receiver.open_at, count, UP, made)
        self.assertRaises(library.Short, receiver.open, DOWN, made[:4])
        self.assertRaises(library.BadHeader, receiver.open, DOWN, b"\x20" + made[1:])
        self.assertRaises(library.OutOfRange, receiver.send, DOWN, bytes(8189))
        self.assertEqual(len(receiver.send(DOWN, bytes(8188))), 8193)

    def test_drb(self) -> None:
        draw = random.Random(4)
        for bits, octets in ((7, 1), (12, 2), (15, 2), (18, 3)):
            for _ in range(100):
                count, bearer, text = draw.getrandbits(32), draw.randrange(32), draw.randbytes(draw.randrange(300))
                head = (1 << (8 * octets - 1) | count % (1 << bits)).to_bytes(octets, "big")
                made = library.DrbContext(self.enc, bearer, bits, send=count).send(UP, text)
                self.assertEqual(made, head + library.eea2(self.enc[16:], count, bearer, UP, text))
                receiver = library.DrbContext(self.enc, bearer, bits, receive=max(count - (1 << bits) + 1, 0))
                self.assertEqual(receiver.receive(UP, made), library.Opened(text, count, 0, checked=False))
                self.assertEqual(receiver.receive_count, count + 1)
                self.assertRaises(library.OtherCount, receiver.open_at, count ^ 1, UP, made)
            self.assertRaises(library.Short, receiver.receive, UP, made[: octets - 1])
            self.assertRaises(library.BadHeader, receiver.receive, UP, b"\x00" + made[1:])
        polled = bytes([made[0] | 0x40]) + made[1:]
        self.assertEqual(receiver.open_at(count, UP, polled).text, text)
        self.assertRaises(library.BadHeader, receiver.receive, UP, bytes([made[0] | 0x20]) + made[1:])
        self.assertRaises(library.OutOfRange, library.DrbContext(self.enc, 0, 13).send, UP, b"")
        self.assertRaises(library.CountSpent, library.DrbContext(self.enc, 0, send=1 << 32).send, UP, b"")

    def test_each_algorithm(self) -> None:
        for eea in range(4):
            for eia in range(4):
                sender, receiver = (library.NasContext(self.enc, self.integrity, eea, eia=eia) for _ in range(2))
                pdu = sender.seal(2, UP, b"a text")
                self.assertEqual(receiver.open(UP, pdu), library.Opened(b"a text", 0, 2, checked=eia != library.EIA0))
                bearer = library.SrbContext(self.enc, self.integrity, 1, eea, eia=eia)
                made = bearer.send(DOWN, b"a text")
                self.assertEqual(bearer.open(DOWN, made), library.Opened(b"a text", 0, 0, checked=eia != library.EIA0))
                request = library.service_request(self.integrity, 3, 40, eia)
                self.assertEqual(library.check_service_request(self.integrity, 32, request, eia), 40)
            key = self.enc[16:]
            wanted = b"a text" if eea == 0 else getattr(library, f"eea{eea}")(key, 0, 0, UP, b"a text")
            self.assertEqual(pdu[6:], wanted)
        self.assertEqual(library.NasContext(self.enc, self.integrity, eia=library.EIA0).seal(1, UP, b"")[1:5], bytes(4))

    def test_rlc_am(self) -> None:
        sender, receiver = (library.DrbContext(self.enc, 0, 12) for _ in range(2))
        made = [sender.send(UP, str(count).encode()) for count in range(5000)]
        found = [
            (receiver.receive_am(last, UP, made[count]), count)
            for last, count in ((4095, 0), (0, 3), (0, 1), (0, 3), (3, 2), (3, 2051), (2051, 4099))
        ]
        fates = [library.NEW, library.NEW, library.LATE, library.LATE, library.DISCARDED, library.NEW, library.NEW]
        self.assertEqual(
            found,
            [
                (library.Opened(str(count).encode(), count, 0, False, fate), count)
                for fate, (_, count) in zip(fates, found)
            ],
        )
        self.assertEqual(receiver.receive_count, 4100)
        self.assertRaises(library.OutOfRange, receiver.receive_am, 4096, UP, made[0])
        self.assertRaises(library.BeforeFirst, library.DrbContext(self.enc, 0, 12).receive_am, 4095, UP, b"\x8f\xff")

    def test_short_macs(self) -> None:
        for count in (0, 31, 32, (1 << 24) - 1):
            front = bytes([0xC7, 32 * 3 + count % 32])
            made = library.service_request(self.integrity, 3, count)
            self.assertEqual(made, front + library.eia2(self.integrity[16:], count, 0, UP, front)[2:])
            self.assertEqual(library.check_service_request(self.integrity, max(count - 31, 0), made), count)
        self.assertRaises(library.MacFails, library.check_service_request, self.integrity, 0, made)
        self.assertRaises(library.BadHeader, library.check_service_request, self.integrity, 0, b"\x17" + made[1:])
        self.assertRaises(library.CountSpent, library.check_service_request, self.integrity, 1 << 24, made)
        self.assertRaises(library.OutOfRange, library.service_request, self.integrity, 8, 0)
        mac = library.eia2(self.integrity[16:], (1 << 32) - 1, 31, DOWN, b"seven o")
        self.assertEqual(library.short_mac_i(self.integrity, b"seven o"), mac[2:])


class Chain(unittest.TestCase):
    """A phone that steps from each NCC to each."""

    def test_reach(self) -> None:
        active, sync = library.kenb(KASME, 5), library.kenb(KASME, 6)
        for own in range(8):
            for ncc in range(8):
                reached = library.reach(KASME, active, sync, own, ncc, 7, 70000)
                key = sync
                for _ in range((ncc - own) % 8):
                    key = library.nh(KASME, key)
                star = library.kenb_star(key if own != ncc else active, 7, 70000)
                self.assertEqual(reached, library.Reached((ncc - own) % 8, key, star))
        self.assertRaises(library.OutOfRange, library.reach, KASME, active, sync, 0, 8, 7, 1)


if __name__ == "__main__":
    unittest.main()
