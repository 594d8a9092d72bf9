"""Each mistake of a NAS message, made here by hand, is named."""
from __future__ import annotations

import unittest

from lte_sec.common import mistakes as reasons
from lte_sec.common.causes import told
from lte_sec.common.mistakes import ProtectedNas

from .test_reasons import CALLS, KASME, SYNC, of_mac

TEXT = bytes.fromhex("0755aabbcc")
COUNT = 258


def key(type: int, identity: int = 2, kasme: bytes = KASME) -> bytes:
    return CALLS.algorithm_key(kasme, type, identity)


def ciphered(count: int = COUNT, bearer: int = 0, direction: int = 0, of: bytes = key(1)[16:]) -> bytes:
    return CALLS.eea2(of, count, bearer, direction, TEXT)


def message(mac: bytes, text: bytes | None = None) -> ProtectedNas:
    return ProtectedNas(
        KASME, 2, 2, 0, COUNT, b"\x27" + mac + bytes([COUNT & 255]) + (ciphered() if text is None else text)
    )


class NasReasons(unittest.TestCase):
    def test_macs(self) -> None:
        body, of = bytes([2]) + ciphered(), key(2)[16:]
        right = CALLS.eia2(of, COUNT, 0, 0, body)
        whole = b"\x27" + bytes(4) + body
        for name, mac in {
            "it is that of the other direction": CALLS.eia2(of, COUNT, 0, 1, body),
            "it is that of BEARER 1": CALLS.eia2(of, COUNT, 1, 0, body),
            "it is that of BEARER 31": CALLS.eia2(of, COUNT, 31, 0, body),
            "it is without the sequence number": CALLS.eia2(of, COUNT, 0, 0, body[1:]),
            "it is over the plain text": CALLS.eia2(of, COUNT, 0, 0, body[:1] + TEXT),
            "it is over the message with zeros in place of the MAC": CALLS.eia2(of, COUNT, 0, 0, whole),
            "it is over the header and the message": CALLS.eia2(of, COUNT, 0, 0, b"\x27" + body),
            "it is that of the first half of KNASint": CALLS.eia2(key(2)[:16], COUNT, 0, 0, body),
            "it is that of KNASenc": CALLS.eia2(key(1)[16:], COUNT, 0, 0, body),
            "it is that of 128-EIA1": CALLS.eia1(key(2, 1)[16:], COUNT, 0, 0, body),
            "it is that of 128-EIA3": CALLS.eia3(key(2, 3)[16:], COUNT, 0, 0, body),
            "it is zeros": bytes(4),
            "it is reversed": right[::-1],
            "it is that of COUNT 2, the sequence number": CALLS.eia2(of, 2, 0, 0, body),
            "it is that of COUNT 300": CALLS.eia2(of, 300, 0, 0, body),
            "it is that of other at COUNT 258": CALLS.eia2(key(2, 2, SYNC)[16:], COUNT, 0, 0, body),
            "it is that of other at COUNT 2": CALLS.eia2(key(2, 2, SYNC)[16:], 2, 0, 0, body),
        }.items():
            self.assertEqual(of_mac(CALLS, message(mac), iter([("other", SYNC)])), name)

    def test_short_macs(self) -> None:
        head = bytes([0xC7, 0x02])
        other = CALLS.eia2(key(2)[16:], COUNT, 0, 1, head)
        nas = ProtectedNas(KASME, 2, 2, 0, COUNT, head + other[2:4])
        self.assertEqual(of_mac(CALLS, nas, tag=slice(2, 4)), "it is that of the other direction")
        self.assertEqual(
            of_mac(CALLS, ProtectedNas(KASME, 2, 2, 0, COUNT, head + bytes(2)), tag=slice(2, 4)), "it is zeros"
        )

    def test_texts(self) -> None:
        def reads(text: bytes) -> bool:
            return text == TEXT

        for name, text in {
            "it is not ciphered": TEXT,
            "it is ciphered for the other direction": ciphered(direction=1),
            "it is ciphered by the first half of KNASenc": ciphered(of=key(1)[:16]),
            "it is ciphered by KNASint": ciphered(of=key(2)[16:]),
            "it is ciphered by 128-EEA1": CALLS.eea1(key(1, 1)[16:], COUNT, 0, 0, TEXT),
            "it is ciphered by 128-EEA3": CALLS.eea3(key(1, 3)[16:], COUNT, 0, 0, TEXT),
            "it is ciphered with BEARER 1": ciphered(bearer=1),
            "it is ciphered with BEARER 31": ciphered(bearer=31),
            "it is ciphered at COUNT 2": ciphered(count=2),
            "it is ciphered at COUNT 242": ciphered(count=242),
            "it is ciphered at COUNT 299": ciphered(count=299),
        }.items():
            why, meant = reasons.text(CALLS, message(bytes(4), text), reads)
            self.assertEqual((told(why), meant), (name, TEXT))
        self.assertEqual(reasons.text(CALLS, message(bytes(4), bytes(5)), reads), ((), b""))


if __name__ == "__main__":
    unittest.main()
