"""The calls of Annexes A and B in pure Python: the tests use them if the proved calls are not built."""
from __future__ import annotations

import functools
import hmac

from . import ciphers


def _boxes() -> bytes:
    """The S-box of AES (FIPS 197 5.1.1)."""
    exp, log, value = [0] * 256, [0] * 256, 1
    for power in range(255):
        exp[power], log[value] = value, power
        value ^= (value << 1) ^ (0x11B if value & 0x80 else 0)
        value &= 0xFF
    box = bytearray(256)
    for octet in range(256):
        inverse = exp[(255 - log[octet]) % 255] if octet else 0
        turned = 0
        for turn in range(5):
            turned ^= (inverse << turn | inverse >> (8 - turn)) & 0xFF
        box[octet] = turned ^ 0x63
    return bytes(box)


BOX = _boxes()


def _tables() -> list[list[int]]:
    """SubBytes and MixColumns of one octet, for each place in a column (FIPS 197 5.1): a word of 32 bits each."""
    first = []
    for octet in BOX:
        twice = octet << 1 if octet < 128 else (octet << 1) ^ 0x11B
        first.append(twice << 24 | octet << 16 | octet << 8 | twice ^ octet)
    return [
        [word >> 8 * place | (word & (1 << 8 * place) - 1) << 32 - 8 * place if place else word for word in first]
        for place in range(4)
    ]


TABLES = _tables()


@functools.lru_cache(4096)
def _round_keys(key: bytes) -> list[int]:
    words = [int.from_bytes(key[place : place + 4], "big") for place in range(0, 16, 4)]
    constant = 1
    for place in range(4, 44):
        word = words[-1]
        if place % 4 == 0:
            turned = (word << 8 | word >> 24) & 0xFFFFFFFF
            word = int.from_bytes(bytes(BOX[octet] for octet in turned.to_bytes(4, "big")), "big") ^ constant << 24
            constant = (constant << 1) ^ (0x11B if constant & 0x80 else 0)
        words.append(words[-4] ^ word)
    return words


@functools.lru_cache(1 << 16)
def aes(key: bytes, block: bytes) -> bytes:
    """AES-128 (FIPS 197); tests ask for the same blocks again and again."""
    keys, (t0, t1, t2, t3) = _round_keys(key), TABLES
    a, b, c, d = (int.from_bytes(block[place : place + 4], "big") ^ keys[place // 4] for place in range(0, 16, 4))
    for place in range(4, 40, 4):
        a, b, c, d = (
            t0[a >> 24] ^ t1[b >> 16 & 255] ^ t2[c >> 8 & 255] ^ t3[d & 255] ^ keys[place],
            t0[b >> 24] ^ t1[c >> 16 & 255] ^ t2[d >> 8 & 255] ^ t3[a & 255] ^ keys[place + 1],
            t0[c >> 24] ^ t1[d >> 16 & 255] ^ t2[a >> 8 & 255] ^ t3[b & 255] ^ keys[place + 2],
            t0[d >> 24] ^ t1[a >> 16 & 255] ^ t2[b >> 8 & 255] ^ t3[c & 255] ^ keys[place + 3],
        )
    columns = ((a, b, c, d), (b, c, d, a), (c, d, a, b), (d, a, b, c))
    last = (
        (BOX[w >> 24] << 24 | BOX[x >> 16 & 255] << 16 | BOX[y >> 8 & 255] << 8 | BOX[z & 255]) ^ keys[40 + place]
        for place, (w, x, y, z) in enumerate(columns)
    )
    return b"".join(word.to_bytes(4, "big") for word in last)


def head(count: int, bearer: int, direction: int) -> bytes:
    return (count << 32 | bearer << 27 | direction << 26).to_bytes(8, "big")


def kdf(key: bytes, code: int, *parts: bytes) -> bytes:
    """The KDF of TS 33.220 Annex B."""
    text = bytes([code]) + b"".join(part + len(part).to_bytes(2, "big") for part in parts)
    return hmac.digest(key, text, "sha256")


class StandIn:
    """The six calls (TS 33.401 Annexes A and B)."""

    budget = 100_000

    def kenb(self, kasme: bytes, count: int) -> bytes:
        return kdf(kasme, 0x11, count.to_bytes(4, "big"))

    def nh(self, kasme: bytes, sync: bytes) -> bytes:
        return kdf(kasme, 0x12, sync)

    def kenb_star(self, key: bytes, pci: int, earfcn: int) -> bytes:
        return kdf(key, 0x13, pci.to_bytes(2, "big"), earfcn.to_bytes(2 if earfcn < 65536 else 3, "big"))

    def algorithm_key(self, key: bytes, type: int, identity: int) -> bytes:
        return kdf(key, 0x15, bytes([type]), bytes([identity]))

    def eea2(self, key: bytes, count: int, bearer: int, direction: int, text: bytes) -> bytes:
        first = int.from_bytes(head(count, bearer, direction), "big") << 64
        stream = b"".join(aes(key, (first + block).to_bytes(16, "big")) for block in range((len(text) + 15) // 16))
        return bytes(a ^ b for a, b in zip(text, stream))

    def eia2(self, key: bytes, count: int, bearer: int, direction: int, text: bytes) -> bytes:
        return cmac(key, head(count, bearer, direction) + text)[:4]

    def eea1(self, key: bytes, count: int, bearer: int, direction: int, text: bytes) -> bytes:
        return ciphers.eea1(key, count, bearer, direction, text)

    def eea3(self, key: bytes, count: int, bearer: int, direction: int, text: bytes) -> bytes:
        return ciphers.eea3(key, count, bearer, direction, text)

    def eia1(self, key: bytes, count: int, bearer: int, direction: int, text: bytes) -> bytes:
        return ciphers.eia1(key, count, bearer, direction, text)

    def eia3(self, key: bytes, count: int, bearer: int, direction: int, text: bytes) -> bytes:
        return ciphers.eia3(key, count, bearer, direction, text)


@functools.lru_cache(4096)
def _masks(key: bytes) -> tuple[int, int]:
    """The subkeys of CMAC (NIST SP 800-38B 6.1)."""

    def double(value: int) -> int:
        return (value << 1 ^ (0x87 if value >> 127 else 0)) & (1 << 128) - 1

    first = double(int.from_bytes(aes(key, bytes(16)), "big"))
    return first, double(first)


def cmac(key: bytes, text: bytes) -> bytes:
    """CMAC with AES-128 (NIST SP 800-38B)."""
    blocks = [text[place : place + 16] for place in range(0, len(text), 16)] or [b""]
    mask = _masks(key)[len(blocks[-1]) < 16]
    if len(blocks[-1]) < 16:
        blocks[-1] = (blocks[-1] + b"\x80").ljust(16, b"\0")
    value = bytes(16)
    for place, block in enumerate(blocks):
        last = mask if place == len(blocks) - 1 else 0
        value = aes(key, (int.from_bytes(value, "big") ^ int.from_bytes(block, "big") ^ last).to_bytes(16, "big"))
    return value
