"""SNOW 3G and ZUC in plain Python, by their documents: the stand-in's 128-EEA1, 128-EIA1, 128-EEA3 and 128-EIA3 (TS
35.215, 35.216, 35.221 and 35.222)."""
from __future__ import annotations

from collections.abc import Iterator
from functools import cache

MASK = 0xFFFFFFFF


def words_of(octets: bytes) -> list[int]:
    return [int.from_bytes(octets[place : place + 4], "big") for place in range(0, len(octets), 4)]


def product(a: int, b: int, modulus: int) -> int:
    """The product of two octets as polynomials."""
    total = 0
    while b:
        total, a, b = total ^ (a if b & 1 else 0), a << 1 ^ (modulus if a & 0x80 else 0), b >> 1
    return total


def power(a: int, exponent: int, modulus: int) -> int:
    total = 1
    for _ in range(exponent):
        total = product(total, a, modulus)
    return total


def affine(value: int, rows: bytes, constant: int) -> int:
    return sum((bin(value & row).count("1") & 1) << bit for bit, row in enumerate(rows)) ^ constant


SR = [affine(power(x, 254, 0x11B), bytes.fromhex("f1e3c78f1f3e7cf8"), 0x63) for x in range(256)]  # AES's own
SQ = [
    0x25
    ^ x
    ^ power(x, 9, 0x169)
    ^ power(x, 13, 0x169)
    ^ power(x, 15, 0x169)
    ^ power(x, 33, 0x169)
    ^ power(x, 41, 0x169)
    ^ power(x, 45, 0x169)
    ^ power(x, 47, 0x169)
    ^ power(x, 49, 0x169)
    for x in range(256)
]
ALPHA = [
    int.from_bytes(bytes(product(power(2, e, 0x1A9), c, 0x1A9) for e in (23, 245, 48, 239)), "big") for c in range(256)
]
ALPHA_BACK = [
    int.from_bytes(bytes(product(power(2, e, 0x1A9), c, 0x1A9) for e in (16, 39, 6, 64)), "big") for c in range(256)
]


@cache
def mixed(word: int, box: str) -> int:
    """S1 or S2 of SNOW 3G: four look-ups, and a column as AES mixes one."""
    table, modulus = (SR, 0x11B) if box == "SR" else (SQ, 0x169)
    a, b, c, d = (table[octet] for octet in word.to_bytes(4, "big"))

    def column(w: int, x: int, y: int, z: int) -> int:
        return product(2, w, modulus) ^ x ^ y ^ product(2, z, modulus) ^ z

    return int.from_bytes(
        bytes((column(a, b, c, d), column(b, c, d, a), column(c, d, a, b), column(d, a, b, c))), "big"
    )


def snow_3g(key: bytes, iv: list[int]) -> Iterator[int]:
    """The keystream, word by word."""
    k = words_of(key)[::-1]
    ones = [word ^ MASK for word in k]
    s = [*ones, *k, *ones[:1], ones[1] ^ iv[3], ones[2] ^ iv[2], ones[3], k[0] ^ iv[1], *k[1:3], k[3] ^ iv[0]]
    registers = [0, 0, 0]

    def clock(mixing: bool) -> int:
        one, two, three = registers
        word = (s[15] + one & MASK) ^ two
        registers[:] = [two + (three ^ s[5]) & MASK, mixed(one, "SR"), mixed(two, "SQ")]
        fed = (
            (s[0] << 8 & MASK)
            ^ ALPHA[s[0] >> 24]
            ^ s[2]
            ^ s[11] >> 8
            ^ ALPHA_BACK[s[11] & 255]
            ^ (word if mixing else 0)
        )
        word ^= s[0]
        s[:] = [*s[1:], fed]
        return word

    for _ in range(32):
        clock(True)
    clock(False)
    while True:
        yield clock(False)


P1, P2, P3 = (
    bytes(int(digit, 16) for digit in digits) for digits in ("9f0eff2a040c7539", "8d6570c4b1eaf392", "26a60daf33d509cd")
)
D = [
    0x44D7,
    0x26BC,
    0x626B,
    0x135E,
    0x5789,
    0x35E2,
    0x7135,
    0x09AF,
    0x4D78,
    0x2F13,
    0x6BC4,
    0x1AF1,
    0x5E26,
    0x3C4D,
    0x789A,
    0x47AC,
]
PRIME = (1 << 31) - 1


def box_0(x: int) -> int:
    q = x >> 4 ^ P1[x & 15]
    r = x & 15 ^ P2[q]
    y = (q ^ P3[r]) << 4 | r
    return (y << 5 | y >> 3) & 255


S0 = [box_0(x) for x in range(256)]
S1 = [affine(power(x, 254, 0x18B), bytes.fromhex("eddbb77ee3d6bc79"), 0x55) for x in range(256)]


def turned(word: int, by: int) -> int:
    return (word << by | word >> 32 - by) & MASK


def spread(word: int, *turns: int) -> int:
    """L1 or L2 of ZUC, and the S-boxes on its octets."""
    total = word
    for by in turns:
        total ^= turned(word, by)
    a, b, c, d = total.to_bytes(4, "big")
    return S0[a] << 24 | S1[b] << 16 | S0[c] << 8 | S1[d]


def zuc(key: bytes, iv: bytes) -> Iterator[int]:
    """The keystream, word by word."""
    s = [k << 23 | d << 8 | i for k, d, i in zip(key, D, iv)]
    registers = [0, 0]

    def clock(mixing: bool) -> int:
        def joined(high: int, low: int) -> int:
            return (s[high] >> 15) << 16 | s[low] & 0xFFFF

        def crossed(low: int, high: int) -> int:
            return (s[low] & 0xFFFF) << 16 | s[high] >> 15

        one, two = registers
        word = (joined(15, 14) ^ one) + two & MASK
        w1, w2 = one + crossed(11, 9) & MASK, two ^ crossed(7, 5)
        registers[:] = [
            spread((w1 & 0xFFFF) << 16 | w2 >> 16, 2, 10, 18, 24),
            spread((w2 & 0xFFFF) << 16 | w1 >> 16, 8, 14, 22, 30),
        ]
        out = word ^ crossed(2, 0)
        fed = (s[15] << 15) + (s[13] << 17) + (s[10] << 21) + (s[4] << 20) + s[0] * 257 + (word >> 1 if mixing else 0)
        s[:] = [*s[1:], fed % PRIME or PRIME]
        return out

    for _ in range(32):
        clock(True)
    clock(False)
    while True:
        yield clock(False)


# ---- the algorithms of TS 33.401 Annex B


def combined(stream: Iterator[int], text: bytes) -> bytes:
    octets = b"".join(next(stream).to_bytes(4, "big") for _ in range((len(text) + 3) // 4))
    return bytes(a ^ b for a, b in zip(text, octets))


def eea1(key: bytes, count: int, bearer: int, direction: int, text: bytes) -> bytes:
    word = bearer << 27 | direction << 26
    return combined(snow_3g(key, [word, count, word, count]), text)


def eea3(key: bytes, count: int, bearer: int, direction: int, text: bytes) -> bytes:
    head = count.to_bytes(4, "big") + (bearer << 27 | direction << 26).to_bytes(4, "big")
    return combined(zuc(key, head + head), text)


def eia1(key: bytes, count: int, bearer: int, direction: int, text: bytes) -> bytes:
    fresh = bearer << 27
    stream = snow_3g(key, [fresh ^ direction << 15, count ^ direction << 31, fresh, count])
    p, q = (next(stream) << 32 | next(stream) for _ in range(2))

    def times(a: int, b: int) -> int:
        total = 0
        while b:
            total, a, b = total ^ (a if b & 1 else 0), (a << 1 & (1 << 64) - 1) ^ (0x1B if a >> 63 else 0), b >> 1
        return total

    value = 0
    for place in range(0, len(text), 8):
        value = times(value ^ int.from_bytes(text[place : place + 8].ljust(8, b"\0"), "big"), p)
    return (times(value ^ 8 * len(text), q) >> 32 ^ next(stream)).to_bytes(4, "big")


def eia3(key: bytes, count: int, bearer: int, direction: int, text: bytes) -> bytes:
    half = bytearray(count.to_bytes(4, "big") + (bearer << 27).to_bytes(4, "big"))
    other = bytearray(half)
    other[0] ^= direction << 7
    other[6] ^= direction << 7
    bits = 8 * len(text)
    words = (bits + 31) // 32 + 2
    stream = zuc(key, bytes(half + other))
    z = int.from_bytes(b"".join(next(stream).to_bytes(4, "big") for _ in range(words)), "big")

    def window(place: int) -> int:
        return z >> 32 * words - 32 - place & MASK

    total = window(bits) ^ z & MASK
    for place in range(bits):
        if text[place // 8] >> 7 - place % 8 & 1:
            total ^= window(place)
    return total.to_bytes(4, "big")
