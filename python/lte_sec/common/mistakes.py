"""Why a key, a MAC or a text is not the wanted one: the mistakes that implementations make, each with the octets that
it gives.

All is octets in, causes out. The wrong derivations are made by Python's own SHA-256: they are no keys of the standard,
so that no proved call gives them. The first mistake that gives the value names it; no answer is no reason.
"""
from __future__ import annotations

import functools
from collections.abc import Callable, Iterable, Iterator
from dataclasses import dataclass

from .causes import Cause, Reason, Why, has
from .quick import ready
from .terms import COMPUTED, NAS_ENCRYPTION, NAS_INTEGRITY, Calls

made_by = functools.lru_cache(maxsize=16)(ready)  # mistakes of one key come one after the other
KENB, NH, STAR, ALGORITHM = 0x11, 0x12, 0x13, 0x15  # FC (TS 33.401 A.3, A.4, A.5, A.7)
SMALLER = 65536  # EARFCNs below have two octets, the others three (A.5)
Named = Iterator[tuple[Reason, bytes]]


def kdf(key: bytes, code: int, *parts: bytes, lengths: bool = True) -> bytes:
    """The KDF of TS 33.220 B.2, or the same without the lengths of its inputs."""
    text = b"".join([part + (len(part).to_bytes(2, "big") if lengths else b"") for part in parts])
    return made_by(key)(bytes([code]) + text)


def first(value: bytes, named: Named) -> Why:
    return next(((why,) for why, made in named if made == value), ())


def reordered(value: bytes) -> Named:
    """What is written in another order: the whole, or each word of four or eight octets."""
    yield Cause.OCTETS_REVERSED.of(), value[::-1]
    for size in (4, 8):
        yield Cause.WORDS_REVERSED.of(size=size), b"".join(
            value[at : at + size][::-1] for at in range(0, len(value), size)
        )


# -- KeNB*


def star(value: bytes, key: bytes, pci: int, earfcn: int) -> Why:
    """The mistake by which this is KeNB* of a key and a cell."""
    return first(value, star_mistakes(key, pci, earfcn))


def star_mistakes(key: bytes, pci: int, earfcn: int) -> Named:
    size = 2 if earfcn < SMALLER else 3
    cell = pci.to_bytes(2, "big"), earfcn.to_bytes(size, "big")
    turned = pci.to_bytes(2, "little"), earfcn.to_bytes(size, "little")
    yield Cause.SWAPPED.of(one="PCI", other="EARFCN"), kdf(key, STAR, *reversed(cell))
    yield Cause.LITTLE_ENDIAN.of(what="PCI"), kdf(key, STAR, turned[0], cell[1])
    yield Cause.LITTLE_ENDIAN.of(what="EARFCN"), kdf(key, STAR, cell[0], turned[1])
    yield Cause.CELL_LITTLE_ENDIAN.of(), kdf(key, STAR, *turned)
    for octets in (2, 3, 4):
        if octets != size and earfcn >> 8 * octets == 0:
            yield Cause.EARFCN_SIZE.of(found=octets, wanted=size), kdf(
                key, STAR, cell[0], earfcn.to_bytes(octets, "big")
            )
    if size == 3:
        yield Cause.EARFCN_CUT.of(), kdf(key, STAR, cell[0], cell[1][1:])
    yield Cause.PCI_CUT.of(), kdf(key, STAR, bytes([pci & 255]), cell[1])
    yield Cause.LEFT_OUT.of(what="EARFCN"), kdf(key, STAR, cell[0])
    yield Cause.LEFT_OUT.of(what="PCI"), kdf(key, STAR, cell[1])
    yield Cause.NO_LENGTHS.of(), kdf(key, STAR, *cell, lengths=False)
    for code in (KENB, NH, 0x14, ALGORITHM):
        yield Cause.FC.of(found=code, wanted=STAR), kdf(key, code, *cell)
    yield Cause.REVERSED.of(what="the key"), kdf(key[::-1], STAR, *cell)
    yield from reordered(kdf(key, STAR, *cell))
    yield Cause.NO_STEP.of(), key


# -- KeNB


def kenb(value: bytes, kasme: bytes, count: int) -> Why:
    """The mistake by which this is KeNB of a KASME and a COUNT."""
    return first(value, kenb_mistakes(kasme, count))


def count_mistakes(count: int) -> Iterator[tuple[Reason, int]]:
    """COUNTs that are taken for another."""
    for bits in (5, 8, 16):
        if count >> bits:
            low = count & (1 << bits) - 1
            yield Cause.COUNT_CUT.of(found=low, bits=bits, wanted=count), low
    for far in (1, 2, 32, 64, 256, 65536):
        for other in (count - far, count + far):
            if 0 <= other < 1 << 32:
                yield (Cause.COUNT_LESS if other < count else Cause.COUNT_MORE).of(
                    found=other, far=far, wanted=count
                ), other


def kenb_mistakes(kasme: bytes, count: int) -> Named:
    for why, other in count_mistakes(count):
        yield why, kdf(kasme, KENB, other.to_bytes(4, "big"))
    octets = count.to_bytes(4, "big")
    yield Cause.LITTLE_ENDIAN.of(what="COUNT"), kdf(kasme, KENB, octets[::-1])
    yield Cause.COUNT_SIZE.of(), kdf(kasme, KENB, octets[1:])
    yield Cause.FC.of(found=NH, wanted=KENB), kdf(kasme, NH, octets)
    yield Cause.FC.of(found=STAR, wanted=KENB), kdf(kasme, STAR, octets)
    yield Cause.NO_LENGTH.of(what="COUNT"), kdf(kasme, KENB, octets, lengths=False)
    yield Cause.KASME_ITSELF.of(), kasme
    yield Cause.KASME_TURNED.of(), kasme[::-1]
    yield Cause.REVERSED.of(what="KASME"), kdf(kasme[::-1], KENB, octets)
    yield from reordered(kdf(kasme, KENB, octets))
    yield Cause.CONSTANT.of(octet=0), bytes(32)
    yield Cause.CONSTANT.of(octet=255), b"\xff" * 32


# -- NH


def nh(value: bytes, kasme: bytes, sync: bytes) -> Why:
    """The mistake by which this is NH of a KASME and a SYNC-input."""
    return first(value, nh_mistakes(kasme, sync))


def nh_mistakes(kasme: bytes, sync: bytes) -> Named:
    yield Cause.FC.of(found=KENB, wanted=NH), kdf(kasme, KENB, sync)
    yield Cause.FC.of(found=STAR, wanted=NH), kdf(kasme, STAR, sync)
    yield Cause.NO_LENGTH.of(what="SYNC-input"), kdf(kasme, NH, sync, lengths=False)
    yield Cause.SWAPPED.of(one="KASME", other="SYNC-input"), kdf(sync, NH, kasme)
    yield Cause.REVERSED.of(what="SYNC-input"), kdf(kasme, NH, sync[::-1])
    yield Cause.REVERSED.of(what="KASME"), kdf(kasme[::-1], NH, sync)
    yield Cause.SYNC_OF_KASME.of(), kdf(kasme, NH, kasme)
    yield from reordered(kdf(kasme, NH, sync))
    yield Cause.SYNC_ITSELF.of(), sync
    yield Cause.CONSTANT.of(octet=0), bytes(32)
    yield Cause.CONSTANT.of(octet=255), b"\xff" * 32


# -- algorithm keys


def algorithm(value: bytes, key: bytes, type: int, identity: int) -> Why:
    """The mistake by which this is the algorithm key of a key, an algorithm type and identity, or the half of it that
    is used."""
    return first(value, algorithm_mistakes(key, type, identity, len(value)))


def algorithm_mistakes(key: bytes, type: int, identity: int, size: int = 32) -> Named:
    """The whole keys, or their last 16 octets."""
    whole = kdf(key, ALGORITHM, bytes([type]), bytes([identity]))
    if size != len(whole):
        yield Cause.OTHER_HALF.of(), whole[:size]
        yield Cause.HALF_OF_ABOVE.of(which="first"), key[:size]
        yield Cause.HALF_OF_ABOVE.of(which="last"), key[-size:]
    yield Cause.SWAPPED.of(one="algorithm type", other="identity"), kdf(
        key, ALGORITHM, bytes([identity]), bytes([type])
    )[-size:]
    yield Cause.NO_LENGTHS.of(), kdf(key, ALGORITHM, bytes([type]), bytes([identity]), lengths=False)[-size:]
    yield Cause.TWO_OCTETS.of(), kdf(key, ALGORITHM, bytes([0, type]), bytes([0, identity]))[-size:]
    yield Cause.LEFT_OUT.of(what="the identity"), kdf(key, ALGORITHM, bytes([type]))[-size:]
    for code in (KENB, NH, STAR, 0x14):
        yield Cause.FC.of(found=code, wanted=ALGORITHM), kdf(key, code, bytes([type]), bytes([identity]))[-size:]
    yield Cause.REVERSED.of(what="the key"), kdf(key[::-1], ALGORITHM, bytes([type]), bytes([identity]))[-size:]
    yield from reordered(whole[-size:])
    yield Cause.ABOVE_ITSELF.of(), key[-size:]


# -- NAS


@dataclass(frozen=True)
class ProtectedNas:
    """A protected NAS message, and the context and COUNT that it should stand under."""

    kasme: bytes
    eea: int
    eia: int
    direction: int  # 0 up, 1 down
    count: int
    pdu: bytes

    def ciphered(self) -> Ciphered:
        """Its text, as it is ciphered."""
        return Ciphered(
            self.kasme, NAS_ENCRYPTION, self.eea, (NAS_INTEGRITY, self.eia), self.direction, self.count, 0, self.pdu[6:]
        )


def key_of(calls: Calls, nas: ProtectedNas, type: int) -> bytes:
    return calls.algorithm_key(nas.kasme, type, nas.eia if type == NAS_INTEGRITY else nas.eea)


def macs(calls: Calls) -> dict[int, Callable[[bytes, int, int, int, bytes], bytes]]:
    return {1: calls.eia1, 2: calls.eia2, 3: calls.eia3}


def mac(
    calls: Calls, nas: ProtectedNas, others: Iterator[tuple[str, bytes]] = iter(()), tag: slice = slice(0, 4)
) -> Why:
    """The mistake by which this message has the MAC that it has, or `nas` as a Service Request its short MAC (then
    `tag` is its place in the MAC).

    `others` are other KASMEs with their names.
    """
    if nas.eia not in COMPUTED:
        return ()
    is_short = tag != slice(0, 4)
    value = nas.pdu[2:4] if is_short else nas.pdu[1:5]
    body = nas.pdu[:2] if is_short else nas.pdu[5:]
    whole, cipher = key_of(calls, nas, NAS_INTEGRITY), key_of(calls, nas, NAS_ENCRYPTION)
    make, key = macs(calls)[nas.eia], whole[16:]
    if value == bytes(len(value)):
        return Cause.MAC_ZEROS.because()
    tries: list[tuple[Reason, Callable[[], bytes]]] = [
        (Cause.MAC_OTHER_WAY.of(), lambda: make(key, nas.count, 0, 1 - nas.direction, body)),
        (Cause.MAC_FIRST_HALF.of(key="KNASint"), lambda: make(whole[:16], nas.count, 0, nas.direction, body)),
        (Cause.MAC_OF_KEY.of(key="KNASenc"), lambda: make(cipher[16:], nas.count, 0, nas.direction, body)),
        (Cause.MAC_REVERSED.of(), lambda: make(key, nas.count, 0, nas.direction, body)[::-1]),
    ]
    if not is_short:
        tries += [
            (Cause.MAC_WITHOUT_NUMBER.of(), lambda: make(key, nas.count, 0, nas.direction, body[1:])),
            (
                Cause.MAC_OVER_PLAIN.of(),
                lambda: make(key, nas.count, 0, nas.direction, body[:1] + deciphered(calls, nas)),
            ),
            (Cause.MAC_OVER_ZEROS.of(), lambda: make(key, nas.count, 0, nas.direction, nas.pdu[:1] + bytes(4) + body)),
            (Cause.MAC_OVER_HEADER.of(), lambda: make(key, nas.count, 0, nas.direction, nas.pdu[:1] + body)),
        ]
    tries += [(Cause.MAC_OF_BEARER.of(bearer=bearer), lambda bearer=bearer: make(key, nas.count, bearer, nas.direction, body)) for bearer in range(1, 32)]  # type: ignore[misc]
    found = next(((why,) for why, made in tries if made()[tag] == value), ())
    return found or other_mac(calls, nas, value, body, tag, others)


def other_mac(
    calls: Calls, nas: ProtectedNas, value: bytes, body: bytes, tag: slice, others: Iterator[tuple[str, bytes]]
) -> Why:
    """Another algorithm, COUNT or KASME."""
    for eia in COMPUTED:
        if (
            eia != nas.eia
            and macs(calls)[eia](
                calls.algorithm_key(nas.kasme, NAS_INTEGRITY, eia)[16:], nas.count, 0, nas.direction, body
            )[tag]
            == value
        ):
            return Cause.MAC_OF_EIA.because(eia=eia)
    low = body[0] if tag == slice(0, 4) and body else nas.count & 31
    for name, kasme in others:
        key = calls.algorithm_key(kasme, NAS_INTEGRITY, nas.eia)[16:]
        for count in dict.fromkeys((nas.count, low)):
            if macs(calls)[nas.eia](key, count, 0, nas.direction, body)[tag] == value:
                return Cause.MAC_OF_KASME.because(name=name, count=count)
    if tag != slice(0, 4):
        return ()  # 16 bits fit by chance
    key = key_of(calls, nas, NAS_INTEGRITY)[16:]
    for count in dict.fromkeys((low, *range(max(0, nas.count - 300), nas.count + 300))):
        if count != nas.count and macs(calls)[nas.eia](key, count, 0, nas.direction, body)[:4] == value:
            return (Cause.MAC_OF_NUMBER if count == low and nas.count >> 8 else Cause.MAC_OF_COUNT).because(count=count)
    return ()


def cipher(calls: Calls, eea: int, key: bytes, count: int, bearer: int, direction: int, text: bytes) -> bytes:
    made = {1: calls.eea1, 2: calls.eea2, 3: calls.eea3}
    return made[eea](key, count, bearer, direction, text) if eea in made else text


def deciphered(calls: Calls, nas: ProtectedNas) -> bytes:
    return cipher(calls, nas.eea, key_of(calls, nas, NAS_ENCRYPTION)[16:], nas.count, 0, nas.direction, nas.pdu[6:])


NAMES = {1: "KNASenc", 2: "KNASint", 3: "KRRCenc", 4: "KRRCint", 5: "KUPenc"}  # the keys of algorithms, by type


@dataclass(frozen=True)
class Ciphered:
    """What is ciphered, or should be: the key above its key, which has this type, and what it should be ciphered by;
    `beside` are a type and an identity of the key beside it."""

    above: bytes
    type: int
    eea: int
    beside: tuple[int, int]
    direction: int
    count: int
    bearer: int
    body: bytes


def ciphers(calls: Calls, it: Ciphered, bearers: Iterable[int], counts: Iterable[int], was: str = "ciphered") -> Named:
    """What the octets are where they were ciphered, or deciphered, by mistake, each made only when it is asked for."""

    def key(type: int, identity: int) -> bytes:
        return calls.algorithm_key(it.above, type, identity)

    def under(
        of: bytes, eea: int = it.eea, count: int = it.count, bearer: int = it.bearer, direction: int = it.direction
    ) -> bytes:
        return cipher(calls, eea, of, count, bearer, direction, it.body)

    whole, name = key(it.type, it.eea), NAMES[it.type]
    if it.eea in COMPUTED:
        yield Cause.NOT_CIPHERED.of(was=was), it.body
        yield Cause.CIPHERED_OTHER_WAY.of(was=was), under(whole[16:], direction=1 - it.direction)
        yield Cause.CIPHERED_FIRST_HALF.of(was=was, key=name), under(whole[:16])
        yield Cause.CIPHERED_BY_KEY.of(was=was, key=NAMES[it.beside[0]]), under(key(*it.beside)[16:])
    for eea in COMPUTED:
        if eea != it.eea:
            yield Cause.CIPHERED_BY_EEA.of(was=was, eea=eea), under(key(it.type, eea)[16:], eea)
    for bearer in bearers if it.eea in COMPUTED else ():
        if bearer != it.bearer:
            yield Cause.CIPHERED_WITH_BEARER.of(was=was, bearer=bearer), under(whole[16:], bearer=bearer)
    for count in dict.fromkeys(counts) if it.eea in COMPUTED else ():
        if count != it.count and count >= 0:
            yield Cause.CIPHERED_AT_COUNT.of(was=was, count=count), under(whole[16:], count=count)


def near(count: int) -> Iterator[int]:
    """COUNTs near this one, the nearest first."""
    return (other for far in range(1, 17) for other in (count - far, count + far) if other >= 0)


def text(calls: Calls, nas: ProtectedNas, reads: Callable[[bytes], bool]) -> tuple[Why, bytes]:
    """The mistake by which the text of this message was ciphered, and the text; `reads` says whether octets are a NAS
    message."""
    it = nas.ciphered()
    for why, plain in ciphers(calls, it, (1, 2, 3, 31), (nas.count & 255, *near(nas.count), *range(300))):
        if reads(plain) and (
            plain[:1] == b"\x07" or why.cause is not Cause.CIPHERED_AT_COUNT
        ):  # a COUNT is believed only of EMM: ESM reads by chance
            return (why,), plain
    return (), b""


def ciphering(calls: Calls, it: Ciphered, bits: int, fits: Callable[[bytes], bool], was: str = "ciphered") -> Why:
    """The mistake by which this was ciphered, on a bearer with so many bits of sequence number; `fits` says whether
    octets are what was meant."""
    counts = (it.count & (1 << bits) - 1, *near(it.count), *range(300))
    return next(((why,) for why, plain in ciphers(calls, it, range(32), counts, was) if fits(plain)), ())


SHORT = 4  # a text of fewer octets fits by chance, where much is tried


def is_sure(why: Why, text: bytes) -> bool:
    """Whether a text is long enough for this mistake to be believed."""
    return why != () and (len(text) >= SHORT or not has(why, Cause.CIPHERED_AT_COUNT, Cause.CIPHERED_WITH_BEARER))
