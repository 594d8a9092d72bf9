"""Why a PDU of an SRB does not open: the mistakes that implementations make of its MAC-I, of its ciphering or of
both."""
from __future__ import annotations

from collections.abc import Callable, Iterator
from dataclasses import dataclass, replace

from .causes import Cause, Reason, Why, told
from .mistakes import SHORT, Ciphered, cipher, ciphering, macs, near
from .terms import COMPUTED, RRC_ENCRYPTION, RRC_INTEGRITY, Calls


@dataclass(frozen=True)
class Srb:
    """A message on an SRB: KRRCint and KRRCenc, whole, and what its MAC should be of; `body` is the header and the
    text, ciphered by `eea`."""

    whole: bytes
    cipher: bytes
    eia: int
    direction: int
    count: int
    bearer: int
    body: bytes
    eea: int = 0


def srb(calls: Calls, value: bytes, it: Srb) -> Why:
    """The mistake by which a message on an SRB has this MAC."""
    if it.eia not in COMPUTED:
        return ()
    make, key = macs(calls)[it.eia], it.whole[16:]
    if value == bytes(len(value)):
        return Cause.MAC_ZEROS.because()
    tries: list[tuple[Reason, Callable[[], bytes]]] = [
        (Cause.MAC_OTHER_WAY.of(), lambda: make(key, it.count, it.bearer, 1 - it.direction, it.body)),
        (
            Cause.MAC_FIRST_HALF.of(key="KRRCint"),
            lambda: make(it.whole[:16], it.count, it.bearer, it.direction, it.body),
        ),
        (Cause.MAC_OF_KEY.of(key="KRRCenc"), lambda: make(it.cipher[16:], it.count, it.bearer, it.direction, it.body)),
        (Cause.MAC_REVERSED.of(), lambda: make(key, it.count, it.bearer, it.direction, it.body)[::-1]),
        (Cause.MAC_WITHOUT_HEADER.of(), lambda: make(key, it.count, it.bearer, it.direction, it.body[1:])),
    ]
    if it.eea in COMPUTED:
        ciphered = it.body[:1] + cipher(calls, it.eea, it.cipher[16:], it.count, it.bearer, it.direction, it.body[1:])
        tries.append((Cause.MAC_OVER_CIPHERED.of(), lambda: make(key, it.count, it.bearer, it.direction, ciphered)))
    tries += [(Cause.MAC_OF_EIA.of(eia=eia), lambda eia=eia: macs(calls)[eia](key, it.count, it.bearer, it.direction, it.body)) for eia in COMPUTED if eia != it.eia]  # type: ignore[misc]
    tries += [(Cause.MAC_OF_BEARER.of(bearer=bearer), lambda bearer=bearer: make(key, it.count, bearer, it.direction, it.body)) for bearer in range(32) if bearer != it.bearer]  # type: ignore[misc]
    near = [count for far in range(1, 301) for count in (it.count - far, it.count + far) if count >= 0]
    for count in dict.fromkeys((it.count & 31, *near)):
        of_count = Cause.MAC_OF_NUMBER if count == it.count & 31 and it.count >> 5 else Cause.MAC_OF_COUNT
        if count != it.count:
            tries.append((of_count.of(count=count), lambda count=count: make(key, count, it.bearer, it.direction, it.body)))  # type: ignore[misc]
    return next(((why,) for why, made in tries if made() == value), ())


@dataclass(frozen=True)
class Pdu:
    """A PDU of an SRB, and what it should be protected by; `above` is KeNB or KeNB*."""

    above: bytes
    eea: int
    eia: int
    direction: int
    count: int
    bearer: int
    octets: bytes

    def opened(self, calls: Calls) -> bytes:
        """Text and MAC, deciphered."""
        key = calls.algorithm_key(self.above, RRC_ENCRYPTION, self.eea)[16:]
        return cipher(calls, self.eea, key, self.count, self.bearer, self.direction, self.octets[1:])

    def ciphered(self) -> Ciphered:
        """Text and MAC, as they are ciphered."""
        return Ciphered(
            self.above,
            RRC_ENCRYPTION,
            self.eea,
            (RRC_INTEGRITY, self.eia),
            self.direction,
            self.count,
            self.bearer,
            self.octets[1:],
        )

    def is_sealed(self, calls: Calls, plain: bytes) -> bool:
        """Whether the MAC behind this text is right."""
        key = calls.algorithm_key(self.above, RRC_INTEGRITY, self.eia)[16:]
        return (
            macs(calls)[self.eia](key, self.count, self.bearer, self.direction, self.octets[:1] + plain[:-4])
            == plain[-4:]
        )

    def elsewhere(self) -> Iterator[tuple[Reason, Pdu]]:
        """The same for another direction, BEARER or COUNT."""
        yield Cause.THOSE_OTHER_WAY.of(), replace(self, direction=1 - self.direction)
        yield from (
            (Cause.THOSE_OF_BEARER.of(bearer=bearer), replace(self, bearer=bearer))
            for bearer in range(32)
            if bearer != self.bearer
        )
        counts = dict.fromkeys((self.count & 31, *near(self.count), *range(self.count & 31, self.count + 1024, 32)))
        yield from (
            (Cause.THOSE_OF_COUNT.of(count=count), replace(self, count=count))
            for count in counts
            if count != self.count
        )


MAC_I, TEXT, BOTH = ("MAC-I",), ("text",), ("text", "MAC-I")  # the parts of a PDU that may be wrong


@dataclass(frozen=True)
class PartsWrong:
    """Parts of a message that are wrong, and why."""

    parts: tuple[str, ...] = ()
    why: Why = ()

    def __str__(self) -> str:
        return f"{' and '.join(self.parts)}: {told(self.why)}" if self.why else ""


def pdu(calls: Calls, it: Pdu, wanted: bytes | None = None) -> PartsWrong:
    """The mistake by which a PDU of an SRB does not open, of its MAC or of its ciphering or of both; `wanted` is its
    text, if it is known."""
    plain = it.opened(calls)
    if it.eia not in COMPUTED or len(plain) < 4 or it.is_sealed(calls, plain):
        return PartsWrong()
    whole, key = (
        calls.algorithm_key(it.above, type, identity)
        for type, identity in ((RRC_INTEGRITY, it.eia), (RRC_ENCRYPTION, it.eea))
    )
    found = srb(
        calls,
        plain[-4:],
        Srb(whole, key, it.eia, it.direction, it.count, it.bearer, it.octets[:1] + plain[:-4], it.eea),
    )
    if found:
        return PartsWrong(MAC_I, found)
    if plain[:-4] == wanted:
        return PartsWrong()
    is_long = wanted is not None and len(wanted) >= SHORT
    found = ciphering(
        calls, it.ciphered(), 5, lambda other: it.is_sealed(calls, other) or is_long and other[:-4] == wanted
    )
    if found:
        return PartsWrong(TEXT, found)
    of_both = (
        (why for why, other in it.elsewhere() if other.is_sealed(calls, other.opened(calls)))
        if it.eea in COMPUTED
        else iter(())
    )
    return next((PartsWrong(BOTH, (why,)) for why in of_both), PartsWrong())
