"""Why a call of the library is refused, not what an actor refuses: a class for each cause, and the checks of what a call is given."""
from __future__ import annotations

from ctypes import c_uint8
from typing import Any

from .native import FoundState


class Refused(Exception):
    """A call that did nothing, and why."""


class OutOfRange(Refused, ValueError):
    """An argument is not in the range that the call takes."""


class CountSpent(Refused):
    """No COUNT is left to send, or that of the PDU has too many bits."""


class Short(Refused):
    """The PDU has fewer octets than the shortest one."""


class BadHeader(Refused):
    """The first octet does not begin such a PDU."""


class OtherCount(Refused):
    """The sequence number of the PDU is not that of the COUNT that was named."""


class BeforeFirst(Refused):
    """On RLC AM the HFN of the PDU would be before the first."""


class MacFails(Refused):
    """The MAC differs: the COUNT at which it was computed, the MAC computed and the one received."""

    def __init__(self, count: int, wanted: bytes, got: bytes):
        super().__init__(f"the MAC at COUNT {count} is {wanted.hex()}, and the PDU has {got.hex()}")
        self.count, self.wanted, self.got = count, wanted, got


REFUSALS: dict[int, Refused] = {
    1: OutOfRange("an argument is out of range"),
    2: CountSpent("no COUNT is left"),
    4: Short("the PDU is too short"),
    5: BadHeader("the first octet does not begin such a PDU"),
    7: OtherCount("the PDU has the sequence number of another COUNT"),
    8: BeforeFirst("the HFN of the PDU would be before the first"),
}
MAC_FAILS = 6


def checked_key(key: bytes, octets: int = 32) -> bytes:
    """A key of so many octets."""
    if not isinstance(key, (bytes, bytearray)) or len(key) != octets:
        raise OutOfRange(f"a key of {octets} octets is needed, as bytes")
    return bytes(key)


def checked_number(number: int, bits: int = 32) -> int:
    """A number of so many bits."""
    if not isinstance(number, int) or not 0 <= number < 1 << bits:
        raise OutOfRange(f"a number from 0 to {(1 << bits) - 1} is needed")
    return number


def raises(status: int, found: FoundState | None = None) -> None:
    """Raises the refusal of a status."""
    if status == MAC_FAILS and found is not None:
        raise MacFails(found.count, bytes(found.wanted), bytes(found.got))
    if status:
        refusal = REFUSALS[status]
        raise type(refusal)(*refusal.args)


def key_octets(key: bytes) -> Any:
    """A key of 32 octets, as a field of a struct."""
    return (c_uint8 * 32).from_buffer_copy(checked_key(key))
