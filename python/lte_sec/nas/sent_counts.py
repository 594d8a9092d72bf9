"""What was sent at each NAS COUNT of a KASME: of a message no more than a sum of its octets and the number of its
connection, so that a long capture takes little for each."""
from __future__ import annotations

import struct
from typing import NamedTuple

RECORD = struct.Struct("<12sI")
BESIDE = 32  # COUNTs that stand together


def sum_of(pdu: bytes) -> bytes:
    import hashlib  # late, as it takes long to load, and other words have contexts too

    return hashlib.blake2b(pdu, digest_size=12).digest()


class SentAtCount(NamedTuple):
    """A message that was sent."""

    sum: bytes
    connection: int  # its number, from 1 on

    def has(self, pdu: bytes) -> bool:
        """Whether these are its octets."""
        return self.sum == sum_of(pdu)


class SentCounts:
    """The message that was sent last at each COUNT of both directions."""

    def __init__(self) -> None:
        self.places: dict[tuple[int, int], bytearray] = {}

    def __bool__(self) -> bool:
        return bool(self.places)

    def get(self, direction: int, count: int) -> SentAtCount | None:
        place = self.places.get((direction, count // BESIDE))
        found = SentAtCount(*RECORD.unpack_from(place, count % BESIDE * RECORD.size)) if place is not None else None
        return found if found is not None and found.connection else None

    def put(self, direction: int, count: int, pdu: bytes, connection: int) -> None:
        place = self.places.setdefault((direction, count // BESIDE), bytearray(BESIDE * RECORD.size))
        RECORD.pack_into(place, count % BESIDE * RECORD.size, sum_of(pdu), connection)
