"""What a protected message of a run stands under: its keys, COUNT, BEARER and direction, found by trying the keys of
the run."""
from __future__ import annotations

from collections.abc import Iterator
from dataclasses import dataclass

from lte_sec.drive import frames
from ..common.mistakes import Ciphered, ProtectedNas, cipher, key_of, macs
from ..common.pdu_mistakes import Pdu
from lte_sec.runs.run_report import LadderRow
from lte_sec.runs.scenarios import Step
from lte_sec.common.terms import NAS_ENCRYPTION, NAS_INTEGRITY, RRC_ENCRYPTION, UP_ENCRYPTION, Calls

EIA = 2  # the one integrity algorithm of scenarios
CIPHERED = (2, 4)  # security header types of NAS messages
PACKET = 2  # octets of a packet that tell by which key it was ciphered
Rows = dict[int, LadderRow]


@dataclass(frozen=True)
class BearerHistory:
    """The rows of the run's ladder, and its steps up to a message; the direction of this, 0 up or 1 down, and its
    bearer's name."""

    rows: Rows
    steps: list[Step]
    direction: int
    bearer: str

    def counts(self, number: int, size: int) -> Iterator[int]:
        """The COUNTs with this sequence number that a bearer of the run may have come to: so many steps behind those
        that were skipped."""
        sums = [0]
        for step in reversed(self.steps):
            if (
                step["do"] == "skip"
                and step["bearer"] == self.bearer
                and (step["who"] == "phone") == (self.direction == 0)
            ):
                sums.append(sums[-1] + step["n"])
        for first in sums:
            yield from (count for count in range(first, first + len(self.steps) + 1) if count % size == number)

    def above(self, type: int) -> Iterator[tuple[bytes, int]]:
        """The keys that keys of this type were made of, the newest first, each with the identity of its algorithm."""
        for row in reversed(list(self.rows.values())):
            if row.word == "alg" and row.values[1] == type and row.parent is not None:
                yield bytes.fromhex(self.rows[row.parent].key), row.values[2]

    @property
    def number(self) -> int:
        """BEARER."""
        octet = next(octet for octet, name in frames.BEARERS.items() if name == self.bearer)
        return 0 if self.bearer == "nas" else (octet & 0x7F) - 1


def nas(calls: Calls, course: BearerHistory, octets: bytes) -> ProtectedNas | None:
    """A NAS message with a right MAC; its encryption algorithm is EEA0 where it is not ciphered."""
    for kasme, eea in course.above(NAS_ENCRYPTION):
        for count in dict.fromkeys(course.counts(octets[5], 256)):
            it = ProtectedNas(kasme, eea if octets[0] >> 4 in CIPHERED else 0, EIA, course.direction, count, octets)
            if (
                macs(calls)[EIA](key_of(calls, it, NAS_INTEGRITY)[16:], count, 0, course.direction, octets[5:])
                == octets[1:5]
            ):
                return it
    return None


def srb(calls: Calls, course: BearerHistory, octets: bytes) -> Pdu | None:
    """A PDU of an SRB with a right MAC; its encryption algorithm is EEA0 where it is not ciphered."""
    for kenb, identity in course.above(RRC_ENCRYPTION):
        for count in dict.fromkeys(course.counts(octets[0] & 31, 32)):
            for eea in dict.fromkeys((identity, 0)):
                it = Pdu(kenb, eea, EIA, course.direction, count, course.number, octets)
                if it.is_sealed(calls, it.opened(calls)):
                    return it
    return None


def drb(calls: Calls, course: BearerHistory, octets: bytes, packet: bytes) -> Ciphered | None:
    """A PDU of a DRB that is this packet."""
    for kenb, eea in course.above(UP_ENCRYPTION) if len(packet) >= PACKET else ():
        key = calls.algorithm_key(kenb, UP_ENCRYPTION, eea)[16:]
        for count in dict.fromkeys(course.counts(int.from_bytes(octets[:2], "big") & 0xFFF, 4096)):
            if cipher(calls, eea, key, count, course.number, course.direction, octets[2:]) == packet:
                return Ciphered(
                    kenb, UP_ENCRYPTION, eea, (RRC_ENCRYPTION, eea), course.direction, count, course.number, octets[2:]
                )
    return None
