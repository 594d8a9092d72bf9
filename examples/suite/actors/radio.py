"""The bearers of a connection, at the phone and at a station: COUNTs, keys, and PDUs (TS 36.323 5.1, 5.6, 5.7)."""
from __future__ import annotations

import dataclasses

from texts import BEARER_LIMIT, Refused, ciphered, estimate, key, mac, octets

from calls import DOWN, UP
from lte_sec.drive.frames import RADIO, SRBS, Reply

SRB1, SRB2 = SRBS


@dataclasses.dataclass
class Counts:
    """The next COUNTs of a bearer: to send, and to receive."""

    send: int = 0
    receive: int = 0

    def take(self) -> int:
        if self.send >= BEARER_LIMIT:
            raise Refused("CountSpent")
        self.send += 1
        return self.send - 1


def identity(bearer: int) -> int:
    """BEARER: the identity of the radio bearer minus 1 (TS 36.323 5.6)."""
    return (bearer & 0x7F) - 1


class RadioLink:
    """A connection: station, air address, keys and COUNTs; the chain of NH, and whether a Complete may be sent
    again."""

    sends, takes = UP, DOWN

    def __init__(
        self, station: int, air: int, eea: int, kenb: bytes, root: bytes, chain: tuple[int, bytes], by_handover: bool
    ):
        self.station, self.air, self.eea, self.kenb, self.root, self.by_handover = (
            station,
            air,
            eea,
            kenb,
            root,
            by_handover,
        )
        self.number, self.sync = chain
        self.rrc_enc, self.rrc_int, self.up_enc = self.derived = key(kenb, 3, eea), key(kenb, 4, 2), key(kenb, 5, eea)
        self.counts = {bearer: Counts() for bearer in RADIO}

    def to(self, bearer: int) -> bytes:
        return bytes([4, self.station]) + octets(self.air) + bytes([bearer])

    def signalled(self, bearer: int, text: bytes, eea: int) -> Reply:
        """An RRC text on an SRB under the next COUNT: header, text, MAC-I (TS 36.323 5.6, 5.7)."""
        count = self.counts[bearer].take()
        head = bytes([count % 32])
        plain = text + mac(self.rrc_int, count, identity(bearer), self.sends, head + text)
        return Reply(
            to=self.to(bearer), record=head + ciphered(eea, self.rrc_enc, count, identity(bearer), self.sends, plain)
        )

    def opened(self, bearer: int, pdu: bytes, eea: int) -> tuple[bytes, int]:
        """The text of a PDU on an SRB, and its COUNT."""
        if len(pdu) < 5:
            raise Refused("Short")
        if pdu[0] > 31:
            raise Refused("BadHeader", pdu[:1])
        count = estimate(self.counts[bearer].receive, pdu[0], 32, BEARER_LIMIT)
        plain = ciphered(eea, self.rrc_enc, count, identity(bearer), self.takes, pdu[1:])
        wanted = mac(self.rrc_int, count, identity(bearer), self.takes, pdu[:1] + plain[:-4])
        if wanted != plain[-4:]:
            raise Refused("MacFails", octets(count), wanted, plain[-4:])
        return plain[:-4], count

    def packed(self, bearer: int, text: bytes) -> Reply:
        """A user packet on a DRB under the next COUNT, of which it has 12 bits; it has no MAC (TS 36.323 5.6)."""
        count = self.counts[bearer].take()
        return Reply(
            to=self.to(bearer),
            record=octets(0x8000 | count % 4096, 2)
            + ciphered(self.eea, self.up_enc, count, identity(bearer), self.sends, text),
        )

    def unpacked(self, bearer: int, pdu: bytes) -> bytes:
        """The text of a user packet that came (TS 36.323 5.1.2.1.3)."""
        if len(pdu) < 2:
            raise Refused("Short")
        if pdu[0] >> 4 != 8:
            raise Refused("BadHeader", pdu[:1])
        counts = self.counts[bearer]
        count = estimate(counts.receive, int.from_bytes(pdu[:2], "big") % 4096, 4096, BEARER_LIMIT)
        counts.receive = count + 1
        return ciphered(self.eea, self.up_enc, count, identity(bearer), self.takes, pdu[2:])
