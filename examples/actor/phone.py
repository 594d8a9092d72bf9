#!/usr/bin/env python3
"""A phone that answers the ordinary scenario: a skeleton to put a product's code into.

    ./lte_sec drive --phone 'python3 examples/actor/phone.py' examples/run/ordinary.toml

What a phone does in other scenarios is left to be written: it ends with a line that says what came. Where a MAC is
wrong, or the message is not one of those, it answers with what docs/FRAMES.md says, so that a difference is found at
its step.
"""
from __future__ import annotations

import dataclasses
from collections.abc import Callable

import serving
from calls import DOWN, UP, calls
from lte_sec.drive.frames import BEARERS, DRBS, Input, Note, Reply

CALLS = calls()
MAC_FAILS, WRONG_KSI, NOT_CONNECTED, NOT_ADDRESSED, NO_CONTEXT = 5, 2, 20, 21, 1
INITIAL, HORIZONTAL, VERTICAL = 0, 1, 2
SRB1 = 1  # BEARER is its identity minus 1, as for all bearers (TS 36.323 5.6)


def key(of: bytes, kind: int, identity: int) -> tuple[bytes, bytes]:
    """An algorithm key (A.7): all 32 octets, which the reply tells, and the 16 that are used."""
    whole = CALLS.algorithm_key(of, kind, identity)
    return whole, whole[16:]


def ciphered(eea: int, cipher_key: bytes, count: int, bearer: int, way: int, text: bytes) -> bytes:
    return CALLS.eea2(cipher_key, count, bearer, way, text) if eea else text


def number(count: int, octets: int) -> bytes:
    return count.to_bytes(octets, "big")


@dataclasses.dataclass
class Counts:
    """The next COUNTs of a bearer: to send, and to receive."""

    send: int = 0
    receive: int = 0


class Radio:
    """A connection that is secured: its station, air address, keys and COUNTs."""

    def __init__(self, station: int, air: int, eea: int, kenb: bytes):
        self.station, self.air, self.eea, self.kenb = station, air, eea, kenb
        made = [key(kenb, 3, eea), key(kenb, 4, 2), key(kenb, 5, eea)]
        self.derived = tuple(whole for whole, _ in made)
        self.rrc_enc, self.rrc_int, self.up_enc = (used for _, used in made)
        self.counts = {octet: Counts() for octet in BEARERS}

    def to(self, bearer: int) -> bytes:
        """The address of the station at this connection."""
        return bytes([4, self.station]) + number(self.air, 4) + bytes([bearer])

    def srb(self, text: bytes, is_ciphered: bool = True) -> bytes:
        """The PDU of an RRC text on SRB1 (TS 36.323 5.6, 5.7): header, text, MAC-I."""
        count = self.counts[SRB1].send
        self.counts[SRB1].send += 1
        plain = text + CALLS.eia2(self.rrc_int, count, 0, UP, bytes([count % 32]) + text)
        return bytes([count % 32]) + ciphered(self.eea if is_ciphered else 0, self.rrc_enc, count, 0, UP, plain)

    def srb_opened(self, pdu: bytes, is_ciphered: bool = True) -> tuple[bytes, Reply | None]:
        """The RRC text of a PDU on SRB1, or the refusal where its MAC is wrong."""
        counts = self.counts[SRB1]
        count = counts.receive + (pdu[0] - counts.receive) % 32
        plain = ciphered(self.eea if is_ciphered else 0, self.rrc_enc, count, 0, DOWN, pdu[1:])
        text, got = plain[:-4], plain[-4:]
        wanted = CALLS.eia2(self.rrc_int, count, 0, DOWN, pdu[:1] + text)
        if got != wanted:
            return b"", Reply(MAC_FAILS, number(count, 4) + wanted + got)
        counts.receive = count + 1
        return text, None


class Phone:
    """What the phone has: capabilities, the last authentication, its connection, and its place in the chain of NH."""

    def __init__(self, setup: Input):
        self.caps = setup.fields["caps"]
        self.auth: tuple[int, bytes] | None = None
        self.kenb: bytes | None = None  # of a connection that is asked for
        self.radio: Radio | None = None
        self.ncc, self.sync = 0, b""  # the chain number, and the SYNC-input of its next step (A.4)

    def __call__(self, told: Input) -> Reply:
        answer: Callable[..., Reply] | None = getattr(self, told.name, None)
        if answer is None:
            raise NotImplementedError(f"not written yet: {told}")
        return answer(**told.fields)

    def Auth(self, ksi: int, kasme: bytes) -> Reply:
        self.auth = ksi, kasme
        return Reply()

    def Nas(self, pdu: bytes) -> Reply:
        """A NAS Security Mode Command (TS 24.301 5.4.3): KSI, MAC, the Complete, KeNB at COUNT 0."""
        if self.auth is None or pdu[:1] != b"\x37" or pdu[6:7] != b"\1":
            return Reply(NO_CONTEXT) if self.auth is None else self.unwritten("a NAS message", pdu)
        (held, kasme), got_mac, count, text = self.auth, pdu[1:5], pdu[5], pdu[6:]
        ksi, eea = text[1], text[2] >> 4
        (whole_enc, enc), (whole_int, int_key) = key(kasme, 1, eea), key(kasme, 2, 2)
        wanted = CALLS.eia2(int_key, count, 0, DOWN, pdu[5:])
        if ksi != held or text[3:5] != self.caps or got_mac != wanted:
            reject = Reply(to=b"\2", record=b"\x07\x03\x18")  # a Security Mode Reject, cause 24
            if ksi != held:
                return dataclasses.replace(reject, answer=WRONG_KSI, values=bytes([held, ksi]))
            if got_mac != wanted:
                return dataclasses.replace(reject, answer=MAC_FAILS, values=number(count, 4) + wanted + got_mac)
            return self.unwritten("other capabilities", pdu)
        self.kenb = CALLS.kenb(kasme, 0)
        self.ncc, self.sync = 0, self.kenb
        covered = b"\0" + ciphered(eea, enc, 0, 0, UP, b"\2")
        complete = b"\x47" + CALLS.eia2(int_key, 0, 0, UP, covered) + covered
        return Reply(to=b"\2", record=complete, derived=(self.kenb, whole_enc, whole_int))

    def Air(self, station: int, air: int, bearer: int, pdu: bytes) -> Reply:
        if self.radio is None:
            return self.secured(pdu) if self.kenb is not None and bearer == SRB1 else Reply(NOT_CONNECTED)
        if (station, air) != (self.radio.station, self.radio.air):
            return Reply(NOT_ADDRESSED)
        return self.packet(bearer, pdu) if bearer in DRBS else self.signalled(pdu)

    def secured(self, pdu: bytes) -> Reply:
        """An RRC Security Mode Command (TS 36.331 5.3.4): its MAC is by the algorithms that it names; the Complete goes
        out plain."""
        text = pdu[1:-4]
        if text[:1] != b"\1":
            return self.unwritten("an RRC message", pdu)
        radio = Radio(text[2], int.from_bytes(text[3:7], "big"), text[1] >> 4, self.kenb or b"")
        _, refused = radio.srb_opened(pdu, is_ciphered=False)
        if refused:
            return refused
        self.radio, self.kenb = radio, None
        return Reply(
            to=radio.to(SRB1),
            record=radio.srb(b"\2", is_ciphered=False),
            derived=radio.derived,
            note=Note(0, INITIAL, radio.kenb),
        )

    def signalled(self, pdu: bytes) -> Reply:
        """A Reconfiguration with a handover (TS 33.401 7.2.8): the chain goes to its NCC, KeNB* is made for the cell,
        COUNTs begin again."""
        assert self.radio and self.auth
        text, refused = self.radio.srb_opened(pdu)
        if refused:
            return refused
        if text[:1] != b"\3":
            return self.unwritten("an RRC message", text)
        pci, earfcn, ncc, eea, station, air = (
            int.from_bytes(text[a:b], "big") for a, b in ((1, 3), (3, 7), (7, 8), (8, 9), (9, 10), (10, 14))
        )
        steps, base = [], self.radio.kenb
        while self.ncc != ncc:
            base = self.sync = CALLS.nh(self.auth[1], self.sync)
            self.ncc = (self.ncc + 1) % 8
            steps.append(base)
        star = CALLS.kenb_star(base, pci, earfcn)
        self.radio = Radio(station, air, eea >> 4, star)
        return Reply(
            to=self.radio.to(SRB1),
            record=self.radio.srb(b"\4"),
            derived=(*steps, star, *self.radio.derived),
            note=Note(ncc, VERTICAL if steps else HORIZONTAL, star),
        )

    def packet(self, bearer: int, pdu: bytes) -> Reply:
        """A user packet that came (TS 36.323 5.1.2): 12 bits of COUNT, no MAC."""
        assert self.radio
        counts = self.radio.counts[bearer]
        count = counts.receive + (int.from_bytes(pdu[:2], "big") % 4096 - counts.receive) % 4096
        counts.receive = count + 1
        return Reply(text=ciphered(self.radio.eea, self.radio.up_enc, count, (bearer & 0x7F) - 1, DOWN, pdu[2:]))

    def SendUser(self, bearer: int, text: bytes) -> Reply:
        if self.radio is None:
            return Reply(NOT_CONNECTED)
        counts = self.radio.counts[bearer]
        count, counts.send = counts.send, counts.send + 1
        pdu = number(0x8000 | count % 4096, 2) + ciphered(
            self.radio.eea, self.radio.up_enc, count, (bearer & 0x7F) - 1, UP, text
        )
        return Reply(to=self.radio.to(bearer), record=pdu)

    def unwritten(self, what: str, octets: bytes) -> Reply:
        raise NotImplementedError(f"not written yet: {what}, {octets.hex()}")


if __name__ == "__main__":
    serving.main("phone", Phone)
