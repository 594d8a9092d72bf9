"""Random frames (docs/FRAMES.md), replies, and how a session must end, by the Python package's own reading of
frames."""
from __future__ import annotations

import random
import sys
from collections.abc import Callable
from pathlib import Path

TOP = Path(__file__).resolve().parent.parent
sys.path.insert(0, str(TOP / "python"))
from lte_sec.drive import frames  # noqa: E402
from lte_sec.drive.frames import DRBS, LONGEST_PACKET, LONGEST_RECORD, LONGEST_TEXT, RADIO, SRBS  # noqa: E402


class Wrong(Exception):
    """The program does otherwise than it must."""


def framed(kind: int, body: bytes = b"") -> bytes:
    return frames.framed(bytes([kind]) + body)


def kept_frames(role: str) -> list[bytes]:
    lines = (TOP / "examples" / "serve" / f"{role}.frames").read_text().split("\n")
    return [bytes.fromhex(line[2:]) for line in lines if line.startswith(">")]


class Reply:
    """A reply: its answer, and the record sent, by the tag of its address, the address's values and its octets."""

    def __init__(self, frame: bytes):
        try:
            read = frames.read_reply(frames.unframed(frame))
        except frames.BadFrame as bad:
            raise Wrong(f"no reply, {bad}: {frame.hex()}") from bad
        self.answer = read.answer
        self.sent = None if read.record is None else (read.to[0], read.to[1:], read.record)


def is_good(role: str, first: bool, body: bytes) -> bool:
    try:
        frames.read_input(role.split("-")[0], first, body)
        return True
    except frames.BadFrame:
        return False


def ending(role: str, session: bytes) -> tuple[int, bytes]:
    """The status of a session and its line, by its octets."""
    place = 0
    while place < len(session):
        size = int.from_bytes(session[place : place + 2], "big")
        end = place + 2 + size
        if len(session) < place + 2 or size <= frames.LONGEST_BODY and end > len(session):
            return 10, b"bad frame %d 2\n" % place
        if size > frames.LONGEST_BODY or not is_good(role, place == 0, session[place + 2 : end]):
            return 10, b"bad frame %d %d\n" % (place, 3 if size > frames.LONGEST_BODY else 4)
        place = end
    return 0, b""


class Frames:
    """Random frames of a role, all of them good."""

    def __init__(self, role: str, seed: str, longest: int = LONGEST_RECORD):
        self.role, self.draws, self.longest = role, random.Random(f"{role} {seed}"), longest
        self.kept = kept_frames(role)
        self.next, self.conn, self.attempt = 1, 0, 0
        self.airs = [b"\0\0\0\1"]
        bodies: dict[str, dict[int, Callable[[], bytes]]] = {
            "phone": {
                0x01: self.phone_auth,
                0x02: self.pdu,
                0x03: self.phone_air,
                0x10: bytes,
                0x11: bytes,
                0x12: bytes,
                0x13: self.packet,
                0x14: self.rrc,
                0x15: self.text,
                0x16: self.phone_skip,
            },
            "station-0": {
                0x03: self.station_air,
                0x04: self.pdu,
                0x05: self.pdu,
                0x13: self.packet,
                0x14: self.rrc,
                0x16: self.station_skip,
                0x30: self.start,
                0x31: bytes,
                0x32: bytes,
                0x33: bytes,
            },
            "core": {
                0x01: self.core_auth,
                0x02: self.pdu,
                0x04: self.pdu,
                0x15: self.text,
                0x16: self.core_skip,
                0x20: bytes,
                0x21: self.cell,
                0x22: bytes,
            },
        }
        self.bodies = bodies[role]
        self.pdus = {kind: [f[3:] for f in self.kept[1:] if f[2] == kind] for kind in self.bodies}

    def octets(self, most: int) -> bytes:
        size = self.draws.randrange(min(most, 40) + 1) if self.draws.random() < 0.9 else self.draws.randrange(most + 1)
        return self.draws.randbytes(size)

    def number(self, size: int) -> bytes:
        number: int = self.draws.choice([0, 1, 2, 3, 4, 256**size - 1, self.draws.randrange(256**size)])
        return number.to_bytes(size, "big")

    def station(self) -> bytes:
        return bytes([self.draws.randrange(8)])

    def bearer(self, of: tuple[int, ...] = RADIO) -> bytes:
        return bytes([self.draws.choice(of)])

    def cell(self) -> bytes:
        pci, earfcn = self.draws.choice(
            [(10, 100), (11, 101), (self.draws.randrange(504), self.draws.randrange(262144))]
        )
        return pci.to_bytes(2, "big") + earfcn.to_bytes(4, "big")

    def phone_auth(self) -> bytes:
        return bytes([self.draws.randrange(7)]) + self.draws.randbytes(32)

    def core_auth(self) -> bytes:
        return self.phone_auth() + self.draws.choice([b"\xa0\x20", self.draws.randbytes(2)])

    def pdu(self) -> bytes:
        return self.octets(self.longest)

    def phone_air(self) -> bytes:
        return self.station() + self.station_air()

    def station_air(self) -> bytes:
        return self.number(4) + self.bearer() + self.pdu()

    def packet(self) -> bytes:
        return self.bearer(DRBS) + self.octets(min(self.longest, LONGEST_PACKET))

    def rrc(self) -> bytes:
        return self.bearer(SRBS) + self.octets(min(self.longest, LONGEST_TEXT))

    def text(self) -> bytes:
        return self.octets(min(self.longest, LONGEST_TEXT))

    def skip(self, of: tuple[int, ...]) -> bytes:
        return self.bearer(of) + self.number(4)

    def phone_skip(self) -> bytes:
        return self.skip((0, *RADIO))

    def station_skip(self) -> bytes:
        return self.skip(RADIO)

    def core_skip(self) -> bytes:
        return b"\0" + self.number(4)

    def start(self) -> bytes:
        return bytes([self.draws.randrange(3)]) + self.cell()

    def following(self) -> bytes:
        """The next of the kept frames, so that the actor comes far."""
        self.next = self.next % (len(self.kept) - 1) + 1
        frame = self.kept[self.next]
        return self.renewed(frame[2], frame[3:]) if self.role == "station-0" else frame

    def renewed(self, kind: int, body: bytes) -> bytes:
        """A kept frame of a station with numbers that it takes: a new connection, a new attempt, an address that it
        gave."""
        if kind == 3:
            return framed(kind, self.draws.choice(self.airs) + body[4:])
        if kind in (4, 5):
            self.conn += body[0] == 0x20
            self.attempt += body[0] == 0x30
            body = body[:1] + self.conn.to_bytes(4, "big") + body[5:]
            if body[0] == 0x30:
                body = body[:6] + self.attempt.to_bytes(4, "big") + body[10:]
        return framed(kind, body)

    def hear(self, reply: Reply) -> None:
        """Keeps the last air addresses that the actor gave."""
        if reply.sent and reply.sent[0] == 0:
            self.airs = [reply.sent[1][1:5], *self.airs[:1]]
        if reply.sent and reply.sent[0] == 6 and reply.sent[2][0] == 0x31:
            self.airs = [reply.sent[2][-4:], *self.airs[:1]]

    def changed(self, kind: int) -> bytes:
        """A body that was kept, with one octet of its PDU changed: the fields before it stay."""
        body = bytearray(self.draws.choice(self.pdus[kind]))
        first = {("phone", 3): 6, ("station-0", 3): 5}.get((self.role, kind), 0)
        if len(body) > first:
            body[self.draws.randrange(first, len(body))] = self.draws.randrange(256)
        return bytes(body)

    def one(self) -> bytes:
        if self.draws.random() < 0.2:
            return self.following()
        kind = self.draws.choice(list(self.bodies))
        if kind in (2, 3, 4, 5) and self.pdus[kind] and self.draws.random() < 0.5:
            return framed(kind, self.changed(kind))
        return framed(kind, self.bodies[kind]())
