"""The capture `lost-answers`, made of `A`: ten handovers over X2, and the answers to the second to the seventh path
switch are lost.

Packets of `A` come again with other keys, NCCs and TSNs. The core sends NCC 2 first. The phone takes it at the third
handover, and its next vertical step is that to the ninth NH: seven steps.
"""
from __future__ import annotations

import struct
from collections.abc import Iterator
from pathlib import Path

from .simulated import CALLS, Side

TRACES = Path(__file__).resolve().parents[2] / "examples" / "traces"
KASME = bytes.fromhex("e61a3129c8e399d6dd3cec512a9c671da2004c5e8e780d3df853bb3055ee7cba")
ATTACHED, LAST = 27, 10  # the packets before the first handover, and how many handovers there are
THERE, BACK = range(28, 34), range(34, 40)  # those of a handover to the second station, and back
CELLS = {28: (301, 6300), 34: (10, 100)}  # by the packet of the request
LOST = range(2, 8)  # handovers whose path switch has no answer
PACKET, HEAD = 6, 28  # the type of a packet's block, and the octets before its data
SCTP, CHUNKS = 34, 46  # where SCTP begins behind Ethernet and IPv4, and its chunks
COMMAND_NCC = 1219  # the first of three bits of NCC in the command of a packet
TURN = 60_000_000  # nanoseconds from one handover to the next


def blocks(octets: bytes) -> Iterator[bytes]:
    """The blocks of a pcapng file."""
    at = 0
    while at < len(octets):
        size = struct.unpack_from("<I", octets, at + 4)[0]
        yield octets[at : at + size]
        at += size


def checksum(octets: bytes) -> int:
    """CRC32c (RFC 9260 Appendix A)."""
    value = 0xFFFFFFFF
    for octet in octets:
        value ^= octet
        for _ in range(8):
            value = value >> 1 ^ (0x82F63B78 if value & 1 else 0)
    return value ^ 0xFFFFFFFF


class Packet:
    """A packet of `A`: its block, and its data, which may be changed."""

    def __init__(self, block: bytes):
        self.head = block[8:12]
        high, low, size = struct.unpack_from("<III", block, 12)
        self.time, self.data = high << 32 | low, bytearray(block[HEAD : HEAD + size])

    def chunk(self) -> int:
        """Where the chunk with data begins."""
        at = CHUNKS
        while self.data[at]:
            at += -(-struct.unpack_from(">H", self.data, at + 2)[0] // 4) * 4
        return at

    @property
    def way(self) -> bytes:
        """The association and its direction: addresses, ports and verification tag."""
        return bytes(self.data[26 : SCTP + 8])

    def replace(self, old: bytes, new: bytes) -> int:
        """Puts a key in place of another; answers where."""
        at = self.data.index(old)
        self.data[at : at + len(old)] = new
        return at

    def bits(self, first: int, ncc: int) -> None:
        """Puts an NCC into three bits."""
        for place in range(3):
            at, mask = (first + place) // 8, 0x80 >> (first + place) % 8
            self.data[at] = self.data[at] & ~mask | (mask if ncc >> (2 - place) & 1 else 0)

    def block(self, tsn: int) -> bytes:
        struct.pack_into(">I", self.data, self.chunk() + 4, tsn)
        struct.pack_into("<I", self.data, SCTP + 8, 0)
        struct.pack_into("<I", self.data, SCTP + 8, checksum(self.data[SCTP:]))
        time = struct.pack("<II", self.time >> 32, self.time & 0xFFFFFFFF)
        body = (
            self.head
            + time
            + struct.pack("<II", len(self.data), len(self.data))
            + self.data
            + bytes(-len(self.data) % 4)
        )
        size = struct.pack("<I", len(body) + 12)
        return struct.pack("<I", PACKET) + size + body + size


class Handovers:
    """The handovers of the capture: the keys of station, phone and core."""

    def __init__(self) -> None:
        kenb = CALLS.kenb(KASME, 0)
        self.core, self.number = kenb, 0
        self.station = Side(kenb)
        first, second = CALLS.kenb_star(kenb, *CELLS[28]), CALLS.nh(KASME, CALLS.nh(KASME, kenb))
        # the keys of `A`: KeNB* of its handovers, and NH of its answers
        self.of_a = {28: first, 32: second, 34: CALLS.kenb_star(second, *CELLS[34]), 38: CALLS.nh(KASME, second)}

    def one(self, packets: dict[int, bytes], turn: int) -> Iterator[Packet]:
        """The packets of a handover."""
        numbers = THERE if turn % 2 else BACK
        base, ncc = self.station.pair or (self.station.key, self.station.ncc)
        self.station = Side(CALLS.kenb_star(base, *CELLS[numbers[0]]), ncc)
        self.step()
        for number in numbers:
            packet = Packet(packets[number])
            packet.time += TURN * (turn - (1 if turn % 2 else 2))
            if number == numbers[0]:
                at = packet.replace(self.of_a[number], self.station.key)
                packet.bits((at + 32) * 8, ncc)
            elif number == numbers[1]:
                packet.bits(COMMAND_NCC, ncc)
            elif number == numbers[4]:
                if turn in LOST:
                    continue
                at = packet.replace(self.of_a[number], self.core)
                packet.bits((at - 1) * 8 + 2, self.number % 8)
                self.station.pair = self.core, self.number % 8
            yield packet

    def step(self) -> None:
        """The core steps its chain, at first twice (TS 33.401 7.2.8.1.1)."""
        for _ in range(1 if self.number else 2):
            self.core, self.number = CALLS.nh(KASME, self.core), self.number + 1


def made() -> bytes:
    """The file."""
    every = list(blocks((TRACES / "A.pcapng").read_bytes()))
    heads = [block for block in every if block[0] != PACKET]
    packets = dict(enumerate((block for block in every if block[0] == PACKET), 1))
    handovers, tsns, out = Handovers(), dict[bytes, int](), list(heads)
    said = [Packet(packets[number]) for number in range(1, ATTACHED + 1)]
    for turn in range(1, LAST + 1):
        said += handovers.one(packets, turn)
    for place, packet in enumerate(said):
        try:
            at = packet.chunk() + 4
            old = struct.unpack_from(">I", packet.data, at)[0]
        except (IndexError, struct.error):
            out.append(packets[place + 1])  # it has no data
            continue
        tsns[packet.way] = (tsns[packet.way] + 1) % 2**32 if place >= ATTACHED and packet.way in tsns else old
        out.append(packet.block(tsns[packet.way]))
    return b"".join(out)


if __name__ == "__main__":
    (TRACES / "lost-answers.pcapng").write_bytes(made())
