"""A capture of any length, as bench/traces judges it: phones that attach, come back, are handed over there and back,
and are released.

Packets of examples/traces/C.pcapng come again with the keys, MACs, COUNTs, NCCs and TSNs of other phones. All that they
do is as the standard says.
"""
from __future__ import annotations

import hashlib
import struct
import sys
from collections.abc import Iterator
from pathlib import Path
from typing import BinaryIO

TOP = Path(__file__).resolve().parents[1]
TRACES = TOP / "examples" / "traces"
sys.path.insert(0, str(TOP / "python"))
from lte_sec.captures.capture_files import read  # noqa: E402
from lte_sec.common.derive import proved_calls  # noqa: E402
from lte_sec.common.terms import DOWN, UP, Calls  # noqa: E402

PACKET, HEAD = 6, 28  # the type of a packet's block, and the octets before its data
CHUNKS = 46  # where the chunks of SCTP begin behind Ethernet and IPv4
SETUP = range(1, 19)  # the packets before the first phone
ATTACH = (19, 22, 26, 29, 33, 36, 40, 43)
SERVICE, THERE, BACK, SAID, RELEASE = (
    (57, 61, 64),
    (68, 71, 73, 74, 75, 76),
    (83, 84, 85, 86, 87, 88),
    (89,),
    (47, 50, 54),
)
ATTACHED_IDS, IDS = (b"\x00\x65", b"\x00\x01"), (b"\x00\x69", b"\x00\x04")  # of core and station, in a release
CELLS = {68: (301, 6300), 83: (10, 100)}  # those that handovers go to
OLD = {
    **dict.fromkeys(ATTACH, "e61a3129c8e399d6dd3cec512a9c671da2004c5e8e780d3df853bb3055ee7cba"),
    89: "c09e1984d7e44b4a11195c25108b76903c24684685ef257fddc399c34a55d4eb",
}
NAS_COUNT = {29: 0, 33: 0, 36: 1, 43: 1, 89: 1}  # of the protected messages, as the packets have them
FROM_PHONE = (19, 26, 33, 43, 57)
TMSI = bytes.fromhex("c0000001")
PHONES, SECONDS = 8, 6  # how many phones take turns, and how long a turn is
TURN = SECONDS * 1_000_000_000


def blocks(octets: bytes) -> Iterator[bytes]:
    """The blocks of a pcapng file."""
    at = 0
    while at < len(octets):
        size = struct.unpack_from("<I", octets, at + 4)[0]
        yield octets[at : at + size]
        at += size


class Packet:
    """A packet that comes again: its time in nanoseconds, and its octets."""

    def __init__(self, block: bytes):
        self.head = block[8:12]
        high, low, size = struct.unpack_from("<III", block, 12)
        self.time, self.data = high << 32 | low, bytearray(block[HEAD : HEAD + size])

    def put(self, old: bytes, new: bytes) -> int:
        """Puts octets in place of others; answers where."""
        at = self.data.index(old, CHUNKS)
        self.data[at : at + len(old)] = new
        return at

    def bits(self, first: int, ncc: int) -> None:
        """Puts an NCC into three bits."""
        for place in range(3):
            at, mask = (first + place) // 8, 0x80 >> (first + place) % 8
            self.data[at] = self.data[at] & ~mask | (mask if ncc >> (2 - place) & 1 else 0)

    def block(self, tsns: dict[bytes, int]) -> bytes:
        """The block of a file, with the next TSN of its association and direction."""
        at = CHUNKS
        while at < len(self.data) and self.data[at]:
            at += -(-struct.unpack_from(">H", self.data, at + 2)[0] // 4) * 4
        if at < len(self.data):
            way = bytes(self.data[26:42])
            tsns[way] = (tsns[way] + 1) % 2**32 if way in tsns else struct.unpack_from(">I", self.data, at + 4)[0]
            struct.pack_into(">I", self.data, at + 4, tsns[way])
        time = struct.pack("<II", self.time >> 32, self.time & 0xFFFFFFFF)
        body = (
            self.head
            + time
            + struct.pack("<II", len(self.data), len(self.data))
            + self.data
            + bytes(-len(self.data) % 4)
        )
        size = struct.pack("<I", len(body) + 12)
        return struct.pack("<I", PACKET) + size + body + size


def keys(calls: Calls, kasme: bytes) -> tuple[bytes, bytes]:
    """KNASenc and KNASint for 128-EEA2 and 128-EIA2."""
    return calls.algorithm_key(kasme, 1, 2)[16:], calls.algorithm_key(kasme, 2, 2)[16:]


class Phone:
    """A phone with a KASME of its own."""

    def __init__(self, calls: Calls, number: int):
        self.calls, self.number = calls, number
        self.kasme = hashlib.sha256(b"phone %d" % number).digest()
        self.cipher, self.integrity = keys(calls, self.kasme)
        self.counts = {UP: 0, DOWN: 0}

    def protected(self, packet: int, pdu: bytes) -> bytes:
        """A NAS message as it is protected with the keys and the COUNT of this phone."""
        way = UP if packet in FROM_PHONE else DOWN
        count = self.counts[way]
        self.counts[way] += 1
        if packet == 57:
            text = bytes([pdu[0], count & 31])
            return text + self.calls.eia2(self.integrity, count, 0, way, text)[2:]
        text = pdu[6:]
        if packet != 29:  # a Security Mode Command is not ciphered
            text = self.calls.eea2(keys(self.calls, bytes.fromhex(OLD[packet]))[0], NAS_COUNT[packet], 0, way, text)
            text = self.calls.eea2(self.cipher, count, 0, way, text)
        text = bytes([count & 255]) + text
        return pdu[:1] + self.calls.eia2(self.integrity, count, 0, way, text) + text


class Network:
    """The phones of a capture, and the packets that they bring about."""

    def __init__(self, calls: Calls):
        self.calls = calls
        every = list(blocks((TRACES / "C.pcapng").read_bytes()))
        self.heads = [block for block in every if block[0] != PACKET]
        self.packets = dict(enumerate((block for block in every if block[0] == PACKET), 1))
        self.messages = {int(one.frame): one for one in read(TRACES / "C.json.gz")}
        self.phones = [Phone(calls, number) for number in range(PHONES)]

    def packet(self, phone: Phone, number: int, turn: int, kenb: bytes) -> Packet:
        """A packet with the identities, the time and the NAS message of a phone's turn; KeNB where it has one."""
        packet, message = Packet(self.packets[number]), self.messages[number]
        packet.time += turn * TURN
        for pdu in message.nas:
            if number not in (19, 22, 26):
                packet.put(pdu, phone.protected(number, pdu))
        if number == 57:
            packet.put(TMSI, (0xC0000001 + phone.number).to_bytes(4, "big"))
        if message.key is not None and number in (36, 61):
            packet.put(message.key, kenb)
        return packet

    def handover(
        self, phone: Phone, turn: int, numbers: tuple[int, ...], chain: list[bytes], base: bytes, ncc: int
    ) -> Iterator[Packet]:
        """The packets of a handover over X2, to a key that is made of this one; the core steps its chain."""
        request, command, answer = numbers[0], numbers[1], numbers[4]
        for number in numbers:
            packet = self.packet(phone, number, turn, b"")
            if number == request:
                at = packet.put(self.messages[number].key or b"", self.calls.kenb_star(base, *CELLS[request]))
                packet.bits((at + 32) * 8, ncc)
            elif number == command:
                packet.bits((len(packet.data) - 2) * 8 + 3, ncc)
            elif number == answer:
                at = packet.put(self.messages[number].nh or b"", chain[-1])
                packet.bits((at - 1) * 8 + 2, (len(chain) - 1) % 8)
            yield packet

    def turn(self, phone: Phone, turn: int) -> Iterator[Packet]:
        """What a phone does in its turn."""
        if not phone.counts[UP]:
            kenb = self.calls.kenb(phone.kasme, 0)
            yield from (self.packet(phone, number, turn, kenb) for number in (*ATTACH, *RELEASE))
            return
        kenb = self.calls.kenb(phone.kasme, phone.counts[UP])
        yield from (self.packet(phone, number, turn, kenb) for number in SERVICE)
        chain = [kenb, self.calls.nh(phone.kasme, kenb)]
        chain.append(self.calls.nh(phone.kasme, chain[-1]))
        yield from self.handover(phone, turn, THERE, chain, kenb, 0)
        before = chain[-1]
        chain.append(self.calls.nh(phone.kasme, before))
        yield from self.handover(phone, turn, BACK, chain, before, 2)
        yield from (self.packet(phone, number, turn, b"") for number in SAID)
        for number in RELEASE:
            packet = self.packet(phone, number, turn, b"")
            packet.time += TURN // 2
            for old, new in zip(ATTACHED_IDS, IDS):
                packet.put(old, new)
            yield packet

    def all(self) -> Iterator[Packet]:
        yield from (Packet(self.packets[number]) for number in SETUP)
        turn = 0
        while True:
            yield from self.turn(self.phones[turn % PHONES], turn + 1)
            turn += 1


def write(file: BinaryIO, frames: int) -> list[str]:
    """Writes a capture of so many frames; answers the KASMEs of its phones."""
    network, tsns = Network(proved_calls()), dict[bytes, int]()
    file.write(b"".join(network.heads))
    for packet, _ in zip(network.all(), range(frames)):
        file.write(packet.block(tsns))
    return [phone.kasme.hex() for phone in network.phones]
