"""NAS messages and contexts of the networks that are written out message by message."""
from __future__ import annotations

import hashlib
from collections.abc import Callable
from dataclasses import dataclass, field

from .simulated import CALLS, CIPHERS, MACS

UP, DOWN = 0, 1
ATTACH = bytes.fromhex("07417108091010000000001002f07000040201d011")
ATTACHED = bytes.fromhex("074300035200c2")
INFORMATION = bytes.fromhex("0761430887d4f29cee2ed30146004742504190000000")
UPLINK = bytes.fromhex("0763") + bytes(3)
AUTHENTICATED = bytes.fromhex("075308") + bytes(8)
COMPLETE, COMPLETE_IMEI = bytes.fromhex("075e"), bytes.fromhex("075e23093325900910674108f1")
UPDATE_ACTIVE, UPDATE = bytes.fromhex("0748080bf600f11080010100000001"), bytes.fromhex("0748000bf600f11080010100000001")
UPDATE_ACCEPT = bytes.fromhex("0749005a3b500bf600f110800101") + bytes(3) + b"\1"
UPDATED = bytes.fromhex("074a")


def authentication(ksi: int) -> bytes:
    return bytes.fromhex("0752") + bytes([ksi]) + bytes(33)


def accept(tmsi: int = 1) -> bytes:
    return bytes.fromhex(
        "07420149060000f110000100155201c101090908696e7465726e657405010a2d0001500bf600f110800101"
    ) + tmsi.to_bytes(4, "big")


def reallocation(tmsi: int) -> bytes:
    return bytes.fromhex("07500bf600f110800101") + tmsi.to_bytes(4, "big")


def kasme_of(name: str) -> bytes:
    return hashlib.sha256(name.encode()).digest()


@dataclass
class Context:
    """The NAS context of a phone: KASME by a name, KSI, the next COUNT of each direction and the algorithms."""

    name: str
    ksi: int = 0
    up: int = 0
    down: int = 0
    eea: int = 2
    eia: int = 2
    counts: list[int] = field(default_factory=list)

    def __post_init__(self) -> None:
        self.kasme, self.counts = kasme_of(self.name), [self.up, self.down]

    def under(self, eea: int, eia: int) -> Context:
        """The same KASME under other algorithms; COUNTs go on."""
        up, down = self.counts
        return Context(self.name, self.ksi, up, down, eea, eia)

    def integrity_key(self) -> bytes:
        return CALLS.algorithm_key(self.kasme, 2, self.eia)[16:]

    def ciphering_key(self) -> bytes:
        return CALLS.algorithm_key(self.kasme, 1, self.eea)[16:]

    def kenb(self, count: int) -> bytes:
        return CALLS.kenb(self.kasme, count)

    def mac(self, count: int, direction: int, body: bytes) -> bytes:
        return MACS[self.eia](self.integrity_key(), count, 0, direction, body) if self.eia else bytes(4)

    def ciphered(self, count: int, direction: int, plain: bytes) -> bytes:
        return CIPHERS[self.eea](self.ciphering_key(), count, 0, direction, plain) if self.eea else plain

    def seal(
        self,
        direction: int,
        header: int,
        plain: bytes,
        count: int | None = None,
        mac: Mac | None = None,
        text: Text | None = None,
    ) -> bytes:
        """A message at the next COUNT, or at this one; with a MAC or a text made otherwise."""
        at = self.counts[direction] if count is None else count
        self.counts[direction] = max(self.counts[direction], at + 1)
        sent = (
            text(self, at, direction, plain)
            if text
            else self.ciphered(at, direction, plain)
            if header in (2, 4)
            else plain
        )
        body = bytes([at & 255]) + sent
        made = mac(self, at, direction, Body(header, body, plain)) if mac else self.mac(at, direction, body)
        return bytes([header << 4 | 7]) + made + body

    def request(self, short_mac: Callable[[bytes], bytes] = lambda mac: mac[2:4], count: int | None = None) -> bytes:
        """A Service Request, whose short MAC may be other octets of the MAC, or that of another COUNT."""
        at = self.counts[UP]
        self.counts[UP] += 1
        head = bytes([0xC7, self.ksi << 5 | at & 31])
        return head + short_mac(self.mac(at if count is None else count, UP, head))

    def command(self, capabilities: str = "f070", count: int | None = None) -> bytes:
        """A Security Mode Command with the replayed capabilities of the phone."""
        told = bytes.fromhex(capabilities)
        return self.seal(
            DOWN, 3, bytes([7, 0x5D, self.eea << 4 | self.eia, self.ksi, len(told)]) + told + b"\xc1", count
        )

    def complete(self) -> bytes:
        return self.seal(UP, 4, COMPLETE_IMEI)


@dataclass(frozen=True)
class Body:
    """What a MAC may be over: the header type, the octets from the sequence number on, and the plain text."""

    header: int
    octets: bytes
    plain: bytes


Mac = Callable[[Context, int, int, Body], bytes]
Text = Callable[[Context, int, int, bytes], bytes]
