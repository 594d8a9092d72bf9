"""The derivations of TS 33.401 Annex A, by Python's own HMAC-SHA-256. Nothing here calls the program that is judged."""
import hmac
import typing

KASMES: typing.Final = tuple(bytes(range(first, first + 32)) for first in (0, 32, 64))


class Cell(typing.NamedTuple):
    """A cell: its PCI and its EARFCN-DL."""

    pci: int
    earfcn: int


# One cell for each station. The last has an EARFCN-DL that needs three octets.
CELLS: typing.Final = (Cell(10, 100), Cell(11, 101), Cell(12, 102), Cell(13, 70000))


def kdf(key: bytes, string: bytes) -> bytes:
    """The KDF of TS 33.220 B.2 over the string S."""
    return hmac.digest(key, string, "sha256")


def kenb(kasme: bytes, count: int) -> bytes:
    """KeNB (A.3) of an uplink NAS COUNT."""
    return kdf(kasme, b"\x11" + count.to_bytes(4, "big") + b"\0\4")


def next_hop(kasme: bytes, first: bytes, steps: int) -> bytes:
    """The NH (A.4) so many steps of the chain behind this KeNB; after no step the KeNB itself."""
    for _ in range(steps):
        first = kdf(kasme, b"\x12" + first + b"\0\x20")
    return first


def star(key: bytes, station: int) -> bytes:
    """KeNB* (A.5) of a KeNB or NH for the cell of this station."""
    cell = CELLS[station]
    octets = 2 if cell.earfcn < 65536 else 3
    return kdf(
        key, b"\x13" + cell.pci.to_bytes(2, "big") + b"\0\2" + cell.earfcn.to_bytes(octets, "big") + bytes((0, octets))
    )


def algorithm_key(key: bytes, kind: int, identity: int) -> bytes:
    """The key of an algorithm (A.7), by its type distinguisher and identity."""
    return kdf(key, bytes((0x15, kind, 0, 1, identity, 0, 1)))
