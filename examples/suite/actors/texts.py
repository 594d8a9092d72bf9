"""What phone and core have in common: answers, the forms of texts, NAS messages and keys (docs/FRAMES.md)."""
from __future__ import annotations

import pathlib
import sys
from typing import Any

sys.path.insert(0, str(pathlib.Path(__file__).resolve().parents[2] / "actor"))
from calls import calls  # noqa: E402
from lte_sec.common import tables  # noqa: E402
from lte_sec.drive import frames, records  # noqa: E402
from lte_sec.drive.frames import Reply  # noqa: E402

CALLS = calls()
NUMBER = {name: number for number, (name, _) in frames.ANSWERS.items()}
NAS_LIMIT, BEARER_LIMIT = 1 << 24, 1 << 32
UNSPECIFIED, MISMATCH = 24, 23  # causes (TS 24.301 9.9.3.9)
SHORT, LONG, BAD_KIND, BAD_FIELD = 1, 2, 3, 4


class Refused(Exception):
    """The answer to a message that is not taken."""

    def __init__(self, answer: str, *values: bytes):
        super().__init__(answer)
        self.answer, self.values = answer, b"".join(values)

    def reply(self, **sent: Any) -> Reply:
        return Reply(NUMBER[self.answer], self.values, **sent)


def octets(number: int, width: int = 4) -> bytes:
    return number.to_bytes(width, "big")


def fault(of: int, place: int = 0) -> Refused:
    return Refused("BadRecord", bytes([of, place]))


def fields_of(forms: dict[int, tables.Form], octets: bytes) -> dict[str, Any]:
    """Kind and fields of a text or a record: its size is looked at first, and then the fields from left to right."""
    if not octets:
        raise fault(SHORT)
    if octets[0] not in forms:
        raise fault(BAD_KIND)
    form = forms[octets[0]][1]
    if form == (records.TEXT,):
        if len(octets) > 1 + frames.LONGEST_TEXT:
            raise fault(LONG)
        return {"kind": octets[0], "text": octets[1:]}
    size = 1 + sum(width for _, width in form)
    if len(octets) != size:
        raise fault(SHORT if len(octets) < size else LONG)
    found: dict[str, Any] = {"kind": octets[0]}
    place = 1
    for name, width in form:
        value = octets[place : place + width]
        number = int.from_bytes(value, "big")
        if is_wrong(name, value, number):
            raise fault(BAD_FIELD, place + 2 if name == "cell" and place_of(value)[0] <= 503 else place)
        found[name] = number if width in (1, 4) else value
        place += width
    return found


def place_of(cell: bytes) -> tuple[int, int]:
    """PCI and EARFCN-DL of a cell."""
    return int.from_bytes(cell[:2], "big"), int.from_bytes(cell[2:], "big")


def is_wrong(name: str, value: bytes, number: int) -> bool:
    """Whether a field is out of its range."""
    if name == "cell":
        return place_of(value)[0] > 503 or place_of(value)[1] > 262143
    if name in ("station", "source", "NCC", "KSI"):
        return number > 7 - (name == "KSI")
    if name == "cause":
        return number not in (UNSPECIFIED, MISMATCH)
    return name == "algorithms" and number not in (0x02, 0x22) or len(value) == 4 and number == 0


def estimate(following: int, number: int, size: int, limit: int) -> int:
    """The least COUNT from the next one on that has this sequence number."""
    count = following + (number - following) % size
    if count >= limit:
        raise Refused("CountSpent")
    return count


def key(of: bytes, kind: int, identity: int) -> bytes:
    """All 32 octets of an algorithm key (A.7); the last 16 are used."""
    return CALLS.algorithm_key(of, kind, identity)


def ciphered(eea: int, with_key: bytes, count: int, bearer: int, way: int, text: bytes) -> bytes:
    return CALLS.eea2(with_key[16:], count, bearer, way, text) if eea else text


def mac(with_key: bytes, count: int, bearer: int, way: int, covered: bytes) -> bytes:
    return CALLS.eia2(with_key[16:], count, bearer, way, covered)


class Security:
    """A NAS context: KASME, keys, and the next COUNTs to send and to receive."""

    def __init__(self, root: bytes, eea: int, send: int = 0, receive: int = 0):
        self.root, self.eea, self.send, self.receive = root, eea, send, receive
        self.enc, self.int = key(root, 1, eea), key(root, 2, 2)

    def sealed(self, header: int, way: int, text: bytes, count: int) -> bytes:
        covered = bytes([count % 256]) + (
            text if header in (1, 3) else ciphered(self.eea, self.enc, count, 0, way, text)
        )
        return bytes([header << 4 | 7]) + mac(self.int, count, 0, way, covered) + covered

    def sent(self, header: int, way: int, text: bytes) -> bytes:
        """A message under the next COUNT."""
        if self.send >= NAS_LIMIT:
            raise Refused("CountSpent")
        self.send += 1
        return self.sealed(header, way, text, self.send - 1)

    def opened(self, pdu: bytes, way: int, count: int) -> bytes:
        """The text of a message at a COUNT."""
        wanted = mac(self.int, count, 0, way, pdu[5:])
        if wanted != pdu[1:5]:
            raise Refused("MacFails", octets(count), wanted, pdu[1:5])
        return pdu[6:] if pdu[0] >> 4 in (1, 3) else ciphered(self.eea, self.enc, count, 0, way, pdu[6:])

    def skip(self, count: int) -> None:
        self.send = min(self.send + count, NAS_LIMIT)
