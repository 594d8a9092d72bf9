"""Tells an actor at a port of this machine the frames of a file: it compares its replies with those of the file.

    docs/cookbook/against PORT FRAMES

FRAMES has each frame in a line after `>`, and the wanted reply in the next line, after `<`, in hex, as the files of
examples/serve. At the first reply that differs its parts are shown beside the wanted ones (docs/FRAMES.md), and the
status is 1. It is 2 where the words are others, the file does not read, or the actor is not reached or closes.
"""
from __future__ import annotations

import pathlib
import socket
import sys
from typing import BinaryIO, NoReturn

from .records import differences

SECONDS = 10


def told(replies: BinaryIO, connection: socket.socket, frame: bytes) -> bytes:
    """The reply to a frame, with its length."""
    connection.sendall(frame)
    head = replies.read(2)
    return head + replies.read(int.from_bytes(head, "big"))


def wrong(why: str) -> NoReturn:
    """Says why it ends."""
    print(f"against: {why}", file=sys.stderr)
    sys.exit(2)


def words_of(words: list[str]) -> tuple[int, pathlib.Path]:
    """The number of the port, and the file."""
    if len(words) != 2 or not words[0].isdecimal() or not 0 < int(words[0]) < 65536:
        wrong("it takes the number of a port and a file of frames: docs/cookbook/against PORT FRAMES")
    return int(words[0]), pathlib.Path(words[1])


def pairs_of(file: pathlib.Path) -> list[tuple[bytes, bytes]]:
    """The frames of a file, each with the reply that is wanted."""
    try:
        lines = [line.split() for line in file.read_text().splitlines() if line]
        if (
            not lines
            or len(lines) % 2
            or any(line[:1] != [">" if place % 2 == 0 else "<"] for place, line in enumerate(lines))
        ):
            wrong(f"{file} has no frames, each in a line after > with its reply in the next after <")
        octets = [bytes.fromhex(line[1]) for line in lines]
    except OSError as fault:
        wrong(f"{file}: {fault.strerror}")
    except (ValueError, IndexError):
        wrong(f"{file} has a line that is not a frame in hex")
    return list(zip(octets[0::2], octets[1::2]))


def main() -> None:
    """Tells all frames, up to the first reply that differs."""
    port, file = words_of(sys.argv[1:])
    pairs = pairs_of(file)
    number = 0
    try:
        with socket.create_connection(("127.0.0.1", port), SECONDS) as connection, connection.makefile("rb") as replies:
            for number, (frame, wanted) in enumerate(pairs):
                got = told(replies, connection, frame)
                if not got:
                    wrong(f"the actor closed before reply {number}")
                if parts := differences(wanted, got):
                    print(f"reply {number} differs", *parts, sep="\n  ")
                    sys.exit(1)
    except OSError as fault:
        wrong(f"port {port}, at reply {number}: {fault.strerror or fault}")
    print(f"{len(pairs)} replies are as they must be")
