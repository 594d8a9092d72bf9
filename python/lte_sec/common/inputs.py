"""Reading no more than the programs read: a text of 16 MiB. What is longer, as a device without an end, ends with
status 9."""
from __future__ import annotations

import os
import sys
from typing import IO

from .terms import TraceError

MOST = 16_777_216  # octets of a text
MOST_MADE = 8 * MOST  # octets of what a program made of such a text: a report, or a part of an answer


class TooMuch(TraceError):
    """A text is longer than what is read."""

    status = 9


def of_input(most: int = MOST) -> bytes:
    """The octets of standard input."""
    return bounded(sys.stdin.buffer, "the input", most)


def of_file(file: str | os.PathLike[str], what: str = "", most: int = MOST) -> bytes:
    """The octets of a file, which is told as what it has."""
    name = f"{what} {file}".lstrip()
    try:
        with open(file, "rb") as opened:
            return bounded(opened, name, most)
    except OSError as fault:
        raise TraceError(f"{name} cannot be read: {fault.strerror}") from None


def lines_of(octets: bytes) -> list[str]:
    """The lines of a text; what is not UTF-8 in it stands for itself as a question mark."""
    return octets.decode(errors="replace").replace("\r\n", "\n").split("\n")


def bounded(opened: IO[bytes], name: str, most: int) -> bytes:
    octets = opened.read(most + 1)
    if len(octets) > most:
        raise TooMuch(f"{name} has more than {most:,} octets")
    return octets
