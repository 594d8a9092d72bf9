"""How a word of Python ends: with its status; where its input or its output fails with 4 or 5 and one line; and never
with a traceback.

With --json a word that fails and prints nothing prints why, as {"error": .., "status": N}.
"""
from __future__ import annotations

import io
import json
import os
import re
import sys
from collections.abc import Callable
from typing import NoReturn, TextIO

READING, WRITING, FAULT, INTERRUPTED = 4, 5, 70, 130
JSON = "--json"
HEAD = re.compile(r"lte_sec: (?:status \d+: )?")
TRACE = "LTE_SEC_TRACE"  # a variable: where it is set a fault of the package itself shows where it is


class InputFails(Exception):
    """Standard input cannot be read."""


class OutputFails(Exception):
    """Standard output cannot be written; with no text where whoever read it has read enough."""


class StandardInput(io.RawIOBase):
    """Standard input, whose faults no handler takes for those of a file."""

    def readable(self) -> bool:
        return True

    def fileno(self) -> int:
        return 0

    def readinto(self, buffer: bytearray | memoryview) -> int:  # type: ignore[override]
        try:
            return os.readv(0, [buffer])
        except OSError as fault:
            raise InputFails(fault.strerror) from None


class StandardOutput(io.RawIOBase):
    """Standard output, whose faults no handler takes for those of a file."""

    def writable(self) -> bool:
        return True

    def fileno(self) -> int:
        return 1

    def isatty(self) -> bool:
        return os.isatty(1)

    def write(self, octets: bytes | bytearray | memoryview) -> int:  # type: ignore[override]
        answers()
        try:
            return os.write(1, octets)
        except BrokenPipeError:
            raise OutputFails("") from None
        except OSError as fault:
            raise OutputFails(fault.strerror) from None


class StandardErrorOctets(io.RawIOBase):
    """Standard error, of which what cannot be written is lost: the status still tells how the word ended."""

    def writable(self) -> bool:
        return True

    def fileno(self) -> int:
        return 2

    def isatty(self) -> bool:
        return os.isatty(2)

    def write(self, octets: bytes | bytearray | memoryview) -> int:  # type: ignore[override]
        try:
            return os.write(2, octets)
        except OSError:
            return len(octets)


class StandardError(io.TextIOBase):
    """Standard error, and the last line of it that says something."""

    def __init__(self, stream: TextIO):
        self.stream, self.last = stream, ""

    def write(self, text: str) -> int:
        self.last = next((line for line in reversed(text.splitlines()) if line.startswith("lte_sec: ")), self.last)
        return self.stream.write(text)

    def flush(self) -> None:
        self.stream.flush()

    def fileno(self) -> int:
        return self.stream.fileno()

    def isatty(self) -> bool:
        return self.stream.isatty()


has_answered = False


def answers() -> None:
    """The word has printed something, so that no fault is printed in its place."""
    global has_answered
    has_answered = True


def is_open(descriptor: int) -> bool:
    try:
        os.fstat(descriptor)
    except OSError:
        return False
    return True


def guard() -> None:
    """Puts these streams in the place of Python's. A closed one is told where it is used; nothing that is opened later
    takes its number."""
    for descriptor in (0, 1, 2):
        if not is_open(descriptor):
            os.dup2(os.open(os.devnull, os.O_RDONLY if descriptor == 1 else os.O_WRONLY), descriptor)
    sys.stdin = io.TextIOWrapper(io.BufferedReader(StandardInput()), encoding="utf-8", errors="surrogateescape")
    sys.stdout = io.TextIOWrapper(
        io.BufferedWriter(StandardOutput()), encoding="utf-8", errors="surrogateescape", line_buffering=os.isatty(1)
    )
    sys.stderr = io.TextIOWrapper(
        io.BufferedWriter(StandardErrorOctets()), encoding="utf-8", errors="backslashreplace", line_buffering=True
    )


def ends(word: str, run: Callable[[], object]) -> NoReturn:
    """Runs a word and ends with its status; `run` answers it or ends by `sys.exit`."""
    guard()
    told = StandardError(sys.stderr)
    sys.stderr = told  # type: ignore[assignment]
    try:
        status = tried(word, run)
        if JSON in sys.argv[1:]:
            fails(status, HEAD.sub("", told.last))
        sys.stdout.flush()
    except OutputFails as fault:
        if str(fault):
            says(WRITING, f"writing the output failed: {fault}")
        sys.stderr.flush()
        os._exit(WRITING)  # what is left in the stream is not tried again
    sys.exit(status)


def tried(word: str, run: Callable[[], object]) -> int:
    """The status of a word, whose faults are said; not those of its output."""
    try:
        status = status_of(run)
        sys.stdout.flush()
        return status
    except InputFails as fault:
        return says(READING, f"reading the input failed: {fault}")
    except KeyboardInterrupt:
        return INTERRUPTED
    except OutputFails:
        raise
    except Exception as fault:
        if TRACE in os.environ:
            raise
        return says(
            FAULT, f"{word} has a fault of its own, {type(fault).__name__}: {fault}; with {TRACE}=1 it says where"
        )


def fails(status: int, why: str) -> None:
    """Prints why a word fails, where nothing is printed yet."""
    if status and not has_answered:
        print(json.dumps({"error": why or ("interrupted" if status == INTERRUPTED else "it failed"), "status": status}))


def status_of(run: Callable[[], object]) -> int:
    """The status that a word answers or exits with; a text in its place is said, as Python does."""
    try:
        answer = run()
    except SystemExit as end:
        answer = end.code
    if answer is None:
        return 0
    return answer if isinstance(answer, int) else says(1, str(answer))


def says(status: int, why: str) -> int:
    print(f"lte_sec: status {status}: {why}", file=sys.stderr)
    return status
