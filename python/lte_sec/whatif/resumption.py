"""An answer of `what-if` that is kept in a file: part by part as it comes in, and a later call goes on from there.

The file has a line for each part that is done, as `--json` prints it, on one line. A line that was cut is that of a
part which is tried again.
"""
from __future__ import annotations

import json
import os
import sys
import time
from collections.abc import Callable, Iterator
from pathlib import Path
from typing import Any

from ..common.options import WrongWords
from .what_if_document import Answer, from_json, merged, to_json

PARTS, SECONDS = 64, 10.0


class KeptAnswer:
    """The parts that a file has."""

    def __init__(self, file: Path):
        self.file = file
        self.parts: dict[int, Answer] = {}
        try:
            lines = file.read_bytes().split(b"\n") if file.exists() else []
            self.whole = sum(len(line) + 1 for line in lines[:-1])  # octets of whole lines
            self.out = open(file, "ab")
            self.out.truncate(self.whole)
        except OSError as fault:
            raise WrongWords(f"{file} cannot be written: {fault.strerror}") from None
        for line in lines[:-1]:
            try:
                part = from_json(json.loads(line))
            except (ValueError, KeyError, TypeError, AttributeError):
                raise WrongWords(f"{file} is not what --resume writes; name another file") from None
            self.parts[(part.part or (1, 1))[0]] = part

    def fits(self, tried: dict[str, Any]) -> None:
        if any(part.tried != tried for part in self.parts.values()):
            raise WrongWords(f"{self.file} is of another scenario or other options; name another file")

    def put(self, number: int, part: Answer) -> None:
        self.parts[number] = part
        self.out.write(json.dumps(to_json(part)).encode() + b"\n")
        self.out.flush()
        os.fsync(self.out.fileno())


def gathered(kept: KeptAnswer, gather: Callable[[tuple[int, int]], Answer], nothing: Answer) -> Answer:
    """The whole: the parts that the file has, and the others, which are gathered and put there. What there is where it
    is interrupted."""
    last, whole = time.monotonic(), True
    try:
        for number in missing(kept):
            part = gather((number, PARTS))
            if not part.whole:
                raise KeyboardInterrupt
            kept.put(number, part)
            if time.monotonic() - last > SECONDS:
                last = time.monotonic()
                print(f"lte_sec: {len(kept.parts)} of {PARTS} parts", file=sys.stderr, flush=True)
    except KeyboardInterrupt:
        whole = False
        print(
            f"lte_sec: {len(kept.parts)} of {PARTS} parts are in {kept.file}; the same call goes on from there",
            file=sys.stderr,
        )
    kept.out.close()
    parts = [kept.parts[number] for number in sorted(kept.parts)]
    answer = merged(parts) if parts else nothing
    answer.whole, answer.part = whole, None
    return answer


def missing(kept: KeptAnswer) -> Iterator[int]:
    return (number for number in range(1, PARTS + 1) if number not in kept.parts)
