"""Each key, NCC, MAC, sequence number and text of the captures with one bit spoilt: it is told, and nothing else is."""
from __future__ import annotations

import gzip
import json
import os
import re
import unittest
from collections.abc import Iterator
from pathlib import Path

from lte_sec.captures.capture_files import messages
from lte_sec.captures.decoding import Message
from lte_sec.captures.cells import Cells, read_cells
from lte_sec.common.report import NOTE, Line
from lte_sec.common.terms import Derivations, Kasme
from lte_sec.judge.reading import check

from .standin import StandIn

TRACES = Path(__file__).resolve().parents[2] / "examples" / "traces"
NAMES = ("A", "B1-star-earfcn", "B2-nh-twice", "C")
EVERY = 1 if os.environ.get("EVERY_PLACE") else 7  # the gate tries a sample
KEY = re.compile(r'"(s1ap\.SecurityKey|s1ap\.nextHopParameter|x2ap\.key_eNodeB_star)": "')
NCC = re.compile(r'"((?:s1ap|x2ap|lte-rrc)\.nextHopChainingCount)": "(\d)"')
NAS = re.compile(r'"s1ap\.(?:NAS_PDU|nAS_PDU)": "([0-9a-f:]+)"')


def stored(name: str) -> list[str]:
    with gzip.open(TRACES / f"{name}.json.gz", "rt", encoding="utf-8") as lines:
        return list(lines)


def flipped(line: str, octet: int, bit: int) -> str:
    """A line whose value of octets has one bit changed."""
    begin = line.index('": "') + 4 + 3 * octet
    return line[:begin] + f"{int(line[begin:begin + 2], 16) ^ 1 << bit:02x}" + line[begin + 2 :]


def places(lines: list[str]) -> Iterator[tuple[int, str, str]]:
    """Each place to spoil: the number of the line, what it is, and the spoilt line."""
    for number, line in enumerate(lines):
        ncc, nas = NCC.search(line), NAS.search(line)
        if KEY.search(line):
            yield number, "key", flipped(line, number % 32, number % 8)
        elif ncc:
            yield number, "NCC", line.replace(f'"{ncc[2]}"', f'"{int(ncc[2]) ^ 1 << number % 3}"')
        elif nas and nas[1][0] != "0":
            short = nas[1][0] >= "c"
            yield number, "MAC", flipped(line, 2 if short else 1 + number % 4, number % 8)
            if not short:
                yield number, "sequence number", flipped(line, 5, number % 8)
                yield number, "text", flipped(line, 6 + number % (len(nas[1].split(":")) - 6), number % 8)


def frame_of(lines: list[str], number: int) -> str:
    return next(
        found[1] for line in reversed(lines[:number]) if (found := re.search(r'"frame\.number": "(\d+)"', line))
    )


def report(name: str, found: list[Message]) -> list[Line]:
    truth = json.loads((TRACES / f"{name}.truth.json").read_text())
    kasmes = [Kasme(one["name"], bytes.fromhex(one["hex"])) for one in truth["kasme"]]
    return check(Derivations(StandIn(), kasmes), Cells(read_cells(TRACES / f"{name}.cells.txt")), found, budget=0).lines


def differing(lines: list[Line]) -> set[str]:
    return {
        f"{line.frame} {line.what}"
        for line in lines
        if line.verdict not in ("right", NOTE) and line.what != "agreement"
    }


class Spoilt(unittest.TestCase):
    def test_each_spoilt_bit_is_one_difference(self) -> None:
        tried = 0
        for name in NAMES:
            lines = stored(name)
            sound = differing(report(name, list(messages(lines))))
            for place, (number, what, spoilt) in enumerate(places(lines)):
                if place % EVERY:
                    continue
                tried += 1
                with self.subTest(capture=name, frame=frame_of(lines, number), what=what, place=number):
                    told = differing(report(name, list(messages([*lines[:number], spoilt, *lines[number + 1 :]]))))
                    frames = {one.split()[0] for one in told - sound}
                    self.assertEqual(frames - {frame_of(lines, number)}, set(), told)
                    self.assertTrue(any(one.split()[0] == frame_of(lines, number) for one in told), told)
        print(f"{tried} spoilt places", end=" ", flush=True)


if __name__ == "__main__":
    unittest.main()
