"""Repeated use of a key: the first key, bearer, direction and COUNT that come twice (TS 36.323 5.6, 5.7).

Each line of the input has a key or UE id, bearer, direction and COUNT, parted by blanks, tabs or commas, and may have
the octets of the PDU after them, as `tshark -T fields` prints them. The same octets again are the same PDU sent again,
which is not a second use.
"""
from __future__ import annotations

import itertools
from collections.abc import Iterable, Iterator
from dataclasses import dataclass, field
from typing import IO

from ..common.inputs import TooMuch
from ..common.terms import TraceError

FIELDS = (
    "pdcp-lte.ueid",
    "pdcp-lte.security-config.bearer",
    "pdcp-lte.security-config.direction",
    "pdcp-lte.security-config.count",
)
WAYS = {"uplink": "0", "up": "0", "ul": "0", "downlink": "1", "down": "1", "dl": "1"}
NUMBER = 10  # the most digits of a number: what is longer is a key
COUNTS = 1 << 32
VERSION = 1  # of the document that --json prints
LONGEST, MOST = 65_536, 4_000_000  # characters of a line, and uses, that are read

UsedCount = tuple[str, str, str, int]


@dataclass
class Repeats:
    """What was found: the use that came twice, if one did, and its lines; PDUs without security context; lines that are
    not clear."""

    use: UsedCount | None = None
    lines: tuple[int, int] = (0, 0)
    passed: int = 0
    unclear: list[int] = field(default_factory=list)

    @property
    def status(self) -> int:
        return 1 if self.use else 3 if self.unclear else 0

    @property
    def text(self) -> str:
        """Which use came twice, or nothing."""
        if self.use is None:
            return ""
        key, bearer, direction, count = self.use
        return (
            f"lines {self.lines[0]} and {self.lines[1]}: key {key}, bearer {bearer}, direction {direction}, "
            f"COUNT {count} are used twice"
        )

    def document(self) -> dict[str, object]:
        """What `repeats --json` prints."""
        use = (
            dict(zip(("key", "bearer", "direction", "count"), self.use)) | {"lines": list(self.lines)}
            if self.use
            else None
        )
        return {
            "version": VERSION,
            "repeat": use,
            "without_security_context": self.passed,
            "not_judged": self.unclear,
            "status": self.status,
        }

    def __str__(self) -> str:
        more = (
            [f"{self.passed} PDU{'s' if self.passed > 1 else ''} without security context passed over"]
            if self.passed
            else []
        )
        more += (
            [
                (
                    f"not judged: line{'s' if len(self.unclear) > 1 else ''} {', '.join(map(str, self.unclear))}, "
                    "whose PDUs do not all have a security context"
                )
            ]
            if self.unclear
            else []
        )
        return "; ".join([self.text or "none", *more])


def plain(word: str) -> str:
    """A value in one spelling: `0x00` and `0`, `uplink` and `0` are the same."""
    text = word.lower()
    digits = text.removeprefix("0x")
    if (
        text.isdecimal()
        and text.isascii()
        and len(text) <= NUMBER
        or text.startswith("0x")
        and len(digits) <= NUMBER
        and not set(digits) - set("0123456789abcdef")
    ):
        return str(int(text, 0 if text.startswith("0x") else 10))
    return WAYS.get(text, text.replace(":", ""))


def pdus(line: str, place: int) -> tuple[list[list[str]], int] | None:
    """The values of each PDU of a line, and how many have no security context; None where it is not clear which."""
    tabs, commas = line.count("\t"), line.count(",")
    if not tabs and (any(one.isspace() for one in line.strip()) or commas < len(FIELDS) - 1):
        words = line.replace(",", " ").split()
        if len(words) not in (4, 5):
            raise TraceError(
                f"line {place}: a use is: key or UE id, bearer, direction, COUNT, and if wanted the octets of the PDU"
            )
        return [words], 0
    cells = (
        [[word.strip() for word in cell.split(",") if word.strip()] for cell in line.split("\t")]
        if tabs
        else [[word] if word else [] for word in line.strip().split(",")]
    )
    if len(cells) not in (4, 5):
        raise TraceError(
            f"line {place}: it has {len(cells)} fields, and a use has 4 or 5: "
            f"{', '.join(FIELDS)}, and the octets of the PDU"
        )
    found = max(len(cell) for cell in cells[1:4])
    if found == 0:
        return [], len(cells[0])
    if (
        any(len(cell) != found for cell in cells[1:4])
        or not cells[0]
        or len(cells[0]) != found
        and len(set(cells[0])) > 1
    ):
        return None
    keys = cells[0] if len(cells[0]) == found else cells[0][:1] * found
    texts = cells[4] if len(cells) == 5 and len(cells[4]) == found else []
    rows = [list(row) for row in zip(keys, *cells[1:4])]
    return [[*row, *texts[number : number + 1]] for number, row in enumerate(rows)], max(0, len(cells[0]) - found)


def bounded(text: IO[str]) -> Iterator[str]:
    """The lines of a text; a fault where one is too long."""
    for place in itertools.count(1):
        line = text.readline(LONGEST + 1)
        if not line:
            return
        if len(line) > LONGEST:
            raise TooMuch(
                f"line {place} has more than {LONGEST:,} characters; a use has a key or UE id, bearer, direction, "
                "COUNT and a PDU"
            )
        yield line


def uses(lines: Iterable[str], result: Repeats) -> Iterator[tuple[int, UsedCount, str]]:
    """Each use with its line and the octets of its PDU."""
    for place, line in enumerate(lines, 1):
        if not line.strip() or line.lstrip().startswith("#"):
            continue
        found = pdus(line.rstrip("\r\n"), place)
        if found is None:
            result.unclear.append(place)
            continue
        result.passed += found[1]
        for words in found[0]:
            count = plain(words[3])
            if not count.isdecimal() or not count.isascii() or int(count) >= COUNTS:
                raise TraceError(f"line {place}: COUNT is a number 0 to {COUNTS - 1}, and not {words[3][:40]}")
            yield place, (plain(words[0]), plain(words[1]), plain(words[2]), int(count)), words[4].replace(
                ":", ""
            ).lower() if len(words) == 5 else ""


def first_repeat(lines: Iterable[str]) -> Repeats:
    """The first use that comes twice. A use without octets that comes again counts as a second use."""
    seen: dict[UsedCount, tuple[int, str]] = {}
    result = Repeats()
    for place, use, octets in uses(lines, result):
        if len(seen) == MOST:
            raise TooMuch(f"line {place}: repeats reads {MOST:,} uses; part the text by key")
        before = seen.get(use)
        if before is None:
            seen[use] = (place, octets)
        elif not (octets and octets == before[1]):
            result.use, result.lines = use, (before[0], place)
            break
    return result
