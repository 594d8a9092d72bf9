"""Keys in a text: 64 or 32 hex digits, lists of octets, and hexdumps, as products write them into their logs.

A hexdump has 8, 16 or 32 octets in a line, in groups of one, two, four or more, with an offset before them or not. Rows
of 16 octets without offsets may be keys of 16 octets or halves of one of 32: both are tried.
"""
from __future__ import annotations

import re
from collections.abc import Callable, Iterable, Iterator
from dataclasses import dataclass

GROUP = re.compile(r"(?:(?<![0-9A-Za-z])(?:0[xX])?|(?<=[A-Za-z_])0[xX])((?:[0-9a-fA-F]{2})+)(?:[hH]?(?![0-9A-Za-z]))")
BETWEEN = re.compile(r" |:|-|, ?|  | - ")  # groups of one row stand so
MIDDLE = ("  ", " - ")  # stands so only in the middle of a row of 16 octets
ESCAPE = re.compile(r"\\x([0-9a-fA-F]{2})")
OFFSET = re.compile(r"(?<![0-9A-Za-z])(?:0[xX])?([0-9a-fA-F]{4,8}):?\s+$")
LABEL = re.compile(r"[A-Za-z_][\w*/() -]*\s*[:=]\s*[\[{(\"']?\s*$")
KEY, HALF, ROWS = 32, 16, (32, 16, 8)
HEX = 4  # octets from which on a run is called hex


@dataclass(frozen=True)
class OctetRow:
    """A run of octets of a line; `offset` is the number before it in a hexdump, `label` whether a name stands before
    it."""

    line: int
    value: bytes
    offset: int | None
    label: bool


@dataclass(frozen=True)
class OctetBlock:
    """A key and its line, or rows of 16 octets that may be keys, or halves of keys of 32."""

    rows: tuple[OctetRow, ...]

    @property
    def sure(self) -> bool:
        return len(self.rows) == 1


def runs(text: str) -> Iterator[tuple[list[str], str]]:
    """The longest sequences of groups of one width, each with the text before it."""
    run: list[str] = []
    begin = end = 0
    for found in GROUP.finditer(text):
        gap = text[end : found.start()]
        joins = (
            bool(run)
            and len(run[-1]) == len(found[1])
            and bool(BETWEEN.fullmatch(gap))
            and (gap not in MIDDLE or len(run) * len(run[0]) == HALF)
        )
        if not joins:
            if run:
                yield run, text[:begin]
            run, begin = [], found.start()
        run.append(found[1])
        end = found.end()
    if run:
        yield run, text[:begin]


def row_of(run: list[str], before: str, line: int) -> OctetRow | None:
    """The row of a run: words that look like hex before it are left out."""
    width = len(run[0]) // 2
    offset = OFFSET.search(before)
    place = int(offset[1], 16) if offset else None
    if place is None and width >= HEX and len(run) * width == HALF + width and int(run[0], 16) % HALF == 0:
        place, run = int(run[0], 16), run[1:]
    value, has_label = bytes.fromhex("".join(run)), place is None and bool(LABEL.search(before))
    if len(value) % KEY == 0:
        return OctetRow(line, value, place, has_label)
    size = next((size for size in ROWS if len(value) >= size and size % width == 0), 0)
    whole = len(run) == 1 and len(value) != size
    return OctetRow(line, value[len(value) - size :], place, has_label) if size and not whole else None


def rows_of(lines: Iterable[str]) -> Iterator[list[OctetRow]]:
    """The rows of each line."""
    for number, text in enumerate(lines, 1):
        text = ESCAPE.sub(r" \1", text)
        cut = (
            text.rstrip("\n").split("|")[0]
            if re.search(r"\|[^|]*\|?\s*$", text.rstrip("\n")) and GROUP.search(text.split("|")[0])
            else text.rstrip("\n")
        )
        yield [row for run, before in runs(cut) if (row := row_of(run, before, number)) is not None]


def has_hex(lines: Iterable[str]) -> bool:
    """Whether a text has some octets in hex."""
    return any(sum(len(group) // 2 for group in run) >= HEX for text in lines for run, _ in runs(text))


def blocks(lines: Iterable[str]) -> list[OctetBlock]:
    """The keys of a text in their order."""
    found: list[OctetBlock] = []
    open_rows: list[OctetRow] = []
    for rows in rows_of(lines):
        parts = [row for row in rows if len(row.value) % KEY]
        if len(rows) == 1 and parts:
            row = rows[0]
            if open_rows and not follows(open_rows[-1], row):
                found += closed(open_rows)
                open_rows = []
            open_rows.append(row)
            continue
        found += closed(open_rows)
        open_rows = []
        for row in rows:
            size = KEY if len(row.value) % KEY == 0 else HALF
            found += [
                OctetBlock((OctetRow(row.line, row.value[place : place + size], None, row.label),))
                for place in range(0, len(row.value), size)
                if len(row.value) >= HALF
            ]
    return found + closed(open_rows)


def follows(last: OctetRow, row: OctetRow) -> bool:
    """Whether a row goes on with the dump of the row before it."""
    if row.line != last.line + 1 or len(row.value) != len(last.value) or row.label:
        return False
    return (
        row.offset is None
        and last.offset is None
        or row.offset is not None
        and last.offset is not None
        and row.offset == last.offset + len(last.value)
    )


def closed(rows: list[OctetRow]) -> list[OctetBlock]:
    """The keys of the rows of a dump."""
    if not rows:
        return []
    value, size = b"".join(row.value for row in rows), len(rows[0].value)
    if size == HALF and rows[0].offset is None and len(rows) > 1:
        return [OctetBlock(tuple(rows))]
    if rows[0].offset is None and size < HALF and len(value) % KEY and len(value) % HALF == 0:
        halves = [
            OctetRow(rows[place // size].line, value[place : place + HALF], None, False)
            for place in range(0, len(value), HALF)
        ]
        return [OctetBlock(tuple(halves))]
    found = [(place, min(KEY, len(value) - place)) for place in range(0, len(value), KEY)]
    return [
        OctetBlock((OctetRow(rows[place // size].line, value[place : place + length], None, False),))
        for place, length in found
        if length in (KEY, HALF)
    ]


def candidates(block: OctetBlock) -> list[bytes]:
    """The values of a block that are sought first: of rows that may be halves, each pair."""
    if block.sure:
        return [block.rows[0].value]
    return [one.value + other.value for one, other in zip(block.rows, block.rows[1:])]


def resolved(block: OctetBlock, known: Callable[[bytes], bool]) -> Iterator[tuple[int, bytes]]:
    """The keys of a block with their lines, once it is known which values are found."""
    rows, place = block.rows, 0
    while place < len(rows):
        pair = b"".join(row.value for row in rows[place : place + 2])
        behind = b"".join(row.value for row in rows[place + 1 : place + 3])
        alone = (
            block.sure
            or place == len(rows) - 1
            or not known(pair)
            and (known(rows[place].value) or len(behind) == KEY and known(behind))
        )
        yield rows[place].line, rows[place].value if alone else pair
        place += 1 if alone else 2
