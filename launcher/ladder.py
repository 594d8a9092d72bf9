"""The first bad line of a ladder text, and why it is bad (docs/SCENARIOS.md, Ladder texts)."""
from __future__ import annotations

import re
from typing import Union

from calc import DECIMAL, FIELDS, KEY, NAS_COUNT, Check, number, word_of
from lte_sec.runs.kinds import nearest, one_of
from lte_sec.runs.document import TextFault

MOST_LINES = 4096
# The words behind that of a line: a row of one of these kinds, or what is wrong with another. Of `alg`, `of_type` says
# more.
May = Union[tuple[str, ...], Check]
LINES: dict[str, dict[str, May]] = {
    "root": {"kasme": KEY},
    "kenb": {"row": ("root",), "count": NAS_COUNT},
    "nh": {"row": ("root",), "sync": ("kenb", "nh")},
    "star": {"row": ("kenb", "nh", "star"), "pci": FIELDS["pci"], "earfcn": FIELDS["earfcn"]},
    "alg": {"row": ("root", "kenb", "star"), "type": number(1, 5), "id": number(0, 2)},
}


def of_type(type_: str) -> dict[str, May]:
    """What row and identity may be at a type of algorithm."""
    is_identity = word_of(["2"] if type_ in "24" else ["0", "2"])
    return {
        "row": ("root",) if type_ in "12" else ("kenb", "star"),
        "id": lambda word: (wrong := is_identity(word)) and f"{wrong} with type {type_}",
    }


class Ladder:
    """The rows of the lines so far, with the kind of each and the row of its root, and the lines that have a row. The
    place of a fault is the number of its word."""

    def __init__(self) -> None:
        self.rows: list[tuple[str, int]] = []
        self.lines: set[str] = set()

    def take(self, kind: str, given: list[str]) -> None:
        """One line."""
        if kind not in LINES:
            raise TextFault(
                0, f"there is no line '{kind}'{nearest(kind, list(LINES)) or '; it must be ' + one_of(list(LINES))}"
            )
        fields = LINES[kind]
        if len(given) != len(fields):
            raise TextFault(
                0,
                (
                    f"{kind} needs {len(fields)} {'word' if len(fields) == 1 else 'words'}, and has {len(given)}: "
                    f"{kind} {' '.join(fields)}"
                ),
            )
        if kind == "alg" and not number(1, 5)(given[1]):
            fields = fields | of_type(given[1])
        for place, ((name, may), word) in enumerate(zip(fields.items(), given), 1):
            if wrong := self.wrong_row(word, may) if isinstance(may, tuple) else may(word):
                raise TextFault(place, f"{name} {wrong}")
        self.add(kind, given)

    def wrong_row(self, word: str, kinds: tuple[str, ...]) -> str | None:
        if not DECIMAL.fullmatch(word) or len(word) > 10:
            return f"is '{word}'; it must be the number of a row, in decimal without sign or leading zero"
        if int(word) >= len(self.rows):
            return (
                f"{word} is not there yet; the last so far is {len(self.rows) - 1}"
                if self.rows
                else f"{word} is not there; the first line is a root"
            )
        kind, _ = self.rows[int(word)]
        return None if kind in kinds else f"{word} is a {kind}; it must be a {one_of(list(kinds))}"

    def add(self, kind: str, given: list[str]) -> None:
        """The row of a line whose words are right one by one."""
        line, root = " ".join([kind, *given]).lower(), len(self.rows) if kind == "root" else self.rows[int(given[0])][1]
        if kind == "root" and line in self.lines:
            raise TextFault(1, "there is a root with these octets already")
        if kind == "nh" and self.rows[int(given[1])][1] != root:
            raise TextFault(
                2, f"sync {given[1]} comes from root {self.rows[int(given[1])][1]}, and not of root {given[0]}"
            )
        if line not in self.lines:
            self.lines.add(line)
            self.rows.append((kind, root))


def spaced(line: str) -> list[str]:
    """The words of a line, which is ASCII and has one space between them."""
    if other := re.search("[^ -~]", line):
        of = {
            "\r": "the line ends with a carriage return; it must end with only a line feed",
            "\t": "there is a tab; words are parted by one space",
        }
        raise TextFault(0, of.get(other[0], "there is a character that is not printed ASCII"))
    words = line.split(" ")
    if "" in words:
        raise TextFault(
            0,
            "words are parted by one space, with none before the first or after the last"
            if line
            else "the line is empty",
        )
    return words


def judge(octets: bytes) -> None:
    """Raises the fault of the first bad line; its place is that of the word, as an offset in the text read octet by
    octet."""
    lines = octets.decode("latin-1").removesuffix("\n").split("\n") if octets else []
    ladder, place = Ladder(), 0
    for number_, line in enumerate(lines, 1):
        try:
            if number_ > MOST_LINES:
                raise TextFault(0, f"there are {len(lines):,} lines; there may be {MOST_LINES:,}")
            kind, *given = spaced(line)
            ladder.take(kind, given)
        except TextFault as bad:
            before = "".join(f"{word} " for word in line.split(" ")[: bad.place])
            raise TextFault(place + len(before), bad.reason, f"refused line {number_}") from None
        place += len(line) + 1
