"""Reads a TOML document with the places of its keys and values: as tomllib does, and keeps where each stands in the
text.

A document is read whole, or its first fault is told. tomllib tells no places, knows only TOML 1.0, where the program
reads 1.1 (an inline table may go over lines and may end with a comma), and is not in Python before 3.11. `scalars`
reads what is no table and no array.
"""
from __future__ import annotations

import dataclasses
import functools
import re
from collections.abc import Callable, Iterator
from typing import Any

from . import scalars

BLANK = re.compile(r"[ \t]*")
SPACE = re.compile(r"(?:[ \t\n]|\r\n|#[^\x00-\x08\x0a-\x1f\x7f]*)*")
CONTROL = re.compile(r"(?!\r\n)[\x00-\x08\x0b-\x1f\x7f]")
BARE_KEY = re.compile(r"[A-Za-z0-9_-]+")
STRING = re.compile(r'"""(?:[^\\]|\\.)*?"{3,5}|\'\'\'.*?\'{3,5}|"(?:[^"\\\n]|\\.)*"|\'[^\'\n]*\'', re.DOTALL)
PLAIN = re.compile(r"\d{4}-\d{2}-\d{2} \d{2}:[^\s,\]}#]*|[^\s,\[\]{}#=\"']+")
ENDED = re.compile(r"\r?\n|#|\Z")
# A pair of an inline table as most are written: a plain text, a number or an array, and the comma or bracket behind
# what is no array.
PAIR = re.compile(
    r"""[ \t\n]*([A-Za-z0-9_-]+)[ \t]*=[ \t]*(?:(?:"([^"\\\x00-\x08\x0a-\x1f\x7f]*)"(?!")|'([^'\x00-\x08\x0a-\x1f\x7f]*)'(?!')|(-?[1-9][0-9]{0,17}|0)(?![0-9A-Za-z_.:+-]))[ \t]*([,}])|(?=\[))"""
)
BEHIND = re.compile(r"[ \t]*([,}])")
DEEPEST = 80
MOST_VALUES = 200_000  # of a document that is read: so many take some seconds


class TooManyValues(Exception):
    """The document has more values than are read."""


class TextFault(Exception):
    """Why a text is not what it must be: the reason, its place as an offset, and the line that the program prints for
    it."""

    def __init__(self, place: int, reason: str, line: str = "refused text"):
        super().__init__(reason)
        self.place, self.reason, self.line = place, reason, line


@dataclasses.dataclass
class PlacedValue:
    """A value, where it begins, and where its key does; of an array its values, of a table the value of each key."""

    place: int
    is_: Any
    key: int = 0
    closed: bool = False  # whether no later header or key may add to it
    by: str = ""  # what made the table, `header` or `dots`: neither adds to a table of the other


def place_of(text: str, offset: int) -> tuple[int, int]:
    """The line and the column of an offset, both counted from 1."""
    return text.count("\n", 0, offset) + 1, offset - text.rfind("\n", 0, offset)


scalar_of = functools.lru_cache(4096)(scalars.read)


class DocumentReader:
    """A text, and how far it is read."""

    def __init__(self, text: str):
        self.text, self.at, self.deep, self.values = text, 0, 0, 0

    def counts(self, values: int) -> None:
        self.values += values
        if self.values > MOST_VALUES:
            raise TooManyValues

    def skip(self, blanks: re.Pattern[str]) -> None:
        found = blanks.match(self.text, self.at)  # no blanks match too
        self.at = found.end() if found else self.at
        if control := CONTROL.match(self.text, self.at):
            raise TextFault(self.at, f"octet {ord(control[0]):02x} is a control character, which may not stand here")

    def takes(self, mark: str) -> bool:
        found = self.text.startswith(mark, self.at)
        self.at += len(mark) if found else 0
        return found

    def twice(self, place: int, what: str, first: int) -> TextFault:
        return TextFault(place, f"{what} is given twice; first in line {place_of(self.text, first)[0]}")

    def scalar(self, token: str, place: int) -> Any:
        try:
            value = scalar_of(token)
        except ValueError:
            quoted = f'; a text stands in quotes, as "{token}"' if re.fullmatch(r"[A-Za-z_][\w-]*", token) else ""
            why = "has a leading zero" if re.fullmatch(r"[+-]?0\d+", token) else f"is not a value{quoted}"
            raise TextFault(place, f"{token} {why}") from None
        if isinstance(value, int) and not -(2**63) <= value < 2**63:
            raise TextFault(place, f"{token} is too large for a number")
        return value

    def value(self, key: int = 0) -> PlacedValue:
        """A value; its place is where it begins."""
        place = self.at
        self.counts(1)
        if self.takes("["):
            values: list[PlacedValue] = []
            self.items(place, "]", lambda: values.append(self.value()))
            return PlacedValue(place, values, key, True)
        if self.text.startswith("{", place):
            if self.deep < DEEPEST and (plain := self.plain_table(place, key)):
                return plain
            self.at = place + 1
            table = PlacedValue(place, {}, key)
            self.items(place, "}", lambda: self.pair(table, SPACE))
            table.closed = True
            return table
        found = STRING.match(self.text, place)
        if not found and self.text.startswith(('"', "'"), place):
            raise TextFault(place, "this text does not end: its closing quote is missing")
        if not (found := found or PLAIN.match(self.text, place)):
            raise TextFault(place, "a value is missing here")
        self.at = found.end()
        return PlacedValue(place, self.scalar(found[0], place), key, True)

    def plain_table(self, place: int, key: int) -> PlacedValue | None:
        """An inline table, if all of it is written plainly: it takes a tenth of the time then."""
        table: dict[str, PlacedValue] = {}
        at = place + 1
        while found := PAIR.match(self.text, at):
            name, text, other, number, mark = found.groups()
            first = found.start(1)
            if name in table:
                return None
            if mark:
                group = 2 if text is not None else 3 if other is not None else 4
                begins = found.start(4) if group == 4 else found.start(group) - 1
                table[name] = PlacedValue(begins, int(number) if group == 4 else found[group], first, True)
                at = found.end()
            else:
                self.at = found.end()
                table[name] = self.value(first)
                behind = BEHIND.match(self.text, self.at)
                if not behind:
                    return None
                mark, at = behind[1], behind.end()
            if mark == "}":
                self.at = at
                self.counts(len(table))
                return PlacedValue(place, table, key, True)
        return None

    def items(self, place: int, mark: str, item: Callable[[], None]) -> None:
        """What stands, parted by commas, between the bracket at a place and this one."""
        self.deep += 1
        if self.deep > DEEPEST:
            raise TextFault(place, f"values nest more than {DEEPEST} deep here")
        self.skip(SPACE)
        comma = True
        while not self.takes(mark):
            if self.at >= len(self.text):
                raise TextFault(place, f"the text ends before the {mark} that belongs to this")
            if not comma:
                raise TextFault(self.at, f"a comma or {mark} is missing before this")
            item()
            self.skip(SPACE)
            comma = self.takes(",")
            self.skip(SPACE)
        self.deep -= 1

    def keys(self, blanks: re.Pattern[str]) -> Iterator[tuple[int, str]]:
        """A key and the keys that dots join to it, each with its place."""
        while True:
            self.skip(blanks)
            place = self.at
            bare = BARE_KEY.match(self.text, place)
            found = bare or STRING.match(self.text, place)
            if not found or found[0].startswith(('"""', "'''")):
                raise TextFault(place, "a key is missing here")
            self.at = found.end()
            yield place, found[0] if bare else self.scalar(found[0], place)
            self.skip(blanks)
            if not self.takes("."):
                return

    def inner(self, table: PlacedValue, place: int, name: str, by: str) -> PlacedValue:
        """The table under a key of a table, which is made where it is not there; for a header the last of an array of
        tables."""
        value: PlacedValue = table.is_.setdefault(name, PlacedValue(place, {}, place))
        found = value
        if by == "header" and isinstance(value.is_, list) and value.is_:
            found = value.is_[-1]
        if not isinstance(found.is_, dict) or found.closed or (found.by, by) == ("header", "dots"):
            raise self.twice(place, f"the key {name}", value.key)
        found.by = by if by == "dots" else found.by
        return found

    def pair(self, table: PlacedValue, blanks: re.Pattern[str]) -> None:
        """`key = value`, into the table."""
        *outer, (place, name) = self.keys(blanks)
        if not self.takes("="):
            raise TextFault(self.at, f"= is missing after {name}")
        self.skip(blanks)
        for key in outer:
            table = self.inner(table, *key, by="dots")
        if name in table.is_:
            raise self.twice(place, f"the key {name}", table.is_[name].key)
        table.is_[name] = self.value(place)

    def header(self, table: PlacedValue) -> PlacedValue:
        """`[a.b]` or `[[a.b]]`: the table that the lines after it belong to."""
        mark = "]]" if self.takes("[") else "]"
        *outer, (place, name) = self.keys(BLANK)
        if not self.takes(mark):
            raise TextFault(self.at, f"{mark} is missing here")
        for key in outer:
            table = self.inner(table, *key, by="header")
        made = PlacedValue(place, {}, place)
        there: PlacedValue = table.is_.setdefault(name, made if mark == "]" else PlacedValue(place, [], place))
        if not isinstance(there.is_, list if mark == "]]" else dict) or there.closed or there.by:
            raise self.twice(place, f"the {'table' if mark == ']' else 'key'} {name}", there.key)
        if mark == "]]":
            there.is_.append(made)
            return made
        there.by = "header"
        return there

    def document(self) -> PlacedValue:
        top = table = PlacedValue(0, {})
        while True:
            self.skip(SPACE)
            if self.at >= len(self.text):
                return top
            if self.takes("["):
                table = self.header(top)
            else:
                self.pair(table, BLANK)
            self.skip(BLANK)
            if not ENDED.match(self.text, self.at):
                raise TextFault(self.at, "this line goes on where it must end")


def text_of(octets: bytes) -> str:
    """The text in which places are counted."""
    return octets.decode(errors="replace").removeprefix("\ufeff")


@functools.lru_cache(1)
def read(octets: bytes) -> PlacedValue:
    """The table at the top of a document; a fault if the text is not one."""
    try:
        octets.decode()
    except UnicodeDecodeError as wrong:
        raise TextFault(
            len(text_of(octets[: wrong.start])), f"octet {octets[wrong.start]:02x} is not UTF-8 text"
        ) from None
    return DocumentReader(text_of(octets)).document()


def plain(it: PlacedValue) -> Any:
    """A value without its place."""
    if isinstance(it.is_, dict):
        return {name: plain(each) for name, each in it.is_.items()}
    return [plain(each) for each in it.is_] if isinstance(it.is_, list) else it.is_
