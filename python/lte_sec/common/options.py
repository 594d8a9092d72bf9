"""The launcher's table of words, and the words of a call: its options, as the table has them, and the others.

A wheel, which has no launcher, has a copy of the table beside this module.
"""
from __future__ import annotations

from dataclasses import dataclass, field
from pathlib import Path
from typing import ClassVar, TypeVar

from .terms import TraceError

AnyWords = TypeVar("AnyWords", bound="Words")
HERE = Path(__file__).resolve().parents[1]
COPY, TABLE = HERE / "words.txt", HERE.parents[1] / "launcher" / "words"


class WrongWords(TraceError):
    """What is wrong with the words of a call."""


@dataclass
class WordRow:
    """A word of the launcher: what follows it, an example, what it does, who answers it, a program or a module with its
    first words, and whether the wheel has it; and its options and fixed arguments with what each does."""

    name: str
    behind: str
    example: str
    does: str
    by: str = ""
    wheel: str = ""
    below: list[tuple[str, str]] = field(default_factory=list, init=False)


def rows() -> list[WordRow]:
    """The table."""
    found: list[WordRow] = []
    for line in (COPY if COPY.exists() else TABLE).read_text(encoding="utf-8").splitlines():
        cells = [cell.strip() for cell in line.split("|")]
        if line.startswith(" "):
            found[-1].below.append((cells[0], cells[1]))
        elif not line.startswith("#"):
            found.append(WordRow(*cells))
    return found


def options_of(word: str) -> dict[str, bool]:
    """The options of a word, and whether each takes a value. What `FILE..` stands for are the other words."""
    (row,) = (row for row in rows() if row.name == word)
    named = (name.partition(" ") for name, _ in row.below if name.startswith("--"))
    return {name: value != "" and not value.endswith("..") for name, _, value in named}


@dataclass
class Words:
    """The words of a call: what was given of each option of the table, and the words that are none. Some words have
    texts of their own for what is wrong."""

    UNKNOWN: ClassVar[str] = "there is no option {option}; there are: {known}"
    WANTS: ClassVar[str] = "{option} wants a value"
    RANGE: ClassVar[str] = "{option} is 1 to {most}, and not '{text}'"

    options: dict[str, list[str]]
    others: list[str]

    @classmethod
    def read(cls: type[AnyWords], word: str, words: list[str]) -> AnyWords:
        """Reads options and other words in any order; a value stands in the same word behind `=`, or is the next
        word."""
        known = options_of(word)
        options, others, rest = {option: list[str]() for option in known}, list[str](), iter(words)
        for given in rest:
            option, equals, value = given.partition("=")
            if known.get(option):
                value = value if equals else next(rest, "")
                if not value:
                    raise WrongWords(cls.WANTS.format(option=option))
                options[option].append(value)
            elif given in known:
                options[given].append("")
            elif given.startswith("-"):
                raise WrongWords(cls.UNKNOWN.format(option=given, known=" ".join(known)))
            else:
                others.append(given)
        return cls(options, others)

    @property
    def files(self) -> list[Path]:
        """The words that are no options, as files."""
        return [Path(other) for other in self.others]

    def has(self, option: str) -> bool:
        return bool(self.options[option])

    def last(self, option: str, usual: str = "") -> str:
        """The value of an option, the last where it is given again."""
        return [usual, *self.options[option]][-1]

    def number(self, option: str, usual: int, most: int) -> int:
        return self.number_of(self.last(option, str(usual)), option, most)

    @classmethod
    def number_of(cls, text: str, option: str, most: int) -> int:
        """A number from 1 on."""
        if not text.isdecimal() or not text.isascii() or not 0 < int(text) <= most:
            raise WrongWords(cls.RANGE.format(option=option, most=most, text=text))
        return int(text)
