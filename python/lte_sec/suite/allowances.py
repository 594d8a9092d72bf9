"""The rows in which a product may answer otherwise, by what it has chosen: the groups of `examples/suite/may-differ`,
or of a file of one's own (docs/SUITE.md)."""
from __future__ import annotations

import pathlib
from typing import NamedTuple

from ..common.options import WrongWords
from .play import Result
from .rows import Visit

FILE = pathlib.Path(__file__).resolve().parents[3] / "examples" / "suite" / "may-differ"
BEHIND = " behind "


class Allowed(NamedTuple):
    """Rows that may differ, by one name or its beginning and `*`; only behind such rows of the same actor and scenario,
    where `behind` names them; and the group."""

    row: str
    behind: str
    group: str

    def has(self, result: Result) -> bool:
        return is_named(result.visit, self.row) and (
            not self.behind or any(is_named(visit, self.behind) for visit in result.behind)
        )


def is_named(visit: Visit, line: str) -> bool:
    return str(visit).startswith(line[:-1]) if line.endswith("*") else str(visit) == line


def read(text: str) -> list[Allowed]:
    """The lines of a file: a row in a line, as the report has it, below the `[group]` that it is of; what stands behind
    # is comment."""
    found, group = [], ""
    for line in (" ".join(line.split("#")[0].split()) for line in text.splitlines()):
        if line.startswith("["):
            group = line.strip("[]")
        elif line:
            row, _, behind = line.partition(BEHIND)
            found.append(Allowed(row, behind, group))
    return found


def of_word(word: str) -> list[Allowed]:
    """What a value of `--allow` allows: a group of `examples/suite/may-differ`, or all of a file."""
    usual = read(FILE.read_text(encoding="utf-8"))
    groups = list(dict.fromkeys(each.group for each in usual))
    if word in groups:
        return [each for each in usual if each.group == word]
    try:
        return read(pathlib.Path(word).read_text(encoding="utf-8"))
    except (OSError, UnicodeDecodeError) as why:
        reason = getattr(why, "strerror", None) or why
        raise WrongWords(
            f"--allow: {word} is no group of examples/suite/may-differ ({', '.join(groups)}), and the file cannot be "
            f"read: {reason}"
        ) from None


def group_of(result: Result, allowed: list[Allowed]) -> str | None:
    """The group by which a row may differ, which has no name where its file has none; None where it may not."""
    return next((each.group for each in allowed if each.has(result)), None)
