"""The parts of one answer of `what-if` as files: what they have, and what is wrong with them, by the names of the
files."""
from __future__ import annotations

import json
import os
from pathlib import Path

from ..common.inputs import MOST_MADE, of_file
from ..common.options import WrongWords
from ..common.terms import TraceError
from .what_if_document import VERSION, Answer, from_json, merged, to_json

MOST_NAMED, BEGINS = 10, '{\n "version"'


class NoParts(TraceError):
    """Why files are not the parts of one answer."""


def write(file: Path, answer: Answer) -> None:
    """Writes an answer into a file, which is there only when it is whole."""
    new = file.with_name(f"{file.name}.{os.getpid()}.new")
    try:
        with open(new, "w", encoding="utf-8") as out:
            json.dump(to_json(answer), out, indent=1)
            out.write("\n")
            out.flush()
            os.fsync(out.fileno())
        os.replace(new, file)
    except OSError as fault:
        new.unlink(missing_ok=True)
        raise WrongWords(f"{file} cannot be written: {fault.strerror}") from None


def part_of(file: Path) -> Answer | str:
    """The part in a file, or what is wrong with it."""
    if not file.exists():
        return "is not there"
    try:
        text = of_file(file, most=MOST_MADE).decode(errors="replace")
    except TraceError as fault:
        return str(fault).removeprefix(f"{file} ")
    try:
        document = json.loads(text)
    except (ValueError, RecursionError):
        return "is cut" if text.startswith(BEGINS) or not text.strip() else "is not what --json writes"
    try:
        if document["version"] != VERSION:
            return f"is of version {document['version']}, and version {VERSION} is wanted"
        part = from_json(document)
    except (ValueError, LookupError, TypeError, AttributeError):
        return "is not what --json writes"
    return part if part.whole else "was interrupted"


def merged_of(files: list[Path]) -> Answer:
    """The whole of which these files have the parts. What is wrong is told of each file, and which parts are
    missing."""
    read = [(file, part_of(file)) for file in files]
    parts = [(file, part) for file, part in read if isinstance(part, Answer)]
    wrong = [f"{file} {part}" for file, part in read if isinstance(part, str)]
    if parts:
        first = parts[0][1]
        others = [file for file, part in parts if (part.tried, part.messages) != (first.tried, first.messages)]
        wrong += [f"{file} is of another scenario or other options than {parts[0][0]}" for file in others]
        parts = [(file, part) for file, part in parts if file not in others]
        wrong += missing(parts)
    if wrong:
        raise NoParts(
            "; ".join(wrong[:MOST_NAMED]) + (f"; and {len(wrong) - MOST_NAMED} more" if len(wrong) > MOST_NAMED else "")
        )
    return merged([part for _, part in parts])


def missing(parts: list[tuple[Path, Answer]]) -> list[str]:
    """Which parts of the whole are not there, or there more than once, or of another number of parts."""
    number = (parts[0][1].part or (1, 1))[1]
    wrong, have = [], dict[int, Path]()
    for file, part in parts:
        each, of = part.part or (1, 1)
        if of != number:
            wrong.append(f"{file} is part {each}/{of}, and {parts[0][0]} one of {number}")
        elif each in have:
            wrong.append(f"{file} is part {each}/{of}, as {have[each]} is")
        else:
            have[each] = file
    gone = [f"{each}/{number}" for each in range(1, number + 1) if each not in have]
    return wrong + (
        [f"missing: {', '.join(gone[:MOST_NAMED])}{' and more' if len(gone) > MOST_NAMED else ''}"] if gone else []
    )
