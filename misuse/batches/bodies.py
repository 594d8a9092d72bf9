"""The bodies that call std where no clause can see it: those that make evidence that memory was refused, and those of
std's network and host. No clause says that std was asked for what was wanted, and that its answer was handed on: so
each body is compared with a list."""
from __future__ import annotations

import pathlib
from collections.abc import Iterator

from batches.functions import STARTS, end_of, is_at

EVERY = (
    "growth",
    "toml_text",
)  # the crates of which each function is in the list; of the others only those that it names


def bodies_of(crates: pathlib.Path, crate: str) -> dict[str, str]:
    """Each function of a crate that has a body, by its file and name, with its lines in one."""
    source = crates / crate / "src"
    found: dict[str, str] = {}
    for file in sorted(source.rglob("*.rt")):
        for name, body in bodies_in(file.read_text().split("\n")):
            key = f"{crate}/{file.relative_to(source)} {name}"
            found[key] = f"{found[key]} | {body}" if key in found else body
    return found


def bodies_in(lines: list[str]) -> Iterator[tuple[str, str]]:
    """The functions in these lines of a file that is laid out, with their bodies."""
    for at, line in enumerate(lines):
        starts = STARTS.match(line)
        if starts and line.endswith("}"):
            yield starts[2], line.partition("{")[2].removesuffix("}").strip()
        elif starts:
            opens = opening(lines, at, starts[1])
            if opens:
                yield starts[2], " ".join(it.strip() for it in lines[opens + 1 : end_of(lines, at, starts[1])])


def opening(lines: list[str], at: int, indent: str) -> int | None:
    """The line that opens the body of the function that begins there: none where it is only declared."""
    for it in range(at, len(lines)):
        if is_at(lines[it], indent) and lines[it].endswith("{"):
            return it
        if lines[it].endswith(";"):
            return None
    return None


def read_list(text: str) -> dict[str, str]:
    """The list, by file and name. A line that begins with # is a comment."""
    lines = [it.partition(": ") for it in text.split("\n") if it and not it.startswith("#")]
    return {name: body for name, _, body in lines}


def differences(crates: pathlib.Path, listed: dict[str, str]) -> list[str]:
    """The functions whose bodies are not those of the list, and those that are in one of both alone."""
    found: dict[str, str] = {}
    for crate in sorted({*EVERY, *(it.partition("/")[0] for it in listed)}):
        here = bodies_of(crates, crate)
        found |= here if crate in EVERY else {name: body for name, body in here.items() if name in listed}
    return sorted(name for name in {*found, *listed} if found.get(name) != listed.get(name))
