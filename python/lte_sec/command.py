"""The command `lte-sec` that the wheel installs: the launcher's words that need none of the programs, those with
`wheel` in its table."""
from __future__ import annotations

import importlib
import importlib.metadata
import sys

from .common.options import WordRow, rows
from .common.terms import TraceError

WORDS = {row.name: row for row in rows() if row.wheel}


def version() -> str:
    from .library import proved

    return f"lte-sec {importlib.metadata.version('lte_sec')}, {'proved' if proved() else 'unproved'}"


def told(row: WordRow) -> str:
    """A word, and each of its options."""
    options = (f"\n        {name:<24} {does}" for name, does in row.below)
    return f"{row.name} {row.behind}   {row.does}{''.join(options)}"


def answer(given: list[str]) -> int:
    name, *rest = given or [""]
    if name in WORDS:
        module, *first = WORDS[name].by.split()
        status: int = importlib.import_module(f".{module}", __package__).main([*first, *rest])
        return status
    if given == ["--version"]:
        print(version())
    elif name in ("--help", "-h", "help"):
        last = "--version   prints the version, and whether the library is proved"
        print("the words are:", *map(told, WORDS.values()), last, sep="\n    ")
    elif name:
        raise TraceError(f"there is no word {name} here, but {', '.join(WORDS)}; the package seedspan has all words")
    else:
        raise TraceError(f"a word is wanted: {', '.join(WORDS)}")
    return 0


def main() -> int:
    try:
        return answer(sys.argv[1:])
    except TraceError as fault:
        print(f"lte_sec: status {fault.status}: {fault}", file=sys.stderr)
        return fault.status
