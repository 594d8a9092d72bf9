"""What a program takes: its seconds of processor and its peak memory, and, where valgrind or perf can count them, its
instructions.

The peak is that of the program alone, since bench/parent.c starts it; a C compiler has to be on the path, as cc.
"""
from __future__ import annotations

import atexit
import functools
import os
import re
import shutil
import subprocess
import sys
import tempfile
from collections.abc import Mapping, Sequence
from dataclasses import dataclass
from pathlib import Path

BENCH = Path(__file__).resolve().parent
TOP = BENCH.parent
PROGRAM = TOP / "crates" / "lte_sec_app" / "out" / "lte_sec_app"
# callgrind counts each turn of a string instruction as one instruction, so the C library is told to use none.
NO_STRING_INSTRUCTIONS = "glibc.cpu.x86_rep_stosb_threshold=1000000000:glibc.cpu.x86_rep_movsb_threshold=1000000000"


@dataclass(frozen=True)
class Used:
    seconds: float
    mebibytes: float
    printed: bytes


@functools.cache
def room() -> Path:
    """A folder with the small parent, which goes at the end."""
    folder = Path(tempfile.mkdtemp())
    atexit.register(shutil.rmtree, folder)
    if subprocess.run(["cc", "-O2", "-o", folder / "parent", BENCH / "parent.c"]).returncode:
        sys.exit("the small parent does not compile")
    return folder


def used(words: Sequence[object], text: str = "", environment: Mapping[str, str] | None = None) -> Used:
    """Runs a program over a text. This one ends where that does not end with 0."""
    told = room() / "told"
    with tempfile.TemporaryFile() as given, tempfile.TemporaryFile() as printed:
        given.write(text.encode())
        given.seek(0)
        parent = [str(room() / "parent"), str(told), *map(str, words)]
        subprocess.run(parent, stdin=given, stdout=printed, env=environment, check=True)
        status, seconds, kibibytes = told.read_text().split()
        if status != "0":
            sys.exit(f"{' '.join(map(str, words))} ended with status {status}")
        printed.seek(0)
        return Used(float(seconds), int(kibibytes) / 1024, printed.read())


def best(words: Sequence[object], text: str = "", tries: int = 3) -> Used:
    """The least seconds and the greatest peak of some runs, and what the first of them printed."""
    runs = [used(words, text) for _ in range(tries)]
    return Used(min(run.seconds for run in runs), max(run.mebibytes for run in runs), runs[0].printed)


def needs_proved() -> None:
    """Ends this program where the proved one is not built; the launcher says so."""
    if subprocess.run([TOP / "lte_sec", "--proved"]).returncode:
        sys.exit(1)


def taken(name: str = "lte_sec_app") -> Path:
    """The program of this name that the launcher takes, proved or not; it is built where it is not."""
    ran = subprocess.run(
        [TOP / "lte_sec", "--program", name], stdin=subprocess.DEVNULL, stdout=subprocess.PIPE, text=True
    )
    if ran.returncode:
        sys.exit(1)
    return Path(ran.stdout.split(None, 1)[1].strip())


def compiled(folder: str, name: str, *words: object) -> Path | None:
    """The program of bench/NAME.c, or None where a header that it includes is not installed."""
    program = Path(folder) / name
    ended = subprocess.run(
        ["gcc", "-O2", "-o", program, BENCH / f"{name}.c", *map(str, words)], stderr=subprocess.PIPE, text=True
    )
    if ended.returncode and "No such file" in ended.stderr:
        return None
    if ended.returncode:
        sys.exit(f"bench: gcc does not take bench/{name}.c: {ended.stderr.splitlines()[0]}")
    return program


@functools.cache
def counter() -> str | None:
    """What counts instructions here: valgrind, else perf where the processor lets it."""
    if shutil.which("valgrind"):
        return "valgrind"
    return "perf" if shutil.which("perf") and by_perf(["true"]) is not None else None


def by_perf(words: Sequence[object], text: str = "") -> int | None:
    """The instructions of a run, as the processor counts them; None where it does not."""
    counted = ["perf", "stat", "-x,", "-e", "instructions:u", *map(str, words)]
    ran = subprocess.run(counted, input=text.encode(), capture_output=True)
    found = re.search(rb"(?m)^(\d+),[^,]*,instructions", ran.stderr)
    return int(found[1]) if found else None


def instructions(words: Sequence[object], text: str = "") -> int | None:
    """The instructions of a run; None where nothing counts them."""
    if counter() != "valgrind":
        return by_perf(words, text) if counter() else None
    counted = ["valgrind", "--tool=callgrind", "--callgrind-out-file=/dev/null", *map(str, words)]
    environment = dict(os.environ, GLIBC_TUNABLES=NO_STRING_INSTRUCTIONS)
    ran = subprocess.run(counted, input=text.encode(), capture_output=True, env=environment, check=True)
    found = re.search(rb"Collected : (\d+)", ran.stderr)
    return int(found[1]) if found else None


def each(count: int | None, things: int) -> str:
    """The instructions of each of so many things, or a stroke where they were not counted."""
    return "-" if count is None else f"{count / things:,.0f}"
