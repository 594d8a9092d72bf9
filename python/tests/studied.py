"""The proved program and its variants, asked as the tests of what-if ask them."""
from __future__ import annotations

import contextlib
import io
import subprocess
import unittest
from functools import lru_cache
from pathlib import Path

from lte_sec.runs import scenarios
from lte_sec.whatif import what_if_word as what_if
from lte_sec.whatif.variant_lists import Listed, Lists
from lte_sec.runs.courses import Course
from lte_sec.whatif.outcomes import signature
from lte_sec.whatif.study import Study
from lte_sec.runs.variants import KINDS

TOP = Path(__file__).resolve().parents[2]
EXAMPLES = TOP / "examples"


@lru_cache(maxsize=None)
def program(name: str) -> str:
    told = subprocess.run([TOP / "lte_sec", "--program", name], capture_output=True, text=True)
    if told.returncode:
        raise unittest.SkipTest(f"the program {name} is not built: {told.stderr.strip()}")
    return told.stdout.split()[1]


def programs() -> None:
    """Asks for both programs: where one is not built, the tests of a module that begins so are skipped."""
    program("lte_sec_app")
    program("lte_variants")


def octets(name: str) -> bytes:
    return (EXAMPLES / f"{name}.toml").read_bytes()


@lru_cache(maxsize=None)
def study(name: str, follows: bool = False) -> Study:
    return Study(program("lte_sec_app"), scenarios.read(octets(name)), follows)


def listed(scenario: bytes, *kinds: str, packets: bool = False) -> list[Listed]:
    """The variants of one fault of these kinds, as the program lists them."""
    return list(Lists(program("lte_variants"), scenario, kinds or KINDS, packets).all(1, None, 1))


def launched(*words: object, given: bytes = b"") -> subprocess.CompletedProcess[bytes]:
    return subprocess.run([TOP / "lte_sec", "what-if", *map(str, words)], input=given, capture_output=True)


def called(*words: object) -> tuple[int, str, str]:
    """The status, the output and what is said of a call in this process."""
    out, err = io.StringIO(), io.StringIO()
    with contextlib.redirect_stdout(out), contextlib.redirect_stderr(err):
        status = what_if.main([program("lte_sec_app"), program("lte_variants"), *map(str, words)])
    return status, out.getvalue(), err.getvalue()


def told(course: Course) -> dict[str, object]:
    """What each line of a course says, by its item."""
    return {name: signature(line) for name, line in course.lines.items()}
