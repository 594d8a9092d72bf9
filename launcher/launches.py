"""A call of the launcher, for its tests, which find the package from here on."""
from __future__ import annotations

import pathlib
import subprocess
import sys

HERE = pathlib.Path(__file__).resolve().parent
TOP = HERE.parent
EXAMPLES = TOP / "examples"
sys.path.insert(0, str(TOP / "python"))


def launched(*words: str | pathlib.Path, given: bytes | None = None) -> subprocess.CompletedProcess[bytes]:
    call: list[str | pathlib.Path] = [TOP / "lte_sec", *words]
    if given is None:
        return subprocess.run(call, capture_output=True, stdin=subprocess.DEVNULL)
    return subprocess.run(call, capture_output=True, input=given)
