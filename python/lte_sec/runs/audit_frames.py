"""`audit --frames` of the launcher: `PROGRAM < SCENARIO` prints the audit, and behind each row the frame at which its
key came into use.

The audit is the proved program's. The frame is that of the first step whose line tells the key, or the key above it, by
the remarks of the scenario.
"""
from __future__ import annotations

import re
import subprocess
import sys
from pathlib import Path

from ..common.inputs import of_input
from ..common.terms import TraceError
from .remarks import frames_of
from .run_report import StepLine, rows_of

REASONS = Path(__file__).resolve().parents[3] / "launcher" / "reasons"
REFUSED = 3


def frames_of_rows(report: str, frames: dict[int, str]) -> dict[int, str]:
    """The frame of each row of the ladder of a report: that of its key, else of the key above it."""
    lines = report.splitlines()
    first: dict[str, str] = {}
    for number, line in enumerate(map(StepLine.read, lines)):
        if line is not None and line.note is not None and number in frames:
            first.setdefault(line.note.key, frames[number])
    found: dict[int, str] = {}
    for row in rows_of(lines).values():
        frame = first.get(row.key, "" if row.parent is None else found.get(row.parent, ""))
        if frame:
            found[row.number] = frame
    return found


def main(words: list[str]) -> int:
    try:
        octets = of_input()
    except TraceError as fault:
        print(f"lte_sec: status {fault.status}: {fault}", file=sys.stderr)
        return fault.status
    audit, report = (
        subprocess.run([words[0], word], input=octets, stdout=subprocess.PIPE) for word in ("audit", "run")
    )
    rows = frames_of_rows(report.stdout.decode(), frames_of(octets.decode(errors="replace")))
    for line in audit.stdout.decode().splitlines():
        place = re.match(r"row (\d+) ", line)
        print(line + (f" [f{rows[int(place[1])]}]" if place and int(place[1]) in rows else ""))
    sys.stdout.flush()
    if audit.returncode == REFUSED:
        subprocess.run([sys.executable, str(REASONS), "text", words[0], "audit"], input=octets)
    return audit.returncode


if __name__ == "__main__":
    sys.exit(main(sys.argv[1:]))
