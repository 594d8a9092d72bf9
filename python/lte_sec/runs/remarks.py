"""The frames of the steps of a scenario, by its remarks: `# frame 28: X2 HandoverRequest` stands above the steps of a
message.

A remark is of all steps below it, up to the next one or an empty line. `replay` writes them, and whoever writes a
scenario of a capture by hand may.
"""
from __future__ import annotations

import re
from collections.abc import Mapping

REMARK = re.compile(r"\s*# frame (\S+): (.*)")
STEP = re.compile(r"""(?:^|[\s{,])["']?do["']?\s*=""")
STRING = re.compile(r"""("(?:[^"\\]|\\.)*"|'[^']*')(\s*=)?""")
NUMBERED = re.compile(r"\b(steps? )(\d+(?:(?:, | to | and )\d+)*)")


def frames_of(text: str) -> dict[int, str]:
    """The frame of each step that has one."""
    found: dict[int, str] = {}
    step, frame = 0, ""
    for line in text.splitlines():
        remark = REMARK.match(line)
        if remark or not line.strip():
            frame = remark[1] if remark else ""
        for _ in STEP.findall(STRING.sub(lambda found: found[0] if found[2] else '""', line).partition("#")[0]):
            if frame:
                found[step] = frame
            step += 1
    return found


def named(step: int | str, frames: Mapping[int, str]) -> str:
    """A step with its frame, as 20[f31]."""
    return f"{step}[f{frames[int(step)]}]" if int(step) in frames else str(step)


def with_frames(text: str, frames: Mapping[int, str]) -> str:
    """A text in which each step that it names has its frame."""
    return (
        NUMBERED.sub(
            lambda found: found[1] + re.sub(r"\d+", lambda one: named(str(one[0]), frames), str(found[2])), text
        )
        if frames
        else text
    )
