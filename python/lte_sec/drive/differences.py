"""What `drive` says of a reply that differs: the step, the actor, what differs, and the mistake by which it does."""
from __future__ import annotations

import dataclasses
import re
from collections.abc import Sequence

from . import frames, reply_mistakes as mistakes, records
from lte_sec.runs import scenarios

DIFFERS = re.compile(rb"(setup|[0-9]+) differs ([0-9a-f]+) ([0-9a-f]+)\n")


def place_of(step: int | None) -> str:
    return "setup" if step is None else f"step {step}"


INITIAL, CHAINED = (frames.WAYS.index(way) for way in ("initial", "chained"))
STANDARD = (
    "this core may send the pair of NCC 2 first, as TS 33.401 7.2.8.1.1 has it: then write first_ncc = 2 in [core]"
)


def is_one_ahead(wanted: bytes, got: bytes) -> bool:
    """Whether a core gave NCC 2 where NCC 1 is wanted, or derived one key more as a chain begins."""
    try:
        want, have = (frames.read_reply(frames.unframed(octets)) for octets in (wanted, got))
    except frames.BadFrame:
        return False
    if not want.note or not have.note or want.note.way != have.note.way:
        return False
    if want.note.way == CHAINED:
        return (want.note.ncc, have.note.ncc) == (1, 2)
    return want.note.way == INITIAL and have.derived[:-1] == want.derived


@dataclasses.dataclass(frozen=True)
class Difference:
    """A reply that differs: the step, None for the setup, the actor, and what differs, a line for each part."""

    step: int | None
    actor: str
    told: list[str]

    def lines(self) -> list[str]:
        return [f"{place_of(self.step)}, {self.actor}: {part}" for part in self.told]


def steps_of(scenario: bytes) -> list[scenarios.Step]:
    try:
        return scenarios.read(scenario).steps
    except (scenarios.NoScenario, UnicodeDecodeError):
        return []


def commanded(steps: Sequence[scenarios.Step], lines: Sequence[bytes], place: int) -> list[int] | None:
    """The cell of the handover command that this step delivers: that of the last handover that its station began."""
    made = [number for number, line in enumerate(lines[:place]) if b" sent=" in line]
    record = steps[place].get("record") if place < len(steps) else None
    if not isinstance(record, int) or not -len(made) <= record < len(made):
        return None
    maker = steps[made[record]]
    begun = [
        step
        for step, line in zip(steps[: made[record]], lines)
        if step["do"] in ("x2", "s1", "intra") and b" done" in line and step["station"] == maker.get("station")
    ]
    cell: list[int] | None = begun[-1]["cell"] if maker["do"] == "command" and begun else None
    return cell


def replies_of(line: bytes, rest: bytes) -> tuple[int | None, bytes, bytes] | None:
    """The step, None for the setup, the wanted reply and the one that came, of a last line that tells them: the reply
    is read as far as its length says."""
    form = DIFFERS.fullmatch(line)
    if not form:
        return None
    wanted, got = bytes.fromhex(form[2].decode()), bytes.fromhex(form[3].decode())
    if len(got) == 2:
        got += rest[: int.from_bytes(got, "big")]
    return None if form[1] == b"setup" else int(form[1]), wanted, got


def difference_of(
    line: bytes, whose: bytes, rest: bytes, steps: Sequence[scenarios.Step] = (), lines: Sequence[bytes] = ()
) -> Difference | None:
    """What the last line tells where a reply differs; the steps and the lines before tell the cell of a phone's
    KeNB*."""
    replies = replies_of(line, rest)
    if replies is None:
        return None
    step, wanted, got = replies
    cell = commanded(steps, lines, step) if step is not None and whose == b"phone" else None
    told = records.differences(wanted, got, whose.decode(), cell)
    hint = [STANDARD] if whose == b"core" and is_one_ahead(wanted, got) else []
    return Difference(step, whose.decode(), told + hint)


def with_mistake(found: Difference, line: bytes, rest: bytes, program: str, scenario: bytes) -> Difference:
    """The difference, with the mistake by which the first key that differs was made, or a MAC or a ciphered text."""
    replies = replies_of(line, rest)
    return (
        dataclasses.replace(
            found, told=[*found.told, *map(str, mistakes.of_reply(program, scenario, *replies, found.actor))]
        )
        if replies
        else found
    )
