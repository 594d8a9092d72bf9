"""The verdict on a report of `run`, and what heals a phone: `./lte_sec verdict [--json] [--scenario FILE] < REPORT`.

All is read from the report: the notes of its steps, and the rows of its ladder, in which a KeNB* has its cell. Status 0
where all keys agree, 1 where keys differ, 3 where the report does not tell, where nothing was set up, and where the
text is no report of `run`.
"""
from __future__ import annotations

import dataclasses
import enum
import json
import sys

from ..common.inputs import MOST_MADE, of_file, of_input
from ..common.options import Words, WrongWords
from ..common.terms import TraceError
from .kenb_changes import NOT_MADE, KenbChange, NoReport, Outcome, Report, connected, items, read
from .remarks import frames_of, with_frames
from .scenarios import NoScenario
from .scenarios import read as read_scenario
from .waiting import remarks_of

VERSION = 1  # of the document that --json prints


class Healing(enum.Enum):
    """What leads back to one key where keys differ; the value is the steps of a scenario that do it."""

    RECONNECTION = ("idle", "service", "deliver", "connect", "deliver", "deliver", "deliver")
    AUTHENTICATION = ("auth", "smc", "deliver", "deliver", *RECONNECTION)

    def __str__(self) -> str:
        more = (
            ", with a new KASME"
            if self == Healing.AUTHENTICATION
            else ", if the core's window has the phone's next NAS COUNT"
        )
        return f"{len(self.value)} steps give one key again{more}: {', '.join(self.value)}"


def healing(report: Report, found: list[KenbChange]) -> Healing | int | None:
    """What gives one key again behind the last of the changes whose keys differ, or the step at which a later
    connection did. A reconnection is enough where the core last made a key from the KASME that the phone uses: the
    phone takes a NAS context before the core does.
    """
    parted = [item.last for item in found if item.outcome == Outcome.DIFFER]
    if not parted:
        return None
    kenbs = [note for note in report.notes() if report.row(note).word == "kenb"]
    given = {note.key for note in kenbs if note.station is not None}
    later = [note.number for note in kenbs if note.who == "phone" and note.number > parted[-1] and note.key in given]
    if later:
        return later[0]
    made = [report.row(note).root for note in kenbs if note.who.startswith("core")]
    used = [row.root for row in report.rows.values() if row.is_nas_of_phone]
    return Healing.RECONNECTION if made and used and made[-1] == used[-1] else Healing.AUTHENTICATION


@dataclasses.dataclass(frozen=True)
class JudgedReport:
    """All that is told of a report: each handover and key change, what heals it where keys differ, the last line, and
    the status."""

    items: list[KenbChange]
    last: str
    status: int
    heals: Healing | int | None = None
    frames: dict[int, str] = dataclasses.field(default_factory=dict)  # of the steps, where the scenario has them
    remarks: list[str] = dataclasses.field(
        default_factory=list
    )  # where the scenario does what the standard has otherwise

    def lines(self) -> list[str]:
        told = [with_frames(str(item), self.frames) for item in self.items]
        healed = (
            f"step {self.heals}: a connection gives one key again" if isinstance(self.heals, int) else str(self.heals)
        )
        remarks = [f"remark: {with_frames(remark, self.frames)}" for remark in self.remarks]
        return [
            *remarks,
            *told,
            *([] if told else ["no handover and no key change"]),
            *([healed] if self.heals else []),
            self.last,
        ]

    def document(self) -> dict[str, object]:
        """The document that --json prints."""
        told = [
            dataclasses.asdict(item)
            | {"outcome": item.outcome.value, "cell": [int(part) for part in item.cell.split(",") if part]}
            | (
                {"first_frame": self.frames.get(item.first), "last_frame": self.frames.get(item.last)}
                if self.frames
                else {}
            )
            for item in self.items
        ]
        heals, healed = (
            (None, self.heals) if isinstance(self.heals, int) else (self.heals and list(self.heals.value), None)
        )
        return {
            "version": VERSION,
            "items": told,
            "remarks": self.remarks,
            "heals": heals,
            "healed": healed,
            "verdict": self.last,
            "status": self.status,
        }


def judged(text: str) -> JudgedReport:
    """What is told of the text of a report."""
    report = read(text)
    found, is_set_up = items(report), connected(report)
    outcomes = [item.outcome for item in found]
    if Outcome.DIFFER in outcomes or is_set_up is False:
        return JudgedReport(found, "keys differ", 1, healing(report, found))
    if Outcome.NOT_TOLD in outcomes:
        return JudgedReport(found, "not all is told", 3)
    if is_set_up is None:
        return JudgedReport(found, "nothing to judge", 3)
    count = sum(outcome in NOT_MADE for outcome in outcomes)
    return JudgedReport(found, f"all agree; {count} of {len(found)} not made" if count else "all agree", 0)


def text_of(octets: bytes) -> str:
    """The text of a report."""
    try:
        return octets.decode()
    except UnicodeDecodeError as fault:
        line = octets[: fault.start].count(b"\n") + 1
        raise NoReport(
            f"it is no text, since octet {octets[fault.start]:02x} in line {line} is "
            "not UTF-8; ./lte_sec run writes a report"
        ) from None


def main(words: list[str]) -> int:
    """Options: --json, and --scenario FILE, whose remarks name the frames of its steps, and which tells where the
    report is of what the standard has otherwise."""
    given = Words.read("verdict", words)
    file = given.last("--scenario")
    if len(given.files) > 1:
        raise WrongWords("verdict takes one FILE")
    try:
        text = of_file(file, "the scenario").decode(errors="replace") if file else ""
        scenario = read_scenario(text.encode()) if file else None
        report = text_of(of_file(given.files[0], most=MOST_MADE) if given.files else of_input(MOST_MADE))
        remarks = remarks_of(scenario, report) if scenario else []
        verdict = dataclasses.replace(judged(report), frames=frames_of(text), remarks=remarks)
    except NoScenario as fault:
        print(f"lte_sec: status 2: the scenario {file} cannot be read: {fault}", file=sys.stderr)
        return 2
    except TraceError as fault:
        print(f"lte_sec: status {fault.status}: {fault}", file=sys.stderr)
        return fault.status
    except NoReport as wrong:
        print(f"lte_sec: this is not a report of run: {wrong}", file=sys.stderr)
        return 3
    print(json.dumps(verdict.document(), indent=1) if given.has("--json") else "\n".join(verdict.lines()))
    return verdict.status


if __name__ == "__main__":
    sys.exit(main(sys.argv[1:]))
