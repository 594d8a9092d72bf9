"""The lines of a report, each with its frame, its verdict and its causes. A text is made of these where it is told."""
from __future__ import annotations

from collections import Counter
from collections.abc import Collection, Iterable
from dataclasses import dataclass, field
from enum import Enum
from typing import Protocol

from .causes import Cause, Reason, Why, every, told
from .escaped import shown
from .terms import Key


class Verdict(str, Enum):
    """What a line says. A note judges nothing; a warning is one."""

    RIGHT = "right"
    DIFFERS = "differs"
    UNKNOWN = "not judged"
    NOTE = "note"


RIGHT, DIFFERS, UNKNOWN, NOTE = Verdict.RIGHT, Verdict.DIFFERS, Verdict.UNKNOWN, Verdict.NOTE
KEYS = ("KeNB", "KeNB*", "NH")


@dataclass(frozen=True)
class NasPart:
    """What a line says of a NAS message beside its MAC: direction, header type and name, and the context that it stands
    under."""

    is_up: bool
    header: int
    name: str
    ksi: int | None = None
    eea: int | None = None
    eia: int | None = None
    kasme: int = -1  # its place among those given


@dataclass
class Line:
    """What is judged in a message of a frame: `kind` is KeNB, KeNB*, NH, MAC, command, agreement, capabilities .., and
    `of` the cell for which the message prepares it. What was found and wanted stands as derivation (of a key) or
    octets, and as octets alone in `hex` and `wanted_hex`.
    """

    frame: str
    message: str
    kind: str
    verdict: Verdict
    said: Why = ()  # of the value itself
    faults: Why = ()  # beside it
    remarks: Why = ()
    doubt: Why = ()  # why what differs is not judged after all
    subject: str | None = None  # what stands before this in the text: None is the message
    behind: str = ""  # and what stands behind it
    of: str = ""
    found: str = ""
    wanted: str = ""
    hex: str = ""
    wanted_hex: str = ""
    base: str = ""
    kasme: str = ""
    ncc: int | None = None
    wanted_ncc: int | None = None
    count: int | None = None
    plain: bytes | None = None
    cell: tuple[int, int] | None = None  # PCI and EARFCN-DL
    nas: NasPart | None = None
    place: int | None = None  # of its message in the trace
    key: Key | None = field(default=None, repr=False)
    wanted_key: Key | None = field(default=None, repr=False)

    @property
    def what(self) -> str:
        """What is judged, with the cell that it is for."""
        return f"{self.kind} {self.of}".rstrip()

    @property
    def reasons(self) -> Why:
        """Why the verdict is as it is, beside what it says of the value itself."""
        return self.doubt or (self.said if self.verdict == NOTE else (*self.faults, *self.remarks))

    @property
    def causes(self) -> list[Reason]:
        """All that it says, each cause with its values."""
        return list(every((*self.said, *self.faults, *self.remarks, *self.doubt)))

    @property
    def reason(self) -> str:
        return shown(told(self.reasons))

    @property
    def clause(self) -> str:
        """The clauses that forbid what differs; of other lines nothing."""
        if self.verdict != DIFFERS:
            return ""
        return ", ".join(dict.fromkeys(one.clause for one in every((*self.said, *self.faults)) if one.clause))

    @property
    def text(self) -> str:
        return f"frame {shown(self.frame)} {self.words}"

    @property
    def words(self) -> str:
        """The text behind the frame."""
        inner = [one for part in self.said for one in part.all()]
        faults, remarks = (tuple(one for one in why if one not in inner) for why in (self.faults, self.remarks))
        text = told((*self.said, *faults), bool(self.doubt)) + (
            f" ({told(remarks, bool(self.doubt))})" if remarks else ""
        )
        parts = [
            self.message if self.subject is None else self.subject,
            text,
            self.behind,
            f"({told(self.doubt)})" if self.doubt else "",
        ]
        return shown(" ".join(filter(None, parts)))

    def __str__(self) -> str:
        return self.text


class HasVerdict(Protocol):
    """What has a verdict."""

    @property
    def verdict(self) -> Verdict:
        ...


def status(lines: Iterable[HasVerdict]) -> int:
    """0: all agree. 1: something differs. 3: something could not be judged, or there is nothing to judge."""
    return status_of({line.verdict for line in lines})


def status_of(verdicts: Collection[Verdict]) -> int:
    """The status of what has these verdicts."""
    verdicts = set(verdicts)
    if not verdicts - {NOTE}:
        return 3
    return 1 if DIFFERS in verdicts else 3 if UNKNOWN in verdicts else 0


def counts(lines: Iterable[HasVerdict]) -> dict[str, int]:
    """How many lines have each verdict."""
    return counted(Counter(line.verdict for line in lines))


def counted(found: Counter[Verdict]) -> dict[str, int]:
    return {verdict.value: found[verdict] for verdict in (RIGHT, DIFFERS, UNKNOWN)}


def summary(found: Counter[Verdict]) -> str:
    """The last line of a report, of how many lines have each verdict."""
    return ", ".join(f"{number} {verdict}" for verdict, number in counted(found).items())


def of_key(what: str, found: str, wanted: str, differs: bool, ncc: tuple[int, int] | None, where: str) -> Why:
    """What is said of a key: what it is, what was wanted, and the NCC beside it as it is and as it was wanted. `where`
    is the clause of its message."""
    parts = (
        [Reason(Cause.KEY_DIFFERS, (("what", what), ("found", found), ("wanted", wanted)), where)] if differs else []
    )
    if ncc is not None and ncc[0] != ncc[1]:
        parts.append(Reason(Cause.NCC_DIFFERS, (("found", ncc[0]), ("wanted", ncc[1])), where))
    if not parts:
        return (
            Cause.KEY_RIGHT.because(what=what, found=found)
            if ncc is None
            else Cause.KEY_AND_NCC_RIGHT.because(what=what, found=found, ncc=ncc[0])
        )
    return tuple(parts) if differs else (*parts, Cause.KEY_IS.of(what=what, found=found))


def unknown_line(frame: str, message: str, kind: str, why: Why, found: str = "", of: str = "") -> Line:
    what = f"{kind} {of}".rstrip()
    said = (
        Cause.NOT_JUDGED_IS.because(what=what, found=found, why=why)
        if found
        else Cause.NOT_JUDGED.because(what=what, why=why)
    )
    return Line(frame, message, kind, UNKNOWN, said, remarks=why, of=of, found=found)


def withdrawn(line: Line, why: Why) -> None:
    """What differs is not judged after all."""
    line.verdict, line.doubt = UNKNOWN, why


def note_line(frame: str, why: Why) -> Line:
    return Line(frame, "", "", NOTE, why)
