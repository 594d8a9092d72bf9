"""What `import lte_sec` has beside the proved calls: the launcher's words `check-trace`, `explain`, `run` and `what-if`
as functions, whose answers have types.

A function that cannot answer raises `TraceError`: why, in one line, with the status of the word as `.status`.
"""
from __future__ import annotations

import json
import os
import shutil
import subprocess
from collections.abc import Iterable, Mapping
from dataclasses import dataclass, field
from pathlib import Path
from typing import Any, Optional, Union

from .captures.cells import Cell, Cells, Site, is_cell
from .common.derive import TOP, proved_calls
from .common.report import Verdict, counts, status
from .common.terms import Derivations, TraceError, is_kasme, kasmes_of
from .judge import lawful
from .judge.reading import Said
from .traces.dumps import blocks
from .traces.explanation import Explanation, entry
from .traces.trace_document import lines
from .traces.trace_words import trace_of
from .whatif.outcomes import RANK

Text = Union[str, bytes, Path]  # a text itself, or the file that has it
KeyOctets = Union[str, bytes]  # 32 octets, or 64 hex digits
AnyCell = Union[Cell, Site]  # PCI and EARFCN-DL, or a cell with its E-UTRAN cell identity, by which captures name it


# Captures


@dataclass(frozen=True)
class TraceLine:
    """A line of `check-trace`: what was judged in a message of a frame, with the derivations that it is and was to be,
    and their octets in hex."""

    frame: str
    message: str
    what: str
    verdict: Verdict
    text: str
    found: str
    wanted: str
    found_hex: str
    wanted_hex: str
    reason: str
    clause: str
    connection: Optional[int]


@dataclass(frozen=True)
class JudgedTrace:
    """What `check-trace` says of a capture: what it has and has not, its lines, and the status of the word."""

    head: tuple[str, ...]
    lines: tuple[TraceLine, ...]
    status: int
    report: str

    @property
    def differing(self) -> tuple[TraceLine, ...]:
        """The lines of what is wrong."""
        return tuple(line for line in self.lines if line.verdict == Verdict.DIFFERS)

    @property
    def counts(self) -> dict[str, int]:
        """How many lines are right, differ, and are not judged."""
        return counts(self.lines)


def check_trace(
    captures: Union[Path, str, Iterable[Union[Path, str]]],
    kasmes: Iterable[KeyOctets],
    cells: Iterable[AnyCell] = (),
    covers: Iterable[str] = (),
    not_covers: Iterable[str] = (),
    dlts: Iterable[str] = (),
) -> JudgedTrace:
    """Judges each KeNB, KeNB* and NH and each protected NAS message of captures, of the phones with these KASMEs
    (docs/TRACES.md)."""
    files = [Path(captures)] if isinstance(captures, (str, Path)) else [Path(one) for one in captures]
    known = sites_of(cells)
    seen = lawful.confirmed(
        trace_of(files, hexes(kasmes), lambda: known, list(dlts), Said(tuple(covers), tuple(not_covers)))
    )
    found = tuple(
        TraceLine(
            one.frame,
            value.message,
            value.what,
            value.verdict,
            value.text,
            value.found,
            value.wanted,
            value.hex,
            value.wanted_hex,
            value.reason,
            value.clause,
            one.connection,
        )
        for one, value in seen.values()
    )
    return JudgedTrace(seen.head, found, status(found), "\n".join(lines(seen)) + "\n")


# Keys


@dataclass(frozen=True)
class KeyOrigin:
    """A key of a text: its line and octets, and the derivation that gives it, or the mistake by which it was made and
    the key that was to be."""

    line: int
    octets: bytes
    form: Optional[str]
    kasme: Optional[str]
    mistake: Optional[str]
    wanted: Optional[bytes]
    wanted_form: Optional[str]


def explain(
    text: str,
    kasmes: Iterable[KeyOctets],
    cells: Iterable[AnyCell] = (),
    most_counts: int = 300,
    depth: int = 16,
    far: bool = False,
) -> list[KeyOrigin]:
    """Names the derivation of each key in a text, as a log: NAS COUNTs up to `most_counts`, and so many steps of the
    chain of NH, are tried. Where no key of the text fits these KASMEs at first sight, the far search follows only if
    asked for."""
    derivations = Derivations(proved_calls(), kasmes_of(hexes(kasmes)))
    found = Explanation(derivations, sites_of(cells), most_counts, depth).find(blocks(text.splitlines()), far)
    return [origin(entry(derivations, one)) for one in found]


def origin(told: Mapping[str, Any]) -> KeyOrigin:
    wanted = told["wanted"] or {"hex": None, "form": None}
    octets = bytes.fromhex(wanted["hex"]) if wanted["hex"] else None
    return KeyOrigin(
        told["line"], bytes.fromhex(told["hex"]), told["form"], told["kasme"], told["mistake"], octets, wanted["form"]
    )


# Runs


@dataclass(frozen=True)
class RunStep:
    """A step: its actor, what came or was done, what came of it in words, and the answer, `done` or why not; the record
    that it sent, and the row of a key that its actor came by."""

    number: int
    actor: str
    message: str
    told: str
    answer: str
    sent: Optional[int]
    key: Optional[int]
    frame: Optional[str]


@dataclass(frozen=True)
class LadderKey:
    """A row of the ladder: its octets, what it is, the row that it comes from, by which clause and inputs, and who has
    held it."""

    row: int
    octets: bytes
    name: str
    above: Optional[int]
    clause: str
    inputs: dict[str, str]
    holders: tuple[str, ...]


@dataclass(frozen=True)
class Change:
    """A handover or a key change, its first and last step, and what became of it: `differs` where phone and station
    have different keys."""

    kind: str
    first: int
    last: int
    differs: bool
    text: str


@dataclass(frozen=True)
class ScenarioRun:
    """A run of a scenario by the proved program."""

    steps: tuple[RunStep, ...]
    keys: tuple[LadderKey, ...]
    changes: tuple[Change, ...]
    verdict: str
    coincidence: Optional[str]

    def key(self, row: int) -> LadderKey:
        return self.keys[row]


def run(scenario: Text) -> ScenarioRun:
    """Runs a scenario (docs/SCENARIOS.md) by the proved program."""
    told = asked(["run", "--json"], octets_of(scenario))
    steps = tuple(
        RunStep(
            int(one["f"]),
            one["actor"],
            one["m"],
            one.get("s", ""),
            one.get("answer", "done"),
            one.get("sent"),
            one.get("key"),
            one.get("frame"),
        )
        for one in told["steps"]
    )
    keys = tuple(
        LadderKey(
            row,
            bytes.fromhex(one["hex"]),
            one["title"],
            one["from"],
            one["by"],
            dict(one["in"]),
            tuple(one["who"].split(", ")) if one["who"] else (),
        )
        for row, one in enumerate(told["keys"])
    )
    changes = tuple(
        Change(one["kind"], one["first"], one["last"], one["v"] == "bad", one["text"])
        for one in told["verdicts"]["items"]
    )
    return ScenarioRun(steps, keys, changes, told["verdicts"]["last"], told["coincidence"])


# What if


@dataclass(frozen=True)
class MessageFault:
    """A fault: `lost`, `late`, `twice` or `again`, of the message that this step sends, and the step that it comes
    behind."""

    kind: str
    step: int
    message: str
    after: Optional[int]


@dataclass(frozen=True)
class TriedVariant:
    """A variant: its faults, each outcome with what it is about, where it is a limit of the profile, and what heals it:
    `reconnection` or `authentication`, and None where neither does or it is not told."""

    faults: tuple[MessageFault, ...]
    outcomes: dict[str, str]
    limits: tuple[str, ...]
    heals: str | None = None

    @property
    def worst(self) -> str:
        return max(self.outcomes, key=RANK.__getitem__)


@dataclass(frozen=True)
class WhatIf:
    """What becomes of a scenario under faults (docs/WHATIF.md): the variants of one fault and those of more that bring
    something new; how many variants of so many faults have which worst outcome; and what is wrong in the scenario
    without any fault."""

    variants: tuple[TriedVariant, ...]
    counts: dict[int, dict[str, int]]
    itself: tuple[str, ...] = field(default=())

    def having(self, outcome: str) -> tuple[TriedVariant, ...]:
        """The variants with this outcome, as `keys differ`."""
        return tuple(variant for variant in self.variants if outcome in variant.outcomes)


def what_if(
    scenario: Text, faults: int = 1, kinds: Iterable[str] = (), packets: bool = False, follow: bool = False
) -> WhatIf:
    """Tries a scenario with each message lost, late, twice or sent again, up to so many at once (1 to 3)."""
    few = ",".join(kinds)
    words = [
        "--faults",
        str(faults),
        *(["--kinds", few] if few else []),
        *(["--packets"] if packets else []),
        *(["--follow"] if follow else []),
    ]
    told = asked(["what-if", "--json", *words], octets_of(scenario))
    variants = tuple(
        TriedVariant(
            tuple(
                MessageFault(each["kind"], each["step"], each["message"], each.get("after")) for each in one["faults"]
            ),
            {each["is"]: each["what"] for each in one["outcomes"]},
            tuple(each["limit"] for each in one["outcomes"] if each["limit"]),
            (one["heals"] or {}).get("by"),
        )
        for one in told["variants"]
    )
    counted = {int(number): dict(words) for number, words in told["counts"].items()}
    return WhatIf(
        variants,
        counted,
        tuple(f"{one['is']} {'' if one['step'] is None else one['step']}".strip() for one in told["itself"]),
    )


# What they share


def hexes(kasmes: Iterable[KeyOctets]) -> list[str]:
    """Each KASME as 64 hex digits."""
    found = [
        one.hex() if isinstance(one, bytes) else one
        for one in ([kasmes] if isinstance(kasmes, (str, bytes)) else kasmes)
    ]
    for one in found:
        if not is_kasme(one):
            raise TraceError(f"a KASME is 32 octets, or 64 hex digits, and not {len(one)} of them")
    return found


def sites_of(cells: Iterable[AnyCell]) -> Cells:
    """The cells that are known; those without an identity have one that no station has."""
    sites = [one if isinstance(one, Site) else Site((1 << 28) - 1 - place, *one) for place, one in enumerate(cells)]
    for site in sites:
        if not is_cell(site.pci, site.earfcn):
            raise TraceError(f"a cell is PCI 0 to 503 and EARFCN-DL 0 to 262143, and not {site.pci} and {site.earfcn}")
    return Cells(sites)


def octets_of(scenario: Text) -> bytes:
    if not isinstance(scenario, Path):
        return scenario.encode() if isinstance(scenario, str) else scenario
    try:
        return scenario.read_bytes()
    except OSError as fault:
        raise TraceError(f"{scenario} cannot be read: {fault.strerror}") from None


class WordFails(TraceError):
    """Why a word of the launcher does not answer, with its status."""

    def __init__(self, why: str, status: int):
        super().__init__(why)
        self.status = status


def launcher() -> str:
    """The launcher, which knows its programs: as LTE_SEC_COMMAND names it, of this checkout or package, or on the
    path."""
    here = TOP / "lte_sec"
    found = os.environ.get("LTE_SEC_COMMAND") or (
        str(here) if (TOP / "launcher/words").exists() and here.exists() else shutil.which("lte_sec")
    )
    if not found:
        raise TraceError(
            "scenarios are run by programs that a wheel has not: install the package seedspan, or name its lte_sec "
            "in LTE_SEC_COMMAND"
        )
    return found


def asked(words: list[str], text: bytes) -> dict[str, Any]:
    """The document that the launcher prints for a text."""
    try:
        ran = subprocess.run([launcher(), *words], input=text, stdout=subprocess.PIPE, stderr=subprocess.PIPE)
        told: dict[str, Any] = json.loads(ran.stdout)
    except OSError as fault:
        raise TraceError(f"{launcher()} cannot be run: {fault.strerror}") from None
    except ValueError:
        raise WordFails(
            (ran.stderr.decode(errors="replace").strip().splitlines() or ["it says nothing"])[-1], ran.returncode
        ) from None
    if "error" in told:
        raise WordFails(told["error"], told["status"])
    return told
