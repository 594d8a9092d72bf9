"""Why a reply of a driven actor is not the wanted one: those of `common.mistakes`, from the keys of the same scenario's
own run."""
from __future__ import annotations

import subprocess
from collections.abc import Iterator

from ..common import mistakes as reasons
from ..common.causes import Cause, Why
from ..common.derive import Calc, proved_calls
from ..common.pdu_mistakes import PartsWrong
from ..common.terms import TraceError
from ..runs import scenarios
from ..runs.ladders import kind_of
from ..runs.run_report import LadderRow, rows_of
from . import frames, records, seal_mistakes as unsealed
from .network import NoRecord
from .peers import PeerFault

STARRED = ("kenb", "nh", "star")  # rows of keys that a KeNB* is made of


def rows_by_run(program: str, scenario: bytes) -> dict[int, LadderRow]:
    """The rows of the ladder, by number, of the run of a scenario; none where it does not end."""
    ran = subprocess.run([program, "run"], input=scenario, stdout=subprocess.PIPE, stderr=subprocess.DEVNULL)
    return (
        {row.number: row for row in rows_of(ran.stdout.decode(errors="replace").splitlines()).values()}
        if ran.returncode == 0
        else {}
    )


def of_key(rows: dict[int, LadderRow], row: LadderRow, value: bytes) -> Why:
    """The mistake by which these octets stand in the place of this row's key, or nothing."""
    above = bytes.fromhex(rows[row.parent].key) if row.parent is not None else b""
    numbers = row.values[1:]
    if row.word == "kenb":
        return reasons.kenb(value, above, numbers[0])
    if row.word == "nh":
        return reasons.nh(value, above, bytes.fromhex(rows[numbers[0]].key))
    if row.word == "alg":
        found = reasons.algorithm(value, above, numbers[0], numbers[1])
    else:
        found = reasons.star(value, above, numbers[0], numbers[1]) if row.word == "star" else ()
    return found or next((why for why, made in of_another(rows, row) if made == value), ())


def of_another(rows: dict[int, LadderRow], row: LadderRow) -> Iterator[tuple[Why, bytes]]:
    """The same derivation of another key of the run; of a KeNB* also with another PCI or EARFCN-DL of the run."""
    stars = [one.values[1:] for one in rows.values() if one.word == "star"]
    inputs = (
        list(dict.fromkeys((pci, earfcn) for pci, _ in stars for _, earfcn in stars))
        if row.word == "star"
        else [(row.values[1], row.values[2])]
    )
    for key in rows.values():
        above = bytes.fromhex(key.key)
        made_of = (
            Cause.MADE_OF.because(kind=kind_of(key), found=key.number, wanted=row.parent)
            if key.number != row.parent
            else ()
        )
        for first, second in inputs if key.word in STARRED else ():
            given = Cause.FOR_CELL.because(pci=first, earfcn=second) if (first, second) != row.values[1:] else ()
            yield made_of + given, derived(row.word, above, first, second)


def derived(word: str, above: bytes, first: int, second: int) -> bytes:
    """KeNB* for a cell, or the key of an algorithm type and identity."""
    if word == "alg":
        return reasons.kdf(above, reasons.ALGORITHM, bytes([first]), bytes([second]))
    return reasons.kdf(
        above, reasons.STAR, first.to_bytes(2, "big"), second.to_bytes(2 if second < reasons.SMALLER else 3, "big")
    )


def of_reply(
    program: str, scenario: bytes, step: int | None, wanted: bytes, got: bytes, actor: str
) -> list[PartsWrong]:
    """The mistake of the first key of a reply that differs, or else of its record or its refusal: what stands behind a
    key is made of it."""
    try:
        want, have = (frames.read_reply(frames.unframed(octets)) for octets in (wanted, got))
    except frames.BadFrame:
        return []
    rows = rows_by_run(program, scenario)
    is_of_key = any(key != value for key, value in zip(want.derived, have.derived))
    return (
        of_keys(rows, want, have, actor.split()[0])
        if is_of_key
        else of_message(program, scenario, rows, step, want, have, actor)
    )


def of_keys(rows: dict[int, LadderRow], want: frames.Reply, have: frames.Reply, role: str) -> list[PartsWrong]:
    """The mistake of the first key that differs, by the name of that key."""
    names = records.derivation_names(role, want)
    by_key = {row.key: row for row in rows.values()}
    for place, (key, value) in enumerate(zip(want.derived, have.derived)):
        row = by_key.get(key.hex())
        if key != value:
            found = of_key(rows, row, value) if row else ()
            return [PartsWrong((names[place] if place < len(names) else "key",), found)] if found else []
    return []


def of_message(
    program: str,
    scenario: bytes,
    rows: dict[int, LadderRow],
    step: int | None,
    want: frames.Reply,
    have: frames.Reply,
    actor: str,
) -> list[PartsWrong]:
    """The mistake of a record, or of a refusal for its MAC."""
    if step is None or not rows or not unsealed.is_protected(want, have):
        return []
    calls = None
    try:
        whole, calls = scenarios.read(scenario), proved_calls()
        return unsealed.mistakes(calls, unsealed.ActorStep(program, rows, whole, step, actor), want, have)
    except (scenarios.NoScenario, TraceError, PeerFault, NoRecord, frames.BadFrame, LookupError, TypeError, ValueError):
        return []  # without a mistake the difference is told all the same
    finally:
        if isinstance(calls, Calc):
            calls.close()
