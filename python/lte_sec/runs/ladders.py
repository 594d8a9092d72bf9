"""The rows of the ladder of a report of `run` in words: what each is, what it is derived from, and who has held it. SVG
and pages are made of them."""
from __future__ import annotations

from collections.abc import Iterable, Sequence

from .run_report import LadderRow

NAMES = {1: "NAS encryption", 2: "NAS integrity", 3: "RRC encryption", 4: "RRC integrity", 5: "user plane encryption"}
INTEGRITY = (2, 4)
KINDS = {"root": "KASME", "kenb": "KeNB", "star": "KeNB*", "nh": "NH"}
CLAUSES = {"kenb": "TS 33.401 A.3", "nh": "TS 33.401 A.4", "star": "TS 33.401 A.5", "alg": "TS 33.401 A.7"}
HOLDERS = {"P": "phone", "C": "core", "S": "station "}


def kind_of(row: LadderRow) -> str:
    """What it is, in a word or two."""
    return algorithm(row.values) if row.word == "alg" else KINDS[row.word]


def inputs_of(row: LadderRow) -> dict[str, str]:
    """The inputs of its derivation, by name."""
    told = list(map(str, row.values))
    if row.word == "kenb":
        return {"uplink NAS COUNT": told[1]}
    if row.word == "nh":
        return {"key": f"row {told[0]}", "SYNC-input": f"row {told[1]}"}
    if row.word == "star":
        return {"PCI": told[1], "EARFCN-DL": told[2]}
    return {"algorithm type": told[1], "identity": told[2]} if row.word == "alg" else {}


def holder_of(mark: str) -> str:
    """A holder in words."""
    return HOLDERS[mark[0]] + mark[1:]


def held_by(row: LadderRow) -> str:
    """Who has held it, in words."""
    return ", ".join(map(holder_of, row.holders))


def algorithm(values: Sequence[int]) -> str:
    """The name of the key of an algorithm, with that."""
    return f"{NAMES[values[1]]}, {'EIA' if values[1] in INTEGRITY else 'EEA'}{values[2]}"


def title_of(row: LadderRow, chain: int) -> str:
    """A row in words; `chain` is the number of the NH that its key comes of."""
    if row.word == "root":
        return "KASME"
    if row.word == "kenb":
        return f"KeNB, uplink NAS COUNT {row.values[1]}"
    if row.word == "nh":
        return f"NH {chain}, NCC {chain % 8}"
    return f"KeNB*, PCI {row.values[1]}, EARFCN {row.values[2]}"


def names_of(rows: Iterable[LadderRow]) -> dict[str, str]:
    """Of each key its kind and its row."""
    return {row.key: f"{KINDS.get(row.word, row.word)} {row.number}" for row in rows}
