"""The cells that a log names, for `explain` where the user names none: a PCI and an EARFCN-DL, in one line or in
different ones."""
from __future__ import annotations

import re
from collections.abc import Iterable

from ..captures.cells import Site, is_cell

MOST = 16  # cells that are taken of a log
IS = r"\s*(?:[=:]|is)?\s*[\"'<(]?(0x[0-9a-f]+|[0-9]+)\b"
PCI = re.compile(
    r"(?<![a-z0-9])(?:n[ _-]?|target[ _-]?|source[ _-]?|dl[ _-]?)?(?:pci|n_id_cell|phys(?:ical)?[ _-]?cell[ "
    r"_-]?id(?:entity)?)[\"']?" + IS,
    re.IGNORECASE,
)
EARFCN = re.compile(
    r"(?<![a-z0-9])(?:target[ _-]?|source[ _-]?)?(?:(?:dl[ _-]?)?earfcn(?:[ _-]?dl)?|dl[ _-]?carrier[ _-]?freq)[\"']?"
    + IS,
    re.IGNORECASE,
)


def number(text: str) -> int:
    return int(text, 16 if text.lower().startswith("0x") else 10)


def cells_of(lines: Iterable[str]) -> list[Site]:
    """The cells: each PCI of a line with its EARFCN; those of a line without the other with each one of the text."""
    pairs: dict[tuple[int, int], None] = {}
    alone: tuple[dict[int, None], dict[int, None]] = {}, {}
    for line in lines:
        pcis, earfcns = ([number(text) for text in form.findall(line)] for form in (PCI, EARFCN))
        if len(pcis) == len(earfcns):
            pairs |= dict.fromkeys(zip(pcis, earfcns))
        else:
            alone[0].update(dict.fromkeys(pcis))
            alone[1].update(dict.fromkeys(earfcns))
    known = ({pci for pci, _ in pairs}, {earfcn for _, earfcn in pairs})
    others = [(pci, earfcn) for pci in alone[0] if pci not in known[0] for earfcn in (*alone[1], *known[1])]
    found = [pair for pair in dict.fromkeys([*pairs, *others]) if is_cell(*pair)]
    return [Site((1 << 28) - 1 - place, *pair) for place, pair in enumerate(found[:MOST])]
