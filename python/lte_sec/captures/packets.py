"""The packets of what `tshark -T json` prints: each begins and ends in a line of its own, so that they are cut before
they are read."""
from __future__ import annotations

import json
import re
from collections.abc import Iterable, Iterator

from ..common.terms import TraceError
from .decoding import Pairs, is_tree

FIRST, LAST = "  {", "  }"  # lines in which a packet begins and ends
ENDS = re.compile("\n" + LAST)  # which is sought faster so than by `find`, as a packet is blanks for the most part
CHUNK = 1 << 16  # octets of what tshark prints that are read at once
READS = json.JSONDecoder(object_pairs_hook=list).decode


class Cutter:
    """Cuts packets from a text that comes in pieces."""

    def __init__(self, named: str):
        self.named = named
        self.text = ""  # what is left, from the start of a line on, or of a packet from the end of its first line on
        self.looked = 0  # where in it the end of a packet may begin
        self.inside = self.begun = self.ended = False

    def cut(self, piece: str, is_last: bool = False) -> Iterator[str]:
        """The packets that are whole with this piece."""
        text, at, mark = self.text + piece, 0, 0
        while True:
            ends = ENDS.search(text, max(at, self.looked)) if self.inside else None
            mark = at if not self.inside else -1 if ends is None else ends.start()
            end = text.find("\n", mark + self.inside) if mark >= 0 else -1
            if end < 0 and not (is_last and 0 <= mark < len(text)):
                break
            end = len(text) if end < 0 else end
            if self.inside:
                yield "{" + text[at:mark] + "\n}"
                self.inside, at = False, end + 1
            elif text.startswith(FIRST, at):
                self.inside, at = True, end
            else:
                self.between(text[at:end])
                at = end + 1
            self.looked = 0
        self.text, self.looked = text[at:], max(0, (mark if mark >= 0 else len(text) - len(LAST)) - at)

    def between(self, line: str) -> None:
        """What stands between packets: brackets and commas, each in a line of its own."""
        mark = line.strip()
        if mark not in ("[", "]", ",", "", "[]"):  # the last where nothing is there that it was asked for
            raise TraceError(f"{self.named} is not what tshark -T json prints: {mark[:40]}")
        self.begun |= mark in ("[", "[]")
        self.ended |= mark in ("]", "[]")


def cut(pieces: Iterable[str], named: str) -> Iterator[str]:
    """The texts of packets, one after the other."""
    cutter = Cutter(named)
    for piece in pieces:
        yield from cutter.cut(piece)
    yield from cutter.cut("", True)
    if not cutter.begun or not cutter.ended:
        raise TraceError(f"{named} is cut: what tshark -T json prints begins with [ and ends with ]; print it again")


def layers_of(text: str, named: str) -> Pairs:
    """The layers of a packet."""
    try:
        layers = member(member(READS(text), "_source"), "layers")
    except (json.JSONDecodeError, TypeError, ValueError):
        again = text.rfind("\n" + FIRST)  # a packet begins anew: what came before is none
        if again >= 0:
            return layers_of("{" + text[text.find("\n", again + 1) :], named)
        layers = None
    if not is_tree(layers):
        raise TraceError(f"{named} is not what tshark -T json prints: a packet without layers")
    return layers


def member(pairs: object, name: str) -> object:
    """The first member of this name."""
    return next((value for key, value in pairs if key == name), None) if is_tree(pairs) else None
