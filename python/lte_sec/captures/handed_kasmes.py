"""KASMEs that a capture itself has: those that a home network answers over S6a, and those that a core hands on over
GTPv2-C."""
from __future__ import annotations

from ..common.causes import Cause
from ..common.report import Line, note_line
from ..common.terms import Kasme, name_apart
from .decoding import Message, title

LINKS = {"S6a": "s6a", "GTPv2": "gtp"}


class Handed:
    """The KASMEs of the messages that were not given, named by link, frame and place, and a line for each message with
    some."""

    def __init__(self, given: list[Kasme]):
        self.known = {one.value: one.name for one in given}
        self.found: list[Kasme] = []
        self.lines: list[Line] = []

    def take(self, message: Message) -> None:
        names = []
        for place, value in enumerate(message.kasmes, 1):
            if value not in self.known:
                name = f"{LINKS[message.link]}-{message.frame.replace(' ', '-')}" + (
                    f".{place}" if len(message.kasmes) > 1 else ""
                )
                self.known[value] = name_apart(name, self.known.values())
                self.found.append(Kasme(self.known[value], value))
            names.append(self.known[value])
        if names:
            has = Cause.HAS_KASMES if len(names) > 1 else Cause.HAS_KASME
            self.lines.append(note_line(message.frame, has.because(message=title(message), names=", ".join(names))))
