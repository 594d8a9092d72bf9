"""The messages of a trace in a file without a name, so that a long capture takes no more memory than a short one."""
from __future__ import annotations

import marshal
import os
import pickle
import tempfile
import weakref
from array import array
from collections import Counter
from collections.abc import Iterable, Iterator, Sequence
from dataclasses import fields
from operator import attrgetter
from typing import Union, overload

from ..common.terms import TraceError
from .decoding import Command, Message

RICH = ("reestablishment", "sites", "mm")  # fields that have objects of their own; most messages have none
PLAIN = tuple(one.name for one in fields(Message) if one.name not in (*RICH, "command"))
PLAIN_OF, RICH_OF, COMMAND_OF = (
    attrgetter(*PLAIN),
    attrgetter(*RICH),
    attrgetter(*(one.name for one in fields(Command))),
)
BLOCK = 1 << 16  # octets that are written or read at once


def packed(message: Message) -> bytes:
    command, rich = message.command, RICH_OF(message)
    return marshal.dumps(
        (PLAIN_OF(message), None if command is None else COMMAND_OF(command), pickle.dumps(rich) if any(rich) else None)
    )


def unpacked(octets: bytes | memoryview) -> Message:
    plain, command, rich = marshal.loads(octets)
    values = dict(zip(PLAIN, plain))
    values["command"] = None if command is None else Command(*command)
    values["reestablishment"], values["sites"], values["mm"] = pickle.loads(rich) if rich else ([], [], None)
    message = Message.__new__(Message)
    message.__dict__ = values
    return message


class Spool:
    """Octets in a file without a name, which is there as long as this is."""

    def __init__(self) -> None:
        self.file = tempfile.TemporaryFile(buffering=0)
        weakref.finalize(self, self.file.close)
        self.end = 0  # of what was put in
        self.waiting: list[bytes] = []  # what is not written yet
        self.written = 0  # where that begins
        self.block, self.at = memoryview(b""), 0  # what was read last, and where it stands

    def put(self, octets: bytes) -> int:
        """Puts octets behind all others; answers where they begin."""
        self.waiting.append(octets)
        self.end += len(octets)
        if self.end - self.written > BLOCK:
            self.flush()
        return self.end - len(octets)

    def flush(self) -> None:
        octets = memoryview(b"".join(self.waiting))
        self.waiting, self.written = [], self.end
        try:
            while octets:
                octets = octets[self.file.write(octets) :]
        except OSError as fault:
            raise TraceError(
                f"the messages of the capture cannot be written to a file in {tempfile.gettempdir()}: "
                f"{fault.strerror}; TMPDIR names another folder"
            ) from None

    def get(self, begin: int, size: int) -> memoryview:
        first = begin - self.at
        if first < 0 or first + size > len(self.block):
            if begin + size > self.written:
                self.flush()
            self.block, self.at, first = memoryview(os.pread(self.file.fileno(), max(BLOCK, size), begin)), begin, 0
        return self.block[first : first + size]


class Kept(Sequence[Message]):
    """Messages in their order. One that is taken out and changed is another: it is put back at its place."""

    def __init__(self, messages: Iterable[Message] = ()):
        self.spool = Spool()
        self.begins, self.sizes, self.times = array("q"), array("i"), array("d")
        self.links: Counter[str] = Counter()  # how many messages each link has
        for message in messages:
            self.append(message)

    def append(self, message: Message) -> None:
        octets = packed(message)
        self.begins.append(self.spool.put(octets))
        self.sizes.append(len(octets))
        self.times.append(message.time)
        self.links[message.link] += 1

    def __len__(self) -> int:
        return len(self.begins)

    @overload
    def __getitem__(self, place: int) -> Message:
        ...

    @overload
    def __getitem__(self, place: slice) -> list[Message]:
        ...

    def __getitem__(self, place: int | slice) -> Message | list[Message]:
        if isinstance(place, slice):
            return [self[one] for one in range(*place.indices(len(self)))]
        return unpacked(self.spool.get(self.begins[place], self.sizes[place]))

    def __setitem__(self, place: int, message: Message) -> None:
        octets = packed(message)
        self.begins[place], self.sizes[place], self.times[place] = self.spool.put(octets), len(octets), message.time

    def __iter__(self) -> Iterator[Message]:
        return map(self.__getitem__, range(len(self)))

    def only(self, places: Iterable[int]) -> Kept:
        """The messages at these places, in this order."""
        found = Kept()
        for place in places:
            found.append(self[place])
        return found

    def by_time(self) -> Kept:
        """The messages in the order of their times."""
        return self.only(sorted(range(len(self)), key=self.times.__getitem__))


Messages = Union["list[Message]", Kept]


def links_of(messages: Messages) -> Counter[str]:
    """How many messages each link has."""
    return messages.links if isinstance(messages, Kept) else Counter(message.link for message in messages)


def only(messages: Messages, places: Iterable[int]) -> Messages:
    """The messages at these places, in this order."""
    return messages.only(places) if isinstance(messages, Kept) else [messages[place] for place in places]
