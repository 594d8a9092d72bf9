"""Connections that ended and that no message can name any more: what a report still tells of them stands in a file."""
from __future__ import annotations

import pickle
from array import array
from typing import NamedTuple, Optional

from ..captures.message_store import Spool
from ..common.terms import Key
from .state import Connection


class ToldConnection(NamedTuple):
    """What a report tells of a connection beside its lines."""

    tmsi: Optional[int]
    algorithms: Optional[tuple[int, int]]
    keys: list[tuple[str, str, Key]]  # frame, holder and key


def told_of(connection: Connection) -> ToldConnection:
    return ToldConnection(connection.side.tmsi, connection.algorithms, connection.keys)


class EndedConnections:
    """What is told of connections that ended, in a file."""

    def __init__(self) -> None:
        self.spool = Spool()
        self.numbers, self.begins, self.sizes = array("i"), array("q"), array("i")

    def take(self, connection: Connection) -> bool:
        """Puts down what is told of a connection; whether that can be done."""
        try:
            octets = pickle.dumps(told_of(connection), pickle.HIGHEST_PROTOCOL)
        except RecursionError:  # a key that is made from very many others, one after the other
            return False
        self.numbers.append(connection.number)
        self.begins.append(self.spool.put(octets))
        self.sizes.append(len(octets))
        return True

    def all(self) -> dict[int, ToldConnection]:
        """All of them, by the numbers of the connections."""
        return {
            number: pickle.loads(self.spool.get(begin, size))
            for number, begin, size in zip(self.numbers, self.begins, self.sizes)
        }
