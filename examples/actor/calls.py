"""The six calls of TS 33.401 Annexes A and B that an actor makes: here its product's security library takes their
place.

They are the proved ones of this repository where they are built (`./lte_sec library`), and else a reading in plain
Python.
"""
from __future__ import annotations

import pathlib
import sys
from typing import Protocol

PYTHON = str(pathlib.Path(__file__).resolve().parents[2] / "python")
if PYTHON not in sys.path:
    sys.path.insert(0, PYTHON)

UP, DOWN = 0, 1


class Calls(Protocol):
    """Keys of 32 octets by Annex A; by Annex B what is ciphered, and MACs of 4 octets, under keys of 16."""

    def kenb(self, kasme: bytes, count: int) -> bytes:
        ...

    def nh(self, kasme: bytes, sync: bytes) -> bytes:
        ...

    def kenb_star(self, key: bytes, pci: int, earfcn: int) -> bytes:
        ...

    def algorithm_key(self, key: bytes, type: int, identity: int) -> bytes:
        ...

    def eea2(self, key: bytes, count: int, bearer: int, direction: int, text: bytes) -> bytes:
        ...

    def eia2(self, key: bytes, count: int, bearer: int, direction: int, text: bytes) -> bytes:
        ...


def calls() -> Calls:
    try:
        from lte_sec import library

        library.kenb(bytes(32), 0)
        return library
    except Exception:  # the library says in its own way that it is not built
        from tests.standin import StandIn

        return StandIn()
