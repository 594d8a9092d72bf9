"""Where keys and ciphers come from: proved code, as a library in this process or as the program `calc` in a pipe.

Nothing else of this package computes a key, a MAC or a cipher. A library that was built without its proofs has the same
code: `library.proved()` says which it is.
"""
from __future__ import annotations

import importlib
from pathlib import Path
from types import ModuleType

from .terms import Calls, TraceError

TOP = Path(__file__).resolve().parents[3]
NAMES = ("kenb", "nh", "kenb_star", "algorithm_key", "eea1", "eea2", "eea3", "eia1", "eia2", "eia3")
WAYS = ("uplink", "downlink")


class Library:
    """The binding to the library of proved calls (`library`), as it stands in this package."""

    budget = 200_000  # derivations that the searches of one trace may make beyond the keys at hand

    def __init__(self, binding: ModuleType):
        for name in NAMES:
            setattr(self, name, getattr(binding, name))


class Calc:
    """The program `calc`: one line in, one line out."""

    budget = 60_000  # as a line in and out takes longer than a call

    def __init__(self, words: list[str]):
        import subprocess  # only where there is no library, as it takes long to load

        self.program = subprocess.Popen(
            words, stdin=subprocess.PIPE, stdout=subprocess.PIPE, stderr=subprocess.DEVNULL, text=True, encoding="ascii"
        )

    def answer(self, *words: object) -> str:
        """The answer to a line, without its line feed."""
        assert self.program.stdin is not None and self.program.stdout is not None
        line = " ".join((word.hex() or "-") if isinstance(word, bytes) else str(word) for word in words)
        try:
            self.program.stdin.write(line + "\n")
            self.program.stdin.flush()
            return self.program.stdout.readline().strip()
        except OSError:
            raise TraceError(f"calc does not answer a line {words[0]}") from None  # the line has keys

    def told(self, *words: object) -> bytes:
        """The octets that a line gives."""
        try:
            return bytes.fromhex(self.answer(*words).removeprefix("-"))
        except ValueError:
            raise TraceError(f"calc does not answer a line {words[0]}") from None

    def close(self) -> None:
        for pipe in (self.program.stdin, self.program.stdout):
            if pipe is not None:
                pipe.close()
        self.program.wait(10)

    def kenb(self, kasme: bytes, count: int) -> bytes:
        return self.told("kenb", kasme, count)

    def nh(self, kasme: bytes, sync: bytes) -> bytes:
        return self.told("nh", kasme, sync)

    def kenb_star(self, key: bytes, pci: int, earfcn: int) -> bytes:
        return self.told("star", key, pci, earfcn)

    def algorithm_key(self, key: bytes, type: int, identity: int) -> bytes:
        return self.told("alg", key, type, identity)

    def eea1(self, key: bytes, count: int, bearer: int, direction: int, text: bytes) -> bytes:
        return self.told("eea1", key, count, bearer, WAYS[direction], text)

    def eea2(self, key: bytes, count: int, bearer: int, direction: int, text: bytes) -> bytes:
        return self.told("eea2", key, count, bearer, WAYS[direction], text)

    def eea3(self, key: bytes, count: int, bearer: int, direction: int, text: bytes) -> bytes:
        return self.told("eea3", key, count, bearer, WAYS[direction], text)

    def eia1(self, key: bytes, count: int, bearer: int, direction: int, text: bytes) -> bytes:
        return self.told("eia1", key, count, bearer, WAYS[direction], text)

    def eia2(self, key: bytes, count: int, bearer: int, direction: int, text: bytes) -> bytes:
        return self.told("eia2", key, count, bearer, WAYS[direction], text)

    def eia3(self, key: bytes, count: int, bearer: int, direction: int, text: bytes) -> bytes:
        return self.told("eia3", key, count, bearer, WAYS[direction], text)


def proved_calls() -> Calls:
    """The proved calls that are built here: the library, else the program."""
    try:
        return Library(importlib.import_module("lte_sec.library"))  # type: ignore[return-value]
    except (ImportError, OSError, AttributeError):  # it is not built here
        pass
    launcher = TOP / "lte_sec"
    if (TOP / "crates" / "lte_calc").is_dir() and launcher.exists():
        return Calc([program_of(launcher)])
    raise TraceError("the proved calls are not built here: run ./lte_sec library")


def program_of(launcher: Path) -> str:
    """The program `calc`, which the launcher builds where it is not there, and says so."""
    import subprocess

    ran = subprocess.run(
        [str(launcher), "--program", "lte_calc"], stdin=subprocess.DEVNULL, stdout=subprocess.PIPE, text=True
    )
    if ran.returncode:
        raise TraceError("the proved calls cannot be built: ./lte_sec --program lte_calc says why")
    return ran.stdout.rstrip("\n").partition(" ")[2]
