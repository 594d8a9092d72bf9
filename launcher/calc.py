"""What is wrong with the lines that `calc` answers by `bad`, and what must stand there (docs/CALC.md)."""
from __future__ import annotations

import dataclasses
import re
from collections.abc import Callable
from typing import Optional

from lte_sec.runs.kinds import EARFCN, PCI, nearest, one_of

DECIMAL = re.compile(r"0|[1-9][0-9]*")


@dataclasses.dataclass(frozen=True)
class Bad:
    """What the program says of a line after `bad`, and the reason."""

    what: str
    reason: str


Check = Callable[[str], Optional[str]]  # why a field is wrong, or None


def of_hex(word: str) -> str | None:
    """Why a word is no octets."""
    other = next((letter for letter in word if letter not in "0123456789abcdefABCDEF"), None)
    if word[:2] in ("0x", "0X"):
        return "begins with 0x"
    return None if other is None else f"has {other!r}, which is not a hex digit"


def octets(count: int) -> Check:
    """So many octets."""

    def check(word: str) -> str | None:
        wrong = of_hex(word)
        if wrong is None and len(word) != 2 * count:
            return f"has {len(word)} digit{'' if len(word) == 1 else 's'}; it must have {2 * count}"
        return wrong and f"{wrong}; it must have {2 * count} hex digits"

    return check


def text(most: int | None = None, exactly: int | None = None) -> Check:
    """Octets of any number, at most so many, or just so many."""
    may = f"{exactly} octets" if exactly else f"at most {most:,} octets" if most else "octets of any number"

    def check(word: str) -> str | None:
        digits = "" if word == "-" else word
        wrong = of_hex(digits) if word else "is empty"
        if wrong is None and len(digits) % 2:
            wrong = f"has {len(digits)} digits, an odd number"
        if wrong is None and (
            exactly is not None and len(digits) != 2 * exactly or most is not None and len(digits) > 2 * most
        ):
            wrong = f"has {len(digits) // 2:,} octets"
        return wrong and f"{wrong}; it must be {may}, two hex digits for each, or - for none"

    return check


def number(low: int, high: int) -> Check:
    """A number in a range."""

    def check(word: str) -> str | None:
        if DECIMAL.fullmatch(word) and len(word) <= 10 and low <= int(word) <= high:
            return None
        return f"is '{word}'; it must be {low} to {high}, in decimal without sign or leading zero"

    return check


def word_of(words: list[str]) -> Check:
    """One of these words."""
    return lambda word: None if word in words else f"is '{word}'; it must be {one_of(words)}{nearest(word, words)}"


def algorithms(word: str) -> str | None:
    """The identity of the encryption algorithm, or also that of integrity."""
    return (
        None
        if re.fullmatch(r"[0-3](/[0-3])?", word)
        else f"is '{word}'; it must be 0 to 3, or two of these with a slash, as 2/1 for 128-EEA2 and 128-EIA1"
    )


def or_any(check: Check) -> Check:
    """What may be `any`, too."""

    def checked(word: str) -> str | None:
        wrong = None if word == "any" else check(word)
        return wrong and f"{wrong}, or any"

    return checked


KEY, CIPHER_KEY, NAS_COUNT, COUNT = octets(32), octets(16), number(0, 2**24 - 1), number(0, 2**32 - 1)
COUNT_OR_ANY, ALGORITHMS_OR_ANY = or_any(NAS_COUNT), or_any(algorithms)
FIELDS: dict[str, Check] = {
    "ck": CIPHER_KEY,
    "ik": CIPHER_KEY,
    "plmn": octets(3),
    "sqn-xor-ak": octets(6),
    "kasme": KEY,
    "key": KEY,
    "sync": KEY,
    "count": COUNT,
    "bearer": number(0, 31),
    "direction": word_of(["uplink", "downlink"]),
    "text": text(),
    "pdu": text(),
    "eea": algorithms,
    "eia": word_of(["0", "1", "2", "3"]),
    "bits": word_of(["7", "12", "15", "18"]),
    "ncc-in-use": number(0, 7),
    "ncc": number(0, 7),
    "pci": number(0, PCI),
    "earfcn": number(0, EARFCN),
    "type": number(1, 6),
    "id": number(0, 15),
    "cell-identity": number(0, 2**28 - 1),
    "c-rnti": number(0, 2**16 - 1),
}
# The fields of each line, and of those that differ from the table above how.
LINES: dict[str, tuple[str, dict[str, Check]]] = {
    "kasme": ("ck ik plmn sqn-xor-ak", {}),
    "kenb": ("kasme count", {"count": NAS_COUNT}),
    "nh": ("kasme sync", {}),
    "star": ("key pci earfcn", {}),
    "alg": ("key type id", {}),
    **{
        name: ("key count bearer direction text", {"key": CIPHER_KEY})
        for name in ("eea1", "eea2", "eea3", "eia1", "eia2", "eia3")
    },
    "nas": ("kasme eea count direction pdu", {"eea": ALGORITHMS_OR_ANY, "count": COUNT_OR_ANY}),
    "seal-nas": ("kasme eea count direction type text", {"count": NAS_COUNT, "type": number(1, 4)}),
    "service-request": (
        "kasme count pdu",
        {"count": COUNT_OR_ANY, "pdu": text(exactly=4), "eia": word_of(["0", "1", "2", "3", "any"])},
    ),
    "short-mac-i": ("key eia cell-identity pci c-rnti", {}),
    "srb": ("key eea count bearer direction pdu", {"eea": ALGORITHMS_OR_ANY, "pdu": text(most=8193)}),
    "seal-srb": ("key eea count bearer direction text", {"text": text(most=8188)}),
    "drb": ("key eea count bearer direction bits pdu", {}),
    "seal-drb": ("key eea count bearer direction bits text", {}),
    "reach": ("kasme key ncc-in-use sync ncc pci earfcn", {}),
}


MORE = {"service-request": "eia"}  # a further field that a line may have


def is_answered(line: str) -> bool:
    return line != "" and not line.startswith("#")


def first_fault(line: str) -> Bad | None:
    """What is wrong with a line; None where nothing is."""
    words = line.removesuffix("\r").split(" ")
    word = words[0]
    if word not in LINES:
        why = (
            "a line begins with its word, without a blank before it"
            if line.startswith(" ")
            else f"there is no line '{word}'{nearest(word, list(LINES)) or '; docs/CALC.md has all lines'}"
        )
        return Bad("word", why)
    names, others = LINES[word]
    needed = names.split(" ")
    if word in MORE and len(words) == 2 + len(needed):
        needed.append(MORE[word])
    if len(words) != 1 + len(needed):
        blanks = "; fields are parted by one blank, with none at the end" if "" in words else ""
        return Bad(
            "fields",
            (
                f"{word} has {len(words) - 1} field{'' if len(words) == 2 else 's'}; it must have {len(needed)}: "
                f"{names}{blanks}"
            ),
        )
    for name, given in zip(needed, words[1:]):
        if wrong := (FIELDS | others)[name](given):
            return Bad(name, f"{name} {wrong}")
    if line.endswith("\r"):
        return Bad(needed[-1], "the line ends with a carriage return; it must end with a line feed alone")
    return None


def faults(octets_: bytes) -> list[tuple[int, str, Bad]]:
    """The lines of a text that are bad, each with its number, counted from 1, and what is wrong."""
    found = []
    for at, line in enumerate(octets_.decode("latin-1").split("\n"), 1):
        bad = first_fault(line) if is_answered(line) else None
        if bad:
            found.append((at, line, bad))
    return found
