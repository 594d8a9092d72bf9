"""`./lte_sec calc --strict`: `PROGRAM` answers the lines on standard input, and the status is 1 if a MAC failed.

The answers are passed on as they come. A line that is bad, or another fault of the program, keeps its own status.
Behind the answers is said by which mistake the MAC of a line `nas` or `srb` is wrong, and which line `nas` opens to no
NAS message. For this the lines are read again, from the file that they are or from the launcher's copy.
"""
from __future__ import annotations

import os
import re
import stat
import subprocess
import sys
from pathlib import Path

from lte_sec.common import causes
from ..common import pdu_mistakes as pdu_reasons, mistakes as reasons
from lte_sec.common.causes import Cause
from lte_sec.common.derive import Calc
from lte_sec.drive.drive_word import put
from lte_sec.common.ending import WRITING
from lte_sec.common.terms import Calls

FAILS = (b"mac fails", b"no count", b"no algorithm")
FAILED = re.compile(rb"mac fails (\d+) wanted [0-9a-f]{8} got [0-9a-f]{8} text (?:[0-9a-f]+|-)")
OPENED = re.compile(rb"opens [1-4] (\d+) ([0-9a-f]+)(?: unchecked)?")  # a NAS message
FITTED = re.compile(
    r"(no algorithm but \w+ )?opens [1-4] (\d+) eia(\d)((?: eea\d [0-9a-f]+)*)"
)  # the same with `any` algorithms
MOST, MOST_TOLD = 16_777_216, 20  # octets of a file that is read again; lines that are told
COPY = "LTE_SEC_COPY"  # a variable: the file into which the launcher copies lines that come through a pipe


def is_file() -> bool:
    """Whether the standard input is a file that is read from its beginning."""
    try:
        return stat.S_ISREG(os.fstat(0).st_mode) and os.lseek(0, 0, os.SEEK_CUR) == 0
    except OSError:
        return False


def lines_again(from_file: bool) -> list[tuple[int, list[str]]]:
    """The lines that have answers, with their numbers: of the file that they are, or of their copy. A line that is cut
    there is left out."""
    try:
        text = (
            os.pread(0, MOST, 0)
            if from_file
            else Path(os.environ[COPY]).read_bytes()[:MOST]
            if COPY in os.environ
            else b""
        )
    except OSError:
        text = b""
    lines = text.split(b"\n")[: -1 if len(text) >= MOST else None]
    return [
        (number, line.decode(errors="replace").split(" "))
        for number, line in enumerate(lines, 1)
        if line and not line.startswith(b"#")
    ]


def mistake(calls: Calls, words: list[str], answer: bytes) -> str:
    """The mistake by which the MAC of this line is wrong, or nothing."""
    found = FAILED.fullmatch(answer)
    if found is None or words[0] not in ("nas", "srb"):
        return ""
    eea, _, eia = words[2].partition("/")
    identities, count, key = (int(eea), int(eia or "2")), int(found[1]), bytes.fromhex(words[1])
    direction, pdu = int(words[-2] == "downlink"), bytes.fromhex(words[-1])
    if words[0] == "nas":
        return wrong(("MAC",), reasons.mac(calls, reasons.ProtectedNas(key, *identities, direction, count, pdu)))
    it = pdu_reasons.pdu(calls, pdu_reasons.Pdu(key, *identities, direction, count, int(words[4]), pdu))
    return wrong(it.parts, it.why)


def wrong(parts: tuple[str, ...], why: causes.Why) -> str:
    """Which parts of a message are wrong, and why; an SRB's MAC-I is named as that of NAS."""
    names = ["MAC" if part == "MAC-I" else part for part in parts]
    if not why:
        return ""
    return (
        f"{' and '.join(names)} are wrong: {causes.told(why)}"
        if len(names) > 1
        else f"the {names[0]} is wrong: {causes.told(why)}"
    )


def reads(text: bytes) -> bool:
    """Whether a text begins as a NAS message does, by the rule of `calc` (docs/CALC.md)."""
    return (
        len(text) > 1
        and text[0] == 7
        and text[1] >> 6 == 1
        or len(text) > 2
        and text[0] & 15 == 2
        and text[2] >> 6 == 3
    )


def is_odd(answer: bytes) -> bool:
    """Whether this is the answer to a NAS message whose text is none."""
    found = OPENED.fullmatch(answer)
    return found is not None and not reads(bytes.fromhex(found[2].decode()))


def fitting(calc: Calc, words: list[str], answer: bytes) -> str:
    """What would fit a line `nas` with given algorithms whose MAC is right at no COUNT, or whose text is no NAS
    message, or nothing."""
    opened = OPENED.fullmatch(answer)
    if words[0] != "nas" or words[2] == "any" or answer != b"no count" and opened is None:
        return ""
    fits = FITTED.match(calc.answer("nas", words[1], "any", opened[1].decode() if opened else "any", *words[4:]))
    if opened:
        under = [f"EEA{it[0]}" for it in fits[4].split(" eea")[1:]] if fits and not fits[1] else []
        return "the text is no NAS message" + (f"; it is one under {' or '.join(under)}" if under else "")
    of_fit = Cause.MAC_OTHER_WAY_AT_COUNT if fits and fits[1] else Cause.MAC_OF_EIA_AT_COUNT
    return wrong(("MAC",), of_fit.because(eia=int(fits[3]), count=int(fits[2]))) if fits else ""


def told(command: list[str], failed: list[tuple[int, bytes]], from_file: bool) -> None:
    """Says why MACs and texts are wrong, of each answer by its place among them."""
    lines = lines_again(from_file)
    places = [(place, answer) for place, answer in failed[:MOST_TOLD] if place < len(lines)]
    if not places:
        return
    calls = Calc(command)
    for place, answer in places:
        number, words = lines[place]
        why = mistake(calls, words, answer) or fitting(calls, words, answer)
        if why:
            print(f"lte_sec: line {number}: {why}", file=sys.stderr)
    calls.close()


def main(command: list[str]) -> int:
    from_file = is_file()
    process = subprocess.Popen(command, stdout=subprocess.PIPE)
    assert process.stdout
    wrong, failed, count, rest = list[tuple[int, bytes]](), 0, 0, b""
    while octets := os.read(process.stdout.fileno(), 65536):
        try:
            put(1, octets)
        except OSError:
            process.stdout.close()
            process.wait()
            return WRITING  # the launcher says so
        *lines, rest = (rest + octets).split(b"\n")
        failed += sum(line.startswith(FAILS) for line in lines)
        if len(wrong) < MOST_TOLD:
            wrong += [
                (count + place, line) for place, line in enumerate(lines) if line.startswith(FAILS) or is_odd(line)
            ]
        count += len(lines)
    status = process.wait()
    if status == 1:
        print("lte_sec: status 1: memory ran out", file=sys.stderr)
    if status == 0 and wrong:
        told(command, wrong, from_file)
    if status == 0 and failed:
        print(f"lte_sec: status 1: {failed} line{'' if failed == 1 else 's'} with a MAC that fails", file=sys.stderr)
        return 1
    return status if status >= 0 else 128 - status


if __name__ == "__main__":
    sys.exit(main(sys.argv[1:]))
