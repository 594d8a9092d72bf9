"""`--json` of `audit`, `fleet`, `two`, `ladder` and `calc`: `PROGRAM WORD [--frames]` tells what a program prints for
the text on standard input, as one document.

The lines of the programs are proved, and fixed to the octet. A document has the same in members, and `share/schema` has
its schema.
"""
from __future__ import annotations

import json
import re
import subprocess
import sys
from collections.abc import Callable
from pathlib import Path
from typing import Any

from ..common.inputs import of_input
from ..common.terms import TraceError
from .audit_frames import frames_of_rows
from .ladders import holder_of
from .remarks import frames_of
from .run_report import FORM, StepLine, numbers_of
from .run_report import form_of as row_of

Members = dict[str, Any]

VERSION = 1  # of each document
REFUSED, ENDED, FRAMES = 3, 7, "--frames"
REASONS = Path(__file__).resolve().parents[3] / "launcher" / "reasons"
AUDITED = re.compile(rf"{FORM} (\S+)((?: by S\d [\d>]+)*)")
# The names of what a line of calc answers, behind `opens` where it opens something (docs/CALC.md).
KEYS = {
    "kasme": "kasme",
    "kenb": "kenb",
    "nh": "nh",
    "star": "kenb-star",
    "alg": "algorithm-key",
    "short-mac-i": "short-mac-i",
}
OPENED = {
    "nas": ("type", "count", "text"),
    "service-request": ("count",),
    "srb": ("count", "text"),
    "drb": ("count", "text"),
}
ALGORITHM = re.compile(r"e[ei]a\d")
FAILED = re.compile(r"mac fails (\d+) wanted ([0-9a-f]+) got ([0-9a-f]+)(?: text ([0-9a-f]+|-))?")


# Reports of fleet and two


def form_of(number: int, word: str, values: tuple[int, ...]) -> Members:
    """A row of a ladder: its number, and its derivation as a word with numbers, the first of which is the row that it
    comes from."""
    return {"row": number, "kind": word, "values": [*values]}


def key_of(line: str) -> Members | None:
    """A key of the ladder behind a run, with who has held it."""
    found = row_of(line)
    if found is None:
        return None
    number, word, values, key, holders = found
    return form_of(number, word, values) | {"hex": key, "holders": [holder_of(one) for one in holders]}


def step_of(line: str) -> Members | None:
    """A step: its actor and answer, what it sent over what, and the key that its actor came by or tells."""
    told = StepLine.read(line)
    if told is None:
        return None
    sent = None if told.sent is None else {"record": told.sent, "over": told.kind}
    key = None if told.note is None else {"hex": told.note.key, "ncc": int(told.note.ncc), "way": told.note.way}
    return {
        "step": told.number,
        "actor": told.who,
        "answer": told.answer,
        "sent": sent,
        "key": key,
        "text": told.text,
        "alarm": told.alarm,
    }


def run_of(lines: list[str]) -> Members:
    """A report of a run with one phone."""
    return {
        "steps": [step for step in map(step_of, lines) if step],
        "keys": [key for key in map(key_of, lines) if key],
        "coincidence": coincidence(lines),
    }


def coincidence(lines: list[str]) -> str | None:
    return next((line for line in lines if " coincidence " in line), None)


def of_fleet(lines: list[str]) -> Members:
    """The steps of all phones in their order, then the keys of each; `taken` are authentications with a KASME that
    another phone has."""
    parted = [(int(phone), rest) for phone, _, rest in (line.partition(" ") for line in lines) if phone.isdecimal()]
    steps = [{"phone": phone} | step for phone, step in ((phone, step_of(rest)) for phone, rest in parted) if step]
    keys = [{"phone": phone} | key for phone, key in ((phone, key_of(rest)) for phone, rest in parted) if key]
    taken = [
        {"step": int(words[1]), "by": int(words[3])}
        for words in (line.split(" ") for line in lines)
        if words[0] == "fleet" and words[2] == "taken"
    ]
    return {"steps": steps, "keys": keys, "taken": taken, "coincidence": coincidence(lines)}


# Audits and ladders


def of_audit(lines: list[str], frames: dict[int, str] | None = None) -> Members:
    """The keys, the stations that can derive each, and of each station the rows from one that it held; the frame where
    frames are asked for."""
    rows = []
    for found in filter(None, map(AUDITED.fullmatch, lines)):
        ways = re.findall(r" by S(\d) ([\d>]+)", found[5])
        row = form_of(int(found[1]), found[2], numbers_of(found[3])) | {
            "stations": [
                {"station": int(station), "path": [int(place) for place in path.split(">")]} for station, path in ways
            ]
        }
        rows.append(row if frames is None else row | {"frame": frames.get(int(found[1]))})
    return {"keys": rows, "checked": lines[-1:] == ["checked"], "coincidence": coincidence(lines)}


def of_ladder(lines: list[str]) -> Members:
    rows = [
        {"row": int(words[0]), "kind": words[1], "hex": words[2]}
        for words in (line.split(" ") for line in lines)
        if words[1] != "coincidence"
    ]
    return {"keys": rows, "coincidence": coincidence(lines)}


# Lines of calc


def of_calc(asked: list[str], lines: list[str]) -> Members:
    """Each line that has an answer, with its number."""
    numbered = [(number, line) for number, line in enumerate(asked, 1) if line and not line.startswith("#")]
    return {
        "lines": [
            {"line": number, "word": line.split(" ", 1)[0]} | answer_of(line.split(" ", 1)[0], answer)
            for (number, line), answer in zip(numbered, lines)
        ]
    }


def answer_of(word: str, answer: str) -> Members:
    """The answer as it is printed, its values by name, and why there are none."""
    first, *values = answer.split(" ")
    if failed := FAILED.fullmatch(answer):
        out = {"count": int(failed[1]), "wanted": failed[2], "got": failed[3]} | (
            {"text": octets(failed[4])} if failed[4] else {}
        )
        return {"answer": answer, "out": out, "refused": "mac fails"}
    if first in ("bad", "short", "no") or answer == "count spent":
        return {"answer": answer, "out": {}, "refused": answer}
    if first == "opens":
        return {"answer": answer, "out": opened(OPENED.get(word, ()), values), "refused": None}
    if word == "reach":
        return {
            "answer": answer,
            "out": {"way": first, "steps": int(values[0]), "nh": values[1], "kenb-star": values[2]},
            "refused": None,
        }
    name = KEYS.get(word) or (
        "pdu"
        if word.startswith("seal-")
        else "mac"
        if word.startswith("eia")
        else "text"
        if word.startswith("eea")
        else "value"
    )
    return {"answer": answer, "out": {name: octets(answer)}, "refused": None}


def opened(names: tuple[str, ...], values: list[str]) -> Members:
    """What stands behind `opens`: numbers, the algorithms that were searched, the text, and what is to be said of
    it."""
    numbers = [name for name in names if name != "text"]
    out: Members = {name: int(value) for name, value in zip(numbers, values)}
    algorithms = [value for value in values if ALGORITHM.fullmatch(value)]
    left = [value for value in values[len(numbers) :] if value not in algorithms]
    said = " ".join(left)
    if left and "text" in names and not said.startswith("no NAS message"):
        out["text"] = octets(left[0])
    if algorithms:
        out["algorithms"] = " ".join(algorithms)
    return out | {
        name: True
        for name, words in (("unchecked", "unchecked"), ("no_nas_message", "no NAS message"))
        if said.endswith(words)
    }


def octets(text: str) -> str:
    """Octets in hex, none as an empty text."""
    return "" if text == "-" else text


# The words


def refusal(program: str, word: str, text: bytes) -> None:
    """Says why a program refuses a text, as the launcher does."""
    said = subprocess.run(
        [sys.executable, str(REASONS), "text", program, word], input=text, stderr=subprocess.PIPE
    ).stderr
    sys.stderr.write(said.decode(errors="replace"))


def frames_of_audit(program: str, text: bytes) -> dict[int, str]:
    ran = subprocess.run([program, "run"], input=text, stdout=subprocess.PIPE)
    return frames_of_rows(ran.stdout.decode(), frames_of(text.decode(errors="replace")))


FORMS: dict[str, Callable[[list[str]], Members]] = {
    "fleet": of_fleet,
    "two": run_of,
    "ladder": of_ladder,
    "audit": of_audit,
}


def answered(program: str, word: str, has_frames: bool) -> int:
    text = of_input()
    ran = subprocess.run([program] if word == "calc" else [program, word], input=text, stdout=subprocess.PIPE)
    lines = ran.stdout.decode(errors="replace").splitlines()
    if ran.returncode in (0, ENDED) or word == "calc" and ran.returncode == REFUSED:
        if word == "calc":
            told = of_calc(text.decode("latin-1").split("\n"), lines)
        elif has_frames:
            told = of_audit(lines, frames_of_audit(program, text))
        else:
            told = FORMS[word](lines)
        print(json.dumps({"version": VERSION} | told | {"status": ran.returncode}, indent=1))
    else:
        sys.stderr.writelines(f"lte_sec: {line}\n" for line in lines[:1])
    if ran.returncode == REFUSED and word != "calc":
        refusal(program, word, text)
    return ran.returncode


def main(words: list[str]) -> int:
    try:
        return answered(words[0], words[1], FRAMES in words)
    except TraceError as fault:
        print(f"lte_sec: status {fault.status}: {fault}", file=sys.stderr)
        return fault.status


if __name__ == "__main__":
    sys.exit(main(sys.argv[1:]))
