"""What is found of a trace for machines: one document of JSON, and a copy of the capture with a comment at each
frame."""
from __future__ import annotations

import json
import shutil
import subprocess
import tempfile
from collections.abc import Iterator, Mapping
from pathlib import Path

from ..common.causes import WARNING
from ..common.pairs import paired
from ..common.report import Line, counts, status, summary
from ..common.terms import TraceError
from ..judge.account import Account, Seen
from .derived_keys import DerivedKey, Numbers, numbered

VERSION = 1  # of the document; it goes up where a field goes or changes its meaning, and stays where one is added
EDITCAP = "editcap is not here; it comes with Wireshark, in the package wireshark-common of Debian and Ubuntu"
AT_ONCE = 500  # comments that one call of editcap takes: the words of a call are bounded


def lines(seen: Account, plain: bool = False) -> Iterator[str]:
    """The lines of a report: the head, a line for each value, and the numbers."""
    yield from seen.head
    for value in seen.lines():
        yield value.text + (f" plain {value.plain.hex()}" if plain and value.plain is not None else "")
    yield summary(seen.verdicts())


def record(number: int, seen: Seen, value: Line, keys: Numbers) -> dict[str, object]:
    """The fields of a value; `is` and `wanted` are derivations, of MACs and numbers the octets themselves."""
    nas = value.nas
    return {
        "frame": seen.frame,
        "time": seen.time,
        "message": value.message,
        "what": value.what,
        "verdict": value.verdict.value,
        "is": value.found,
        "wanted": value.wanted,
        "ncc": value.ncc,
        "wanted_ncc": value.wanted_ncc,
        "base": value.base,
        "kasme": value.kasme,
        "count": value.count,
        "cell": list(value.cell) if value.cell else None,
        "plain": value.plain.hex() if value.plain is not None else None,
        "reason": value.reason,
        "text": value.text,
        "number": number,
        "hex": value.hex,
        "wanted_hex": value.wanted_hex,
        "clause": value.clause or None,
        "nas": None
        if nas is None
        else {
            "direction": "up" if nas.is_up else "down",
            "header": nas.header,
            "name": nas.name,
            "ksi": nas.ksi,
            "eea": nas.eea,
            "eia": nas.eia,
        },
        "key": keys.key,
        "wanted_key": keys.wanted,
        "mac_key": keys.chain,
        "warning": any(one.cause.severity is WARNING for one in value.said),
    }


def message(seen: Seen) -> dict[str, object]:
    """The fields of a message."""
    link = seen.link
    return {
        "frame": seen.frame,
        "time": seen.time,
        "link": link.kind,
        "name": seen.kind,
        "source": seen.source.name,
        "target": seen.target.name,
        "source_address": seen.source.address,
        "target_address": seen.target.address,
        "way": link.way,
        "connection": seen.connection,
        "handover": seen.handover,
        "phone": seen.phone,
        "title": seen.title,
        "tmsi": seen.decoded.tmsi,
        "nas": len(seen.decoded.nas),
    }


def derived(row: DerivedKey) -> dict[str, object]:
    """The fields of a key."""
    return {
        "hex": row.value.hex(),
        "name": row.name,
        "form": row.form,
        "from": row.above,
        "by": row.by,
        "in": row.given,
        "at": row.at,
    }


def document(seen: Account, about: Mapping[str, object] | None = None) -> dict[str, object]:
    """The document of a trace; `about` says of what and by whom it is."""
    places = {id(one): place for place, one in enumerate(seen.messages)}
    values = list(seen.lines())
    rows, numbers = numbered(seen)
    told = [record(places[id(one)], one, value, keys) for (one, value), keys in paired(seen.values(), numbers)]
    return {
        "version": VERSION,
        "head": list(seen.head),
        "messages": [message(one) for one in seen.messages],
        "lines": told,
        "summary": counts(values),
        "status": status(values),
        "keys": [derived(row) for row in rows],
        **(about or {}),
    }


def as_json(seen: Account, about: Mapping[str, object] | None = None) -> str:
    """The document of a trace as a text."""
    return json.dumps(document(seen, about), indent=1)


def comments(seen: Account) -> dict[int, str]:
    """The comment of each frame of the first capture: its lines, each with its verdict before it."""
    found: dict[int, list[str]] = {}
    for one, value in seen.values():
        if one.frame.isdigit():
            found.setdefault(int(one.frame), []).append(f"{value.verdict.value}: {value.words}")
    return {frame: "; ".join(texts) for frame, texts in found.items()}


def annotate(capture: Path, file: Path, seen: Account) -> None:
    """Writes a copy of a capture, as pcapng, with the comments."""
    if shutil.which("editcap") is None:
        raise TraceError(EDITCAP)
    if capture.name.endswith((".json", ".json.gz")):
        raise TraceError(f"--annotate wants a capture first, and not what tshark made of it: {capture}")
    told = sorted(comments(seen).items())
    with tempfile.TemporaryDirectory() as room:
        source = capture
        for turn, begin in enumerate(range(0, max(1, len(told)), AT_ONCE)):
            target = Path(room) / str(turn)
            words = [word for frame, text in told[begin : begin + AT_ONCE] for word in ("-a", f"{frame}:{text}")]
            edit([*words, "-F", "pcapng", str(source), str(target)], capture)
            source = target
        try:
            shutil.copyfile(source, file)
        except OSError as fault:
            raise TraceError(f"{file} cannot be written: {fault.strerror}") from None


def edit(words: list[str], capture: Path) -> None:
    done = subprocess.run(["editcap", *words], capture_output=True, text=True, errors="replace")
    if done.returncode != 0:
        why = [line for line in done.stderr.splitlines() if line and "Running as user" not in line]
        raise TraceError(f"editcap cannot copy {capture}: {why[-1] if why else f'it ends with {done.returncode}'}")
