"""The words of the launcher on traces: check-trace, explain, wireshark, repeats; and vectors.

What only some of them need is imported where it is used, since it takes longer to load than a short text to read.
"""
from __future__ import annotations

import contextlib
import gc
import json
import sys
from collections.abc import Callable
from dataclasses import dataclass
from pathlib import Path
from typing import IO, TYPE_CHECKING

from ..captures.cells import Cells, Site, is_cell, read_cells
from ..common.derive import proved_calls
from ..common.inputs import lines_of, of_file, of_input
from ..common.options import Words, WrongWords
from ..common.terms import Derivations, TraceError, is_kasme, kasme_fault, kasmes_of

if TYPE_CHECKING:
    from ..judge.reading import Said
    from ..judge.trace import Trace

BAD_WORDS, NOT_JUDGED = 2, 3
MOST_NOTED = 5  # frames that are named
# objects between two rounds of the collector: nothing here goes in circles, and it would look at all messages again and
# again
RARELY = 200_000
LINKS = ("--covers", "--not-covered")  # what the user says of the links of a trace


@dataclass
class TraceWords(Words):
    """The words of a call on a trace: those that are no options are KASMEs (64 hex digits) or files."""

    RANGE = "{option} is 1 to {most}: {text}"

    def __post_init__(self) -> None:
        for word in self.others:
            if not is_kasme(word) and kasme_fault(word) and not Path(word).exists():
                raise WrongWords(kasme_fault(word))

    @property
    def kasmes(self) -> list[str]:
        return [word for word in self.others if is_kasme(word)]

    @property
    def files(self) -> list[Path]:
        return [Path(word) for word in self.others if not is_kasme(word)]

    def cells(self) -> Cells:
        sites = [site for file in self.options["--cells"] for site in read_cells(Path(file))]
        for place, text in enumerate(self.options.get("--cell", [])):
            pci, comma, earfcn = text.partition(",")
            if not (comma and pci.isdecimal() and earfcn.isdecimal() and is_cell(int(pci), int(earfcn))):
                raise TraceError(f"--cell is PCI,EARFCN-DL, as 301,1575: {text}")
            sites.append(Site((1 << 28) - 1 - place, int(pci), int(earfcn)))
        return Cells(sites)


def traced(words: TraceWords) -> Trace:
    from ..judge.reading import Said

    if not words.files:
        raise TraceError("a capture and the KASMEs of its phones are wanted: CAPTURE KASME.., a KASME as 64 hex digits")
    said = Said(*(tuple(words.options.get(name, [])) for name in LINKS))
    return trace_of(words.files, words.kasmes, words.cells, words.options["--dlt"], said)


def trace_of(files: list[Path], kasmes: list[str], cells: Callable[[], Cells], dlts: list[str], said: Said) -> Trace:
    """Captures as they are read with these KASMEs; the cells are asked for behind what is wrong with a capture."""
    from ..captures.capture_files import read_all
    from ..captures.link_types import decoded, protocols
    from ..judge.reading import check

    protocols(dlts)
    messages = read_all(files, dlts)
    known = kasmes_of(kasmes)
    if not known and not any(message.kasmes for message in messages):
        raise TraceError(
            "the KASMEs of its phones are wanted, 64 hex digits each: the capture "
            "has no S6a and no GTPv2-C that tells one"
        )
    derivations = Derivations(proved_calls(), known)
    return check(derivations, cells(), decoded(messages, dlts, derivations), said=said)


def notes_of(trace: Trace) -> list[str]:
    """What of a capture could not be read."""
    from ..captures.layers import UNREADABLE
    from ..captures.link_types import CUT

    unread = [message for message in trace.messages if message.link == UNREADABLE]
    said = [message.name for message in trace.messages if message.link == CUT]
    said += [f"frame {message.frame} cannot be read: {message.name}" for message in unread[:MOST_NOTED]]
    said += [f"and {len(unread) - MOST_NOTED} more frames cannot be read"] if len(unread) > MOST_NOTED else []
    return said + (["the capture has no message of S1AP, X2AP, RRC or NAS"] if not trace.messages else [])


def noted(trace: Trace) -> int:
    """Says what of a capture could not be read; the status for that."""
    notes = notes_of(trace)
    for note in notes:
        print(f"lte_sec: {note}", file=sys.stderr)
    return NOT_JUDGED if notes else 0


def check_trace(words: list[str]) -> int:
    from ..common import about
    from ..common.report import status_of
    from ..judge import lawful
    from ..judge.account import judged_anything
    from ..pages import page as pages
    from .trace_document import annotate, document, lines

    given = TraceWords.read("check-trace", words)
    has_keys = pages.chosen(given.last("--html-keys", "yes"))
    html = [Path(file) for file in given.options["--html"]]
    for file in html:
        pages.writable(file)
    seen = lawful.confirmed(traced(given))
    for name in given.options["--annotate"]:
        annotate(given.files[0], Path(name), seen)
    found = document(seen, about.trace(given.files, told_options(given))) if html or given.has("--json") else {}
    for file in html:
        from ..pages import trace_page

        made = trace_page.page(found)
        pages.write(file, pages.html(made, trace_page.told(found, made), trace_page.of_note(found), has_keys))
    if given.has("--json"):
        print(json.dumps(found, indent=1))
    else:
        for line in lines(seen, given.has("--plain")):
            print(line)
    if not judged_anything(seen):
        print("lte_sec: the capture has no key and no protected NAS message", file=sys.stderr)
    return status_of(seen.verdicts())


def told_options(given: TraceWords) -> list[str]:
    """The options that a verdict depends on, as they were given."""
    return [f"{name} {value}" for name in ("--cells", *LINKS) for value in given.options[name]]


def explain(words: list[str]) -> int:
    from .dumps import HALF, KEY, blocks, has_hex
    from .explanation import Explanation, document, told
    from .log_cells import cells_of

    given = TraceWords.read("explain", words)
    if not given.kasmes or given.files:
        raise TraceError(f"a KASME is 64 hex digits: {given.files[0] if given.files else 'there is none'}")
    cells, counts, depth = (
        given.cells(),
        given.number("--counts", 300, (1 << 24) - 1),
        given.number("--depth", 16, 4096),
    )
    files = given.options["--keys"]
    text = [line for octets in (map(of_file, files) if files else [of_input()]) for line in lines_of(octets)]
    keys = blocks(text)
    if not keys:
        why = (
            f"hex and no key in it: a key has {2 * KEY} hex digits, or {2 * HALF}"
            if has_hex(text)
            else "no key"
            if any(map(str.strip, text))
            else "nothing in it"
        )
        print(f"lte_sec: the text has {why}", file=sys.stderr)
        return NOT_JUDGED
    derivations = Derivations(proved_calls(), kasmes_of(given.kasmes))
    logged = [] if cells.sites else cells_of(text)
    for site in logged:
        cells.learn(site)
    explanation = Explanation(derivations, cells, counts, depth)
    found = explanation.find(keys, given.has("--far"))
    if given.has("--json"):
        print(json.dumps(document(derivations, found, logged, explanation.fits), indent=1))
    else:
        for one in found:
            print(told(derivations, one))
    if not explanation.fits:
        whose = "this KASME" if len(derivations.kasmes) == 1 else f"any of these {len(derivations.kasmes)} KASMEs"
        print(
            f"lte_sec: no key of the text fits {whose}; --far goes on, among the algorithm keys of all KeNB*s",
            file=sys.stderr,
        )
    if logged:
        print(
            (
                "lte_sec: no cell is given; those of the text are tried: "
                f"{' '.join(f'{site.pci},{site.earfcn}' for site in logged)}"
            ),
            file=sys.stderr,
        )
    elif not cells.sites and not all(one.key for one in found):
        print("lte_sec: no cell is given, and a KeNB* needs one: --cell PCI,EARFCN", file=sys.stderr)
    return 0 if all(one.is_right for one in found) else 1


def wireshark(words: list[str]) -> int:
    from .wireshark import document, rows

    given = TraceWords.read("wireshark", words)
    trace = traced(given)
    table, notes = list(rows(trace.seen, trace.derivations.calls)), notes_of(trace)
    if given.has("--json"):
        print(json.dumps(document(table, notes, NOT_JUDGED if notes else 0), indent=1))
    else:
        for row in table:
            print(row)
    return noted(trace)


def repeats(words: list[str]) -> int:
    from .repeats import bounded, first_repeat

    given = TraceWords.read("repeats", words)
    if len(given.files) > 1 or given.kasmes:
        raise TraceError("repeats takes one file of uses, or none to read standard input")
    try:
        with contextlib.ExitStack() as left:
            text: IO[str] = (
                left.enter_context(given.files[0].open(encoding="utf-8", errors="replace"))
                if given.files
                else sys.stdin
            )
            found = first_repeat(bounded(text))
    except OSError as fault:
        raise TraceError(f"{given.files[0]} cannot be read: {fault.strerror}") from None
    print(json.dumps(found.document(), indent=1) if given.has("--json") else found)
    return found.status


def vectors(words: list[str]) -> int:
    from ..runs import wycheproof
    from ..runs.vectors import MOST, SEEDS, USUAL, document

    given = TraceWords.read("vectors", words)
    if given.others:
        raise TraceError("vectors takes --seed N and --count N")
    seed, count = given.last("--seed", "1"), given.number("--count", USUAL, MOST)
    if not seed.isdigit() or int(seed) >= SEEDS:
        raise TraceError(f"--seed is 0 to {SEEDS - 1}: {seed}")
    kind = given.last("--wycheproof")
    print(json.dumps(wycheproof.document(kind, int(seed), count) if kind else document(int(seed), count), indent=1))
    return 0


COMMANDS: dict[str, Callable[[list[str]], int]] = {
    "check-trace": check_trace,
    "explain": explain,
    "wireshark": wireshark,
    "repeats": repeats,
    "vectors": vectors,
}


def main(words: list[str]) -> int:
    if not words or words[0] not in COMMANDS:
        print("lte_sec: the words are:", *COMMANDS, file=sys.stderr)
        return BAD_WORDS
    gc.set_threshold(RARELY)
    try:
        return COMMANDS[words[0]](words[1:])
    except TraceError as fault:
        print(f"lte_sec: status {fault.status}: {words[0]}: {fault}", file=sys.stderr)
        return fault.status


if __name__ == "__main__":
    sys.exit(main(sys.argv[1:]))
