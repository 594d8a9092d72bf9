"""Reading a capture of S1AP, X2AP and RRC through Wireshark's `tshark`.

`tshark` does all the decoding: SCTP messages in parts and sent again, ASN.1, the containers of RRC. Its JSON is read
packet by packet. NAS it need not decode: its dissector takes some ciphertext for plain, and then loses the keys behind
it.
"""
from __future__ import annotations

import codecs
import gzip
import io
import shutil
import subprocess
import tempfile
import zlib
from collections.abc import Callable, Iterable, Iterator, Sequence
from dataclasses import replace
from functools import partial
from pathlib import Path

from ..common.progress import told
from ..common.terms import TraceError
from .decoding import Message, fresh
from .layers import of_packet
from .link_types import CUT, preferences
from .message_store import Kept
from .packets import CHUNK, cut
from .scanner import of_lines

LAYERS = "frame ip ipv6 sctp s1ap x2ap lte_rrc exported_pdu diameter gtpv2 data _ws.malformed"
FILTER = (
    "s1ap or x2ap or lte_rrc or diameter.KASME or gtpv2.mm_context_kasme or user_dlt or (sctp and frame.cap_len "
    "< frame.len)"
)
WORDS = ["-n", "--disable-protocol", "nas-eps", "-T", "json", "-J", LAYERS, "-Y", FILTER]  # what tshark is asked for
SMALL = 1 << 13  # octets of a file that are read at once: so few that what is wrong comes in the order of its lines
PACKAGE = "tshark is not here; Debian and Ubuntu have it in the package tshark (apt-get install tshark)"
TextReader = Callable[
    [str, str, str], Iterator[Message]
]  # the text of a packet, the label of its capture, the name of that


def messages(
    pieces: Iterable[str], label: str = "", named: str = "the text", of: TextReader = of_packet
) -> Iterator[Message]:
    """The messages of a capture, from tshark's JSON in pieces; `label` stands before the number of each frame."""
    for text in cut(pieces, named):
        yield from of(text, label, named)


def pieces(octets: Iterable[bytes], errors: str = "strict") -> Iterator[str]:
    """A text in pieces, from its octets in pieces."""
    decoder = io.IncrementalNewlineDecoder(codecs.getincrementaldecoder("utf-8")(errors), True)
    for piece in octets:
        yield decoder.decode(piece)
    yield decoder.decode(b"", True)


def read(capture: Path, label: str = "", dlts: Sequence[str] = ()) -> Iterator[Message]:
    """The messages of a capture file, or of what tshark made of it elsewhere (`.json` or `.json.gz`, see `WORDS`)."""
    if not capture.is_file():
        raise TraceError(f"there is no capture {capture}")
    return (
        read_json(capture, label)
        if capture.name.endswith((".json", ".json.gz"))
        else read_capture(capture, label, dlts)
    )


def read_json(capture: Path, label: str) -> Iterator[Message]:
    try:
        with gzip.open(capture, "rb") if capture.suffix == ".gz" else open(capture, "rb") as file:
            yield from messages(pieces(iter(partial(file.read1, SMALL), b"")), label, str(capture))
    except EOFError:
        raise TraceError(f"{capture} is cut: it ends before its gzip does; copy it again") from None
    except (gzip.BadGzipFile, zlib.error):
        raise TraceError(f"{capture} is no gzip file, or is damaged; copy it again") from None
    except UnicodeDecodeError:
        raise TraceError(f"{capture} is not what tshark -T json prints: it is no text") from None
    except OSError as fault:
        raise TraceError(f"{capture} cannot be read: {fault.strerror}") from None


def read_capture(capture: Path, label: str, dlts: Sequence[str] = ()) -> Iterator[Message]:
    if shutil.which("tshark") is None:
        raise TraceError(PACKAGE)
    words = ["tshark", *WORDS, *preferences(dlts), "-r", str(capture)]
    last: Message | None = None
    with tempfile.TemporaryFile("w+", encoding="utf-8", errors="replace") as said:
        with subprocess.Popen(words, stdout=subprocess.PIPE, stderr=said, bufsize=CHUNK) as tshark:
            assert tshark.stdout is not None
            try:
                for last in messages(
                    pieces(iter(partial(tshark.stdout.read, CHUNK), b""), "replace"), label, str(capture), of_lines
                ):
                    yield last
            except TraceError:
                if tshark.wait() == 0:
                    raise
        said.seek(0)
        why = [line for line in said.read().splitlines() if line and "Running as user" not in line]
    if tshark.returncode != 0:
        reason = why[-1] if why else f"it ends with {tshark.returncode}"
        if last is None and "cut short" not in reason:
            raise TraceError(f"tshark cannot read {capture}: {reason}")
        end = Message(f"{label}end", 0.0, CUT, "") if last is None else fresh(last, CUT, "")
        yield replace(end, name=f"{capture.name} is judged to its frame {end.frame} only: {reason}")


def read_all(captures: list[Path], dlts: Sequence[str] = ()) -> Kept:
    """The messages of one capture, or of several in the order of their times; frames of all but the first have its
    file's name."""
    found = Kept(
        message
        for place, capture in enumerate(captures)
        for message in told(read(capture, f"{capture.name} " if place else "", dlts), "read")
    )
    return found.by_time() if len(captures) > 1 else found
