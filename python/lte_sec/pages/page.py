"""A page in HTML: one file with its document, its script and its style, which a browser shows without a network and a
server.

What is shown comes from the document alone, which is JSON in which nothing can end its element. The page computes
nothing of security. Where scripts do not run it has its summary and the first lines that differ or are not judged.
"""
from __future__ import annotations

import base64
import hashlib
import hmac
import json
import os
import re
import secrets
import tempfile
from collections.abc import Iterable
from html import escape
from pathlib import Path
from typing import Any

from ..common.terms import TraceError

HERE = Path(__file__).resolve().parent
VERSION = 1  # of the document
MOST_LINES = 500  # that a page has where scripts do not run
KEY = re.compile(r"[0-9a-fA-F]{64,}")
TEXTS = ("plain", "opens")  # fields with texts that were protected
CHOICES = ("yes", "no")
WARNING = "This page has KASME, the keys under it and plain texts. Whoever has it can read and forge what they protect."
NO_KEYS = "This page has no keys: a key has a number in it."
WITHOUT = (
    "This page has no keys and no plain texts: each key is a fingerprint, which is another one in each page. "
    "MACs, M-TMSI, cells and names of stations are in it."
)

Page = dict[str, Any]


def put(text: str) -> str:
    """A document as it stands in its element: in ASCII, without a character that HTML takes for its own."""
    return text.replace("&", "\\u0026").replace("<", "\\u003c").replace(">", "\\u003e")


def digest(text: str) -> str:
    return "sha256-" + base64.b64encode(hashlib.sha256(text.encode()).digest()).decode()


def policy(script: str, style: str) -> str:
    """What a browser may do with a page: run this script, use this style, and load nothing."""
    return "; ".join(
        [
            "default-src 'none'",
            f"script-src '{digest(script)}'",
            f"style-src '{digest(style)}'",
            "base-uri 'none'",
            "form-action 'none'",
            "require-trusted-types-for 'script'",
            "trusted-types 'none'",
        ]
    )


class Hider:
    """Puts a fingerprint in the place of each key, and nothing in that of texts that were protected. The sums of files
    stay."""

    def __init__(self, sums: Iterable[str]):
        self.secret, self.sums = secrets.token_bytes(32), set(sums)

    def hide(self, it: Any, name: str = "") -> Any:
        if isinstance(it, dict):
            return {key: self.hide(value, key) for key, value in it.items()}
        if isinstance(it, list):
            return [self.hide(value, name) for value in it]
        if not isinstance(it, str):
            return it
        return "" if name in TEXTS else KEY.sub(self.fingerprint, it)

    def fingerprint(self, found: re.Match[str]) -> str:
        return (
            found[0]
            if found[0] in self.sums
            else hmac.new(self.secret, found[0].lower().encode(), hashlib.sha256).hexdigest()[:16]
        )


def html(page: Page, told: Iterable[str], lines: Iterable[str], keys: bool | None = None) -> str:
    """The file of a page; `told` is its summary, and `lines` are what it has where scripts do not run. `keys` says
    whether it has keys or fingerprints, and is None where it has neither."""
    page, bare = {"version": VERSION, **page, "keyed": keys, "told": list(told)}, list(lines)
    if keys is False:
        hider = Hider(file["sha256"] for file in page.get("files", []))
        page, bare = hider.hide(page), hider.hide(bare)
    script, style = ((HERE / name).read_text(encoding="utf-8") for name in ("page.js", "page.css"))
    more = [f"Of {len(bare)} lines these are the first {MOST_LINES}."] if len(bare) > MOST_LINES else []
    warning = NO_KEYS if keys is None else WARNING if keys else WITHOUT
    title = written(page["title"])
    return "\n".join(
        [
            "<!DOCTYPE html>",
            '<html lang="en">',
            "<head>",
            '<meta charset="utf-8">',
            f'<meta http-equiv="Content-Security-Policy" content="{escape(policy(script, style))}">',
            '<meta name="viewport" content="width=device-width, initial-scale=1">',
            '<meta name="referrer" content="no-referrer">',
            f"<title>{title}</title>",
            f"<style>{style}</style>",
            "</head>",
            "<body>",
            "<header>",
            f"<h1>{title}</h1>",
            f'<p class="{"warning" if keys else "dim"}">{escape(warning)}</p>',
            *(f"<p>{written(line)}</p>" for line in page["told"][:1]),
            "<details><summary>more of it</summary>",
            *(f"<p>{written(line)}</p>" for line in page["told"][1:]),
            "</details>",
            '<div class="bar" id="bar"></div>',
            "</header>",
            '<div id="app" hidden></div>',
            "<noscript>",
            "<p>Scripts do not run here, so that there is no chart.</p>",
            *(f"<p>{written(line)}</p>" for line in [*more, *bare[:MOST_LINES]]),
            "</noscript>",
            f'<script type="application/json" id="document">{put(json.dumps(page, separators=(",", ":")))}</script>',
            f"<script>{script}</script>",
            "</body>",
            "</html>",
            "",
        ]
    )


def written(text: str) -> str:
    """A text in HTML; what cannot be written in UTF-8 becomes a question mark."""
    return escape(text.encode("utf-8", "replace").decode())


def writable(file: Path) -> None:
    """Refuses a file that cannot be put in its place."""
    if file.exists() and not file.is_file():
        raise TraceError(f"--html wants a file to write, and this is none: {file}")
    if not os.access(file.parent, os.W_OK):
        raise TraceError(
            f"{file} cannot be written: its folder is {'not to be written' if file.parent.is_dir() else 'not there'}"
        )


def chosen(text: str) -> bool:
    """Whether a page has keys, as --html-keys says."""
    if text not in CHOICES:
        raise TraceError(f"--html-keys takes {' or '.join(CHOICES)}, and not '{text}'")
    return text == "yes"


def write(file: Path, text: str) -> None:
    """Writes a page beside its place and renames it, for its owner alone."""
    writable(file)
    try:
        descriptor, name = tempfile.mkstemp(".part", f".{file.name[:64]}.", file.parent)  # of mode 0600
        try:
            with open(descriptor, "w", encoding="utf-8") as part:
                part.write(text)
            os.replace(name, file)
        except BaseException:
            os.unlink(name)
            raise
    except OSError as fault:
        raise TraceError(f"{file} cannot be written: {fault.strerror}") from None
