"""What must hold of each page as a text: nothing is fetched, the policy is that of its script and style, and what it
shows is data."""
from __future__ import annotations

import base64
import hashlib
import hmac
import json
import re
from collections.abc import Iterator
from html.parser import HTMLParser
from typing import Any

FETCHES = (
    "url(",
    "@import",
    "fetch(",
    "XMLHttpRequest",
    "WebSocket",
    "EventSource",
    "sendBeacon",
    "importScripts",
    "import(",
    "Worker(",
    "window.open",
)
MAKES = (
    "innerHTML",
    "outerHTML",
    "insertAdjacentHTML",
    "document.write",
    "eval(",
    "Function(",
    "createContextualFragment",
    "DOMParser",
    "srcdoc",
    "setTimeout('",
    "javascript:",
)
POLICY = {
    "default-src": "'none'",
    "base-uri": "'none'",
    "form-action": "'none'",
    "require-trusted-types-for": "'script'",
    "trusted-types": "'none'",
}
LOADS = ("src", "href", "srcset", "action", "data", "poster", "background", "ping")
TAGS = {
    "html",
    "head",
    "meta",
    "title",
    "style",
    "body",
    "header",
    "h1",
    "p",
    "div",
    "details",
    "summary",
    "noscript",
    "script",
}
FC = {"TS 33.401 A.3": 0x11, "TS 33.401 A.4": 0x12, "TS 33.401 A.5": 0x13, "TS 33.401 A.7": 0x15}


class Parsed(HTMLParser):
    """The elements of a page, with the texts of its scripts and its style."""

    def __init__(self, text: str):
        super().__init__()
        self.tags: list[tuple[str, dict[str, str | None]]] = []
        self.bodies: list[tuple[str, str]] = []
        self.open = ""
        self.feed(text)
        self.close()

    def handle_starttag(self, tag: str, attrs: list[tuple[str, str | None]]) -> None:
        self.tags.append((tag, dict(attrs)))
        self.open = tag if tag in ("script", "style") else ""
        if self.open:
            self.bodies.append((tag, ""))

    def handle_endtag(self, tag: str) -> None:
        self.open = ""

    def handle_data(self, data: str) -> None:
        if self.open:
            self.bodies[-1] = (self.open, self.bodies[-1][1] + data)


def document_of(text: str) -> dict[str, Any]:
    found = re.search(r'<script type="application/json" id="document">(.*?)</script>', text, re.DOTALL)
    assert found
    document: dict[str, Any] = json.loads(found[1])
    return document


def digest(text: str) -> str:
    return "'sha256-" + base64.b64encode(hashlib.sha256(text.encode()).digest()).decode() + "'"


def faults_of(text: str) -> list[str]:
    """All that is wrong with a page."""
    parsed = Parsed(text)
    return [*elements(parsed), *policy(parsed), *data(text, parsed)]


def elements(parsed: Parsed) -> Iterator[str]:
    for tag, given in parsed.tags:
        if tag not in TAGS:
            yield f"an element {tag}"
        for name in given:
            if name in LOADS or name.startswith("on") or name == "style":
                yield f"an attribute {name} of {tag}"
    kinds = [tag for tag, _ in parsed.bodies]
    if sorted(kinds) != ["script", "script", "style"]:
        yield f"its scripts and styles are {kinds}"
    for tag, body in parsed.bodies[0:1] + parsed.bodies[-1:]:
        for word in (*FETCHES, *MAKES):
            if word in body:
                yield f"{word} in its {tag}"


def policy(parsed: Parsed) -> Iterator[str]:
    told = next(
        (
            given["content"] or ""
            for tag, given in parsed.tags
            if tag == "meta" and given.get("http-equiv") == "Content-Security-Policy"
        ),
        "",
    )
    rules = dict(rule.split(" ", 1) for rule in told.split("; ") if " " in rule)
    wanted = POLICY | {"style-src": digest(parsed.bodies[0][1]), "script-src": digest(parsed.bodies[-1][1])}
    if rules != wanted:
        yield f"its policy is {rules}"


def data(text: str, parsed: Parsed) -> Iterator[str]:
    bodies = [
        body
        for (tag, body), given in zip(
            parsed.bodies, [given for tag, given in parsed.tags if tag in ("script", "style")]
        )
        if given.get("type") == "application/json"
    ]
    if len(bodies) != 1:
        yield f"{len(bodies)} documents"
        return
    if not bodies[0].isascii() or set("<>&") & set(bodies[0]):
        yield "its document is not in ASCII, or has characters of HTML"
    try:
        json.loads(bodies[0])
    except ValueError:
        yield "its document is no JSON"


def derive(by: str, key: bytes, given: dict[str, str], above: bytes) -> bytes:
    """A key from the one above it (TS 33.220 Annex B), by the inputs that the page tells."""
    numbers = [int(value) for value in given.values() if value.isdigit()]
    if by == "TS 33.401 A.4":
        parts = [above]
    elif by == "TS 33.401 A.3":
        parts = [numbers[0].to_bytes(4, "big")]
    else:
        sizes = (1, 1) if by == "TS 33.401 A.7" else (2, 3 if numbers[1] > 65535 else 2)
        parts = [number.to_bytes(size, "big") for number, size in zip(numbers, sizes)]
    text = bytes([FC[by]]) + b"".join(part + len(part).to_bytes(2, "big") for part in parts)
    return hmac.new(key, text, hashlib.sha256).digest()


def wrong_keys(keys: list[dict[str, Any]]) -> list[str]:
    """The keys that do not come of those above them."""
    found = []
    for key in keys:
        if key["from"] is None:
            continue
        above = bytes.fromhex(keys[key["from"]]["hex"])
        root = key
        while root["from"] is not None:
            root = keys[root["from"]]
        with_root = bytes.fromhex(root["hex"]) if key["by"] == "TS 33.401 A.4" else above
        if derive(key["by"], with_root, key["in"], above).hex() != key["hex"]:
            found.append(key["form"])
    return found


def contrasts(style: str) -> Iterator[tuple[str, str, str, float]]:
    """Of each scheme, text and ground of a style the contrast (WCAG 2.1, 1.4.3)."""
    light, dark = (
        dict(re.findall(r"--(\w+): (#[0-9a-f]{6})", block))
        for block in re.findall(r":root \{(.*?)\}", style, re.DOTALL)[:2]
    )
    for scheme, colours in (("light", light), ("dark", light | dark)):
        for text in ("ink", "dim", "ok", "bad", "unk", "none"):
            for ground in ("back", "raised", "chosen", "marked", "derived"):
                yield scheme, text, ground, ratio(colours[text], colours[ground])


def ratio(one: str, other: str) -> float:
    high, low = sorted((luminance(one), luminance(other)), reverse=True)
    return (high + 0.05) / (low + 0.05)


def luminance(colour: str) -> float:
    parts = [int(colour[at : at + 2], 16) / 255 for at in (1, 3, 5)]
    red, green, blue = (part / 12.92 if part <= 0.03928 else float(((part + 0.055) / 1.055) ** 2.4) for part in parts)
    return 0.2126 * red + 0.7152 * green + 0.0722 * blue
