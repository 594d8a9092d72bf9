"""HMAC-SHA-256 for searches over very many keys: some ten times faster than one call for each.

What is found by it is then made by the proved calls, so that it decides only what is looked at closer, and that nothing
is found.
"""
from __future__ import annotations

import hashlib
import importlib
from collections.abc import Callable
from typing import Any

BLOCK = 64
INNER, OUTER = (bytes(octet ^ pad for octet in range(256)) for pad in (0x36, 0x5C))


def digests() -> Callable[[bytes], Any]:
    """SHA-256 of Python itself, which starts faster than that of OpenSSL, where it is there."""
    for name in ("_sha2", "_sha256"):
        try:
            found: Callable[[bytes], Any] = importlib.import_module(name).sha256
        except (ImportError, AttributeError):
            continue
        return found
    return hashlib.sha256


SHA256 = digests()


def ready(key: bytes) -> Callable[[bytes], bytes]:
    """HMAC-SHA-256 under a key of 64 octets at most: both of its blocks are hashed once, for all texts."""
    block = key.ljust(BLOCK, b"\0")
    inner, outer = SHA256(block.translate(INNER)).copy, SHA256(block.translate(OUTER)).copy

    def make(text: bytes) -> bytes:
        begun, ended = inner(), outer()
        begun.update(text)
        ended.update(begun.digest())
        made: bytes = ended.digest()
        return made

    return make
