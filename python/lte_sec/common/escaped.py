"""Names from outside, in one line: those that come from a capture, a file or a word of a call, whatever characters they
have."""
from __future__ import annotations


def shown(text: str) -> str:
    """The text, each character that is not printable as an escape: a line feed forges no line, and a lone surrogate can
    be written."""
    return text if text.isprintable() else "".join(one if one.isprintable() else escape(one) for one in text)


def escape(one: str) -> str:
    number = ord(one)
    return f"\\x{number:02x}" if number < 0x100 else f"\\u{number:04x}" if number < 0x10000 else f"\\U{number:08x}"
