"""The scalar values of TOML 1.1: (toml.io/en/v1.1.0) texts, numbers, true and false, dates and times, each from the
token that stands for it."""
from __future__ import annotations

import datetime
import re
from typing import Union

Scalar = Union[str, int, float, bool, datetime.datetime, datetime.date, datetime.time]

WORDS: dict[str, Scalar] = {"true": True, "false": False}
DECIMAL = re.compile(r"[+-]?(?:0|[1-9](?:_?[0-9])*)")
OTHER_BASES = {
    16: re.compile(r"0x[0-9A-Fa-f](?:_?[0-9A-Fa-f])*"),
    8: re.compile(r"0o[0-7](?:_?[0-7])*"),
    2: re.compile(r"0b[01](?:_?[01])*"),
}
FLOAT = re.compile(rf"{DECIMAL.pattern}(?:\.[0-9](?:_?[0-9])*)?(?:[eE][+-]?[0-9](?:_?[0-9])*)?|[+-]?(?:inf|nan)")
DATE, CLOCK = r"(\d{4})-(\d{2})-(\d{2})", r"(\d{2}):(\d{2})(?::(\d{2})(?:\.(\d{1,6})\d*)?)?"
MOMENT = re.compile(rf"{DATE}[Tt ]{CLOCK}(?:([Zz])|([+-])(\d{{2}}):(\d{{2}}))?", re.ASCII)
ESCAPE = re.compile(
    (
        r"\\(?:(?P<one>[btnfre\"\\])|x(?P<two>[0-9A-Fa-f]{2})|u(?P<four>[0-9A-Fa-f]{4})|U(?P<eight>[0-9A-Fa-f]{8})|(?P<fold>[ "
        r"\t]*\n[ \t\n]*)|(?P<none>.?))"
    ),
    re.DOTALL,
)
STANDS_FOR = {"b": "\b", "t": "\t", "n": "\n", "f": "\f", "r": "\r", "e": "\x1b", '"': '"', "\\": "\\"}
CONTROL = re.compile(r"[\x00-\x08\x0b-\x1f\x7f]")


def read(token: str) -> Scalar:
    """The value of a token; ValueError where it is none."""
    if token[:1] in ('"', "'"):
        return text_of(token)
    if token in WORDS:
        return WORDS[token]
    if DECIMAL.fullmatch(token):
        return int(token)
    for base, form in OTHER_BASES.items():
        if form.fullmatch(token):
            return int(token[2:], base)
    return float(token) if FLOAT.fullmatch(token) else moment_of(token)


def text_of(token: str) -> str:
    """The text between the quotes: over several lines with its escapes or without, or of one line."""
    width = 3 if token.startswith(token[0] * 3) and len(token) > 5 else 1
    inner = token[width:-width].replace("\r\n", "\n")
    if CONTROL.search(inner) or width == 1 and "\n" in inner:
        raise ValueError("a text has a control character, or is of one line and goes on in the next")
    inner = inner[1:] if width == 3 and inner.startswith("\n") else inner
    return ESCAPE.sub(escaped, inner) if token[0] == '"' else inner


def escaped(found: re.Match[str]) -> str:
    """What an escape stands for; a line that ends with a backslash goes on at the next letter."""
    if found["one"]:
        return STANDS_FOR[found["one"]]
    if found["fold"]:
        return ""
    digits = found["two"] or found["four"] or found["eight"]
    if not digits or 0xD800 <= int(digits, 16) < 0xE000:
        raise ValueError("there is no such escape")
    return chr(int(digits, 16))


def moment_of(token: str) -> Scalar:
    """A date, a time of a day, or both, with the zone where one is named."""
    if found := MOMENT.fullmatch(token):
        zone: datetime.tzinfo | None = datetime.timezone.utc if found[8] else None
        if found[9]:
            away = datetime.timedelta(hours=int(found[10]), minutes=int(found[11]))
            zone = datetime.timezone(away if found[9] == "+" else -away)
        return datetime.datetime(
            int(found[1]), int(found[2]), int(found[3]), *clock(found[4], found[5], found[6], found[7]), tzinfo=zone
        )
    if found := re.fullmatch(DATE, token, re.ASCII):
        return datetime.date(int(found[1]), int(found[2]), int(found[3]))
    if found := re.fullmatch(CLOCK, token, re.ASCII):
        return datetime.time(*clock(*found.groups()))
    raise ValueError(f"{token} is no value")


def clock(*parts: str | None) -> tuple[int, int, int, int]:
    """Hours, minutes, seconds and millionths."""
    hours, minutes, seconds, fraction = parts
    return int(hours or 0), int(minutes or 0), int(seconds or 0), int((fraction or "0").ljust(6, "0"))
