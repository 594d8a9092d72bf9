"""Messages of S1AP and X2AP from the lines of a packet, as tshark lays out its JSON: the same as `layers` has, in a
third of its time.

Only what tshark prints itself is read so. A packet of another form, or with anything that is rare (RRC of its own,
bundled messages, cells of a setup, what does not decode), is handed to `layers`, which reads all JSON.
"""
from __future__ import annotations

import re
from collections.abc import Iterable, Iterator
from functools import lru_cache
from re import Pattern

from .decoding import Message, number
from .fields import (
    CAPABILITIES,
    CODES,
    GROUPS,
    MOST_NAMES,
    NAS_PDUS,
    OTHER_CELLS,
    REESTABLISHMENT,
    SECRETS,
    SIMPLE,
    SIMPLE_OF_RADIO,
    TAKES,
    TOLD,
    X2_ID,
    Filling,
    numbers,
)
from .layers import of_packet, with_ends
from .link_types import user_dlt

LAYER = re.compile(r'\n        "([^"]+)": \{')
BEHIND = re.compile(r'\},\n        "')  # a layer behind another
LINKS = {"s1ap": "S1", "x2ap": "X2"}
KNOWN = ("frame", "ip", "sctp")  # layers, one of each; others are of the link, and have nothing
ORDER = (
    "frame.encap_type",
    "frame.time_epoch",
    "frame.number",
    "frame.len",
    "frame.cap_len",
    "ip.src",
    "ip.dst",
    "sctp.srcport",
    "sctp.dstport",
    "sctp.verification_tag",
)
UNKNOWN = frozenset(("ipv6", "s1ap", "x2ap", "lte_rrc", "diameter", "gtpv2", "exported_pdu", "_ws.malformed"))
BODY = re.compile(r'"(?:s1ap|x2ap)\.value_element": \{\n {16}"((?:s1ap|x2ap)\.[^"]*_element)": \{\n')
RARE_NAMES = ("X2Setup", "ENBConfigurationUpdate", "RerouteNASRequest")
HANDOVER = ("lte-rrc.mobilityControlInfo_element", "lte-rrc.securityConfigHO_element")
INSIDE = (HANDOVER[0],)  # stands for both in a path


def either(layer: str, names: Iterable[str]) -> str:
    """Any of the names that are of a layer, without it."""
    return "|".join(re.escape(name.removeprefix(f"{layer}.")) for name in names if name.startswith(f"{layer}."))


ABLE = [f"{layer}.{name}" for layer in ("s1ap", "x2ap") for name in CAPABILITIES]
LEAVES = [X2_ID, *NAS_PDUS, *SIMPLE, *SECRETS, *GROUPS, *CODES, *ABLE]
WHOLE = "lte-rrc.handoverCommandMessage"
RADIOS = [*SIMPLE_OF_RADIO, "lte-rrc.cipheringAlgorithm", "lte-rrc.integrityProtAlgorithm", WHOLE]
# Each begins with letters that are rare in a packet, so that a search goes fast from one to the next.
FIELD = re.compile(
    rf"""ap\.(?:(?:(?<="s1ap\.)({either("s1ap", LEAVES)})|(?<="x2ap\.)(id|{either("x2ap", LEAVES)}))": "([^"]*)"|(?<="(?:s1|x2)ap\.)({"|".join(OTHER_CELLS)}))"""
)
RADIO = re.compile(
    rf"""-rrc\.(?<="lte-rrc\.)(?:({either("lte-rrc", RADIOS)})": "([^"]*)"|({either("lte-rrc", HANDOVER)})": \{{|({either("lte-rrc", [REESTABLISHMENT])}))"""
)
# Within a handover: what a command tells, and what `fields.command` may take for a number and is none.
COMMAND = re.compile(
    rf"""-rrc\.(?<="lte-rrc\.)(?:({either("lte-rrc", [WHOLE])}|{"|".join(TOLD)})": "([^"]*)"|[^"]*": "(0[0-9]+)")"""
)
HEAD = [f'"{name}": "' for name in ORDER]
TSN = re.compile(r'"sctp\.data_tsn_raw": "([^"]*)"')


def of_lines(text: str, label: str, named: str) -> Iterator[Message]:
    """The messages of a packet that tshark printed, as `layers.of_packet` has them."""
    message = scanned(text, label, named)
    if message is None:
        yield from of_packet(text, label, named)
    else:
        yield message


def scanned(text: str, label: str, named: str) -> Message | None:
    """The message of a packet, or None where its lines do not tell all."""
    above: list[str] = []
    for found in LAYER.finditer(text):
        if found[1] in LINKS:
            break
        above.append(found[1])
    else:
        return None
    body, (heads, at) = BODY.search(text, found.end()), head(text, found.start())
    if body is None or not heads or "\\" in text or not PLAIN[tuple(above)]:
        return None
    link, begin, name = LINKS[found[1]], body.end(), body[1].partition(".")[2].removesuffix("_element")
    encapsulation, time, number, whole, kept, source, target, port, other, tag = heads
    if name.startswith(RARE_NAMES) or kept != whole or user_dlt(encapsulation) is not None:
        return None
    try:
        tsns = tuple([int(one) for one in TSN.findall(text, at, found.start()) if one.isdigit()])
        message = Message(label + number, float(time), link, name, f"{source}:{port}", f"{target}:{other}", tag, tsns)
        return with_ends(message) if takes(Filling(message), text, begin) else None
    except ValueError:
        return None  # `layers` says why


def head(text: str, end: int) -> tuple[list[str], int]:
    """The fields of a frame above its last layer, each the first of its name, if all are there in the order in which
    tshark prints them, else none; and where the last one ends."""
    found, at = list[str](), 0
    for mark in HEAD:
        first = text.find(mark, at, end)
        if first < 0:
            return [], 0
        first += len(mark)
        at = text.find('"', first)
        found.append(text[first:at])
    return found, at


class Plain(dict[tuple[str, ...], bool]):
    """Whether layers above S1AP or X2AP are those of one message over IPv4 and SCTP, which is looked at once."""

    def __missing__(self, above: tuple[str, ...]) -> bool:
        found = UNKNOWN.isdisjoint(above) and all(above.count(name) == 1 for name in KNOWN)
        if len(self) < MOST_NAMES:
            self[above] = found
        return found


PLAIN = Plain()


def takes(filling: Filling, text: str, begin: int) -> bool:
    """Takes the fields of a message, unless there is one that is rare."""
    if BEHIND.search(text, begin) or text.find('"_ws.malformed', begin) >= 0 or text.find('"per.error', begin) >= 0:
        return False
    ie = -1
    for of_s1, of_x2, value, rare in FIELD.findall(text, begin):
        if rare:
            return False
        take = TAKES["s1ap." + of_s1] if of_s1 else TAKES["x2ap." + of_x2]
        if take is numbers:
            ie = number(value)
        elif take is not None:
            take(filling, value, ie)
    if text.find('"lte-rrc.', begin) >= 0 and not takes_radio(filling, text, begin):
        return False
    filling.done()
    return True


def takes_radio(filling: Filling, text: str, begin: int) -> bool:
    """Takes the fields of RRC in a message, unless there is one that is rare."""
    trees = []
    for found in RADIO.finditer(text, begin):
        name, value, tree, rare = found.groups()
        if rare:
            return False
        if tree:
            trees.append(found.start() - len('"lte'))
        else:
            filling.radio.append(((), "lte-rrc." + name, value))
            take = SIMPLE_OF_RADIO.get("lte-rrc." + name)
            if take is not None:
                take(filling, value, -1)
    if trees and not text.isascii():  # digits of other alphabets
        return False
    for first in trees:
        for name, value, odd in COMMAND.findall(text, first, end_of(text, first)):
            if odd:
                return False
            filling.radio.append((INSIDE, "lte-rrc." + name, value))
    return True


def end_of(text: str, first: int) -> int:
    """Where a tree ends that begins here."""
    blanks = first - text.rfind("\n", 0, first) - 1
    ends = closing(blanks).search(text, first)
    return len(text) if ends is None else ends.start()


@lru_cache(64)
def closing(blanks: int) -> Pattern[str]:
    """The end of a tree behind so many blanks."""
    return re.compile("\n" + " " * blanks + "}")
