"""Link types of captures that Wireshark does not decode by itself: DLT 147 to 162, of which each writer makes what it
likes.

srsRAN writes S1AP alone as DLT 150, and the NAS messages of a phone as 148. `--dlt 150=s1ap` says what a number is. NAS
alone is read here as it stands; which way a message went is told by its type, or by its MAC.
"""
from __future__ import annotations

from collections.abc import Iterable, Iterator, Sequence
from dataclasses import replace

from ..common.terms import COMPUTED, DOWN, NAS_INTEGRITY, UP, Derivations, TraceError
from .decoding import Message, fresh
from .message_store import Kept, Messages, links_of

RAW, CUT, ALONE = (
    "raw",
    "cut",
    "NAS",
)  # links: of a frame that is not decoded, of the end of a capture that was cut, of a message of NAS alone
FIRST, LAST = 147, 162
USER_0 = 45  # the number that Wireshark gives to DLT 147 (WTAP_ENCAP_USER0)
NAS = "nas-eps"
PROTOCOLS = ("s1ap", "x2ap", NAS, "mac-lte-framed", "lte_rrc.ul_dcch", "lte_rrc.dl_dcch")
USUAL = {148: NAS, 150: "s1ap"}  # as srsRAN writes them
RANGE = f"--dlt is NUMBER=PROTOCOL, as 150=s1ap; NUMBER {FIRST} to {LAST}, PROTOCOL one of {', '.join(PROTOCOLS)}"
SEALED, SHORT = (
    1,
    2,
    3,
    4,
), 12  # security headers with a MAC of four octets, and of the Service Request (TS 24.301 9.3.1)
OVERFLOWS = 4  # of a COUNT, that are tried
# EMM messages that the phone sends, by type (TS 24.301 9.8); the others of its table come from the core.
FROM_PHONE = frozenset((0x41, 0x43, 0x45, 0x46, 0x48, 0x4A, 0x4C, 0x4D, 0x51, 0x53, 0x56, 0x5C, 0x5E, 0x5F, 0x63))
EMM = 7


def user_dlt(encapsulation: str) -> int | None:
    """The DLT of a frame whose link type is one of those, from the number that Wireshark gives it."""
    number = int(encapsulation) - USER_0 + FIRST if encapsulation.isdigit() else 0
    return number if FIRST <= number <= LAST else None


def protocols(words: Iterable[str]) -> dict[int, str]:
    """What numbers are, as the user says."""
    found: dict[int, str] = {}
    for word in words:
        number, _, protocol = word.partition("=")
        if not (number.isdecimal() and number.isascii() and FIRST <= int(number) <= LAST and protocol in PROTOCOLS):
            raise TraceError(f"{RANGE}: {word}")
        found[int(number)] = protocol
    return found


def preference(number: int, protocol: str) -> str:
    """The line of Wireshark's table `user_dlts` that decodes a number."""
    return f'"User {number - FIRST} (DLT={number})","{protocol}","0","","0",""'


def preferences(words: Sequence[str]) -> list[str]:
    """What tshark is told of link types. NAS it is not to decode."""
    return [
        part
        for number, protocol in protocols(words).items()
        if protocol != NAS
        for part in ("-o", f"uat:user_dlts:{preference(number, protocol)}")
    ]


def decoded(messages: Messages, words: Sequence[str], derivations: Derivations) -> Messages:
    """The messages, with those of NAS alone in the place of their frames; a fault where nothing but frames of an
    unknown link type is there."""
    links = links_of(messages)
    if not links[RAW] and (links["S1"] or not links["RRC"]):
        return messages
    raw = {int(message.name) for message in messages if message.link == RAW}
    told = protocols(words)
    unknown = sorted(number for number in raw if told.get(number) != NAS)
    if unknown and all(message.link in (RAW, CUT) for message in messages):
        number = unknown[0]
        usual = USUAL.get(number, "s1ap")
        raise TraceError(
            f"the capture has link type {number}, of which nothing tells what it is: --dlt {number}={usual} decodes "
            f"it, or in Wireshark the line {preference(number, usual)} of its table user_dlts"
        )
    ways, has_s1, found = Ways(derivations), links["S1"] > 0, Kept()
    for message in messages:
        if message.link != RAW:
            found.append(message)
        if message.link == RAW and told.get(int(message.name)) == NAS or message.link == "RRC" and not has_s1:
            for pdu in message.nas:
                found.append(ways.alone(message, pdu))
    return found


class Ways:
    """Which way NAS messages go that come without a direction."""

    def __init__(self, derivations: Derivations):
        self.derivations = derivations

    def alone(self, message: Message, pdu: bytes) -> Message:
        """A NAS message that came in this frame."""
        name = "UplinkNASTransport" if self.way(pdu) == UP else "DownlinkNASTransport"
        return replace(fresh(message, ALONE, name), nas=[pdu], command=None)

    def way(self, pdu: bytes) -> int:
        header = pdu[0] >> 4 if pdu else 0
        if header == SHORT:
            return UP
        if header in SEALED and len(pdu) > 6:
            found = next(self.ways(pdu), None)
            if found is not None:
                return found
            pdu = pdu[6:]
        return UP if len(pdu) > 1 and pdu[0] == EMM and pdu[1] in FROM_PHONE else DOWN

    def ways(self, pdu: bytes) -> Iterator[int]:
        """The directions under which a MAC is right, for a KASME, an algorithm and a COUNT that the message may
        have."""
        derivations = self.derivations
        for place in range(len(derivations.kasmes)):
            for identity in COMPUTED:
                key = derivations.nas_key(place, NAS_INTEGRITY, identity)
                for overflow in range(OVERFLOWS):
                    for way in (UP, DOWN):
                        if derivations.macs[identity](key, overflow << 8 | pdu[5], 0, way, pdu[5:]) == pdu[1:5]:
                            yield way
