#!/usr/bin/env python3
"""A phone that answers all inputs as the written machine does (docs/MACHINE.md), in plain Python.

    ./lte_sec drive --suite --phone 'python3 examples/suite/actors/phone.py'
"""
from __future__ import annotations

import dataclasses
from typing import Any

import texts
from radio import SRB1, SRB2, RadioLink
from texts import BEARER_LIMIT, CALLS, MISMATCH, NAS_LIMIT, UNSPECIFIED, Refused, Security, estimate, place_of

import serving
from calls import DOWN, UP
from lte_sec.drive import records
from lte_sec.drive.frames import DRBS, Input, Note, Reply

INITIAL, HORIZONTAL, VERTICAL = 0, 1, 2


class Phone:
    """What the phone has: capabilities, what the last authentication left, the context in use, and its connection, if
    it has or waits for one."""

    def __init__(self, setup: Input):
        self.caps: bytes = setup.fields["caps"]  # type: ignore[assignment]
        self.partial: tuple[int, bytes] | None = None
        self.context: Security | None = None
        self.waiting: tuple[bytes, bytes] | None = None  # KASME and KeNB of a connection that is asked for
        self.link: RadioLink | None = None

    def __call__(self, told: Input) -> Reply:
        try:
            reply: Reply = getattr(self, told.name)(**told.fields)
        except Refused as why:
            reply = why.reply()
        return reply

    def has(self, eea: int) -> bool:
        """Whether it has the algorithms."""
        return bool(self.caps[0] & 0x80 >> eea and self.caps[1] & 0x20)

    def in_use(self) -> Security:
        if self.context is None:
            raise Refused("NoContext")
        return self.context

    def linked(self) -> RadioLink:
        if self.link is None:
            raise Refused("NotConnected")
        return self.link

    def Auth(self, ksi: int, kasme: bytes) -> Reply:
        self.partial = ksi, kasme
        return Reply()

    # NAS (TS 24.301 4.4, 5.4.3, 5.6.1)

    def Nas(self, pdu: bytes) -> Reply:
        if not pdu:
            raise Refused("Short")
        if pdu[0] not in (0x17, 0x27, 0x37):
            raise Refused("BadHeader", pdu[:1])
        if len(pdu) < 6:
            raise Refused("Short")
        if pdu[0] == 0x37:
            return self.command(pdu)
        context = self.in_use()
        count = estimate(context.receive, pdu[5], 256, NAS_LIMIT)
        text = texts.fields_of(records.NAS, context.opened(pdu, DOWN, count))
        if text["kind"] != 5:
            raise Refused("WrongKind", bytes([text["kind"]]))
        context.receive = count + 1
        return Reply(text=text["text"])

    def command(self, pdu: bytes) -> Reply:
        """A Security Mode Command: KSI, algorithms, MAC, capabilities, in this order."""
        if self.partial is None:
            raise Refused("NoContext")
        ksi, root = self.partial
        text = texts.fields_of(records.NAS, pdu[6:])
        if text["kind"] != 1:
            raise Refused("WrongKind", bytes([text["kind"]]))
        if text["KSI"] != ksi:
            return self.rejected(Refused("WrongKsi", bytes([ksi, text["KSI"]])), UNSPECIFIED)
        if not self.has(text["algorithms"] >> 4):
            return self.rejected(Refused("AlgUnsupported", bytes([text["algorithms"]])), UNSPECIFIED)
        context = Security(root, text["algorithms"] >> 4)
        try:
            context.opened(pdu, DOWN, pdu[5])
        except Refused as why:
            return self.rejected(why, UNSPECIFIED)
        if text["capabilities"] != self.caps:
            return self.rejected(Refused("CapsMismatch", self.caps, text["capabilities"]), MISMATCH)
        context.receive = pdu[5] + 1
        self.partial, self.context = None, context
        derived: tuple[bytes, ...] = (context.enc, context.int)
        if self.link is None:
            kenb = CALLS.kenb(root, 0)
            self.waiting, derived = (root, kenb), (kenb, *derived)
        return Reply(to=b"\2", record=context.sent(4, UP, b"\2"), derived=derived)

    def rejected(self, why: Refused, cause: int) -> Reply:
        """A Security Mode Reject: as it is where no context is in use, else under it, as long as a COUNT is left."""
        reject = bytes([3, cause])
        if self.context is None:
            return why.reply(to=b"\2", record=b"\x07" + reject)
        if self.context.send >= NAS_LIMIT:
            return why.reply()
        return why.reply(to=b"\2", record=self.context.sent(2, UP, reject))

    def ServiceRequest(self) -> Reply:
        if self.link is not None:
            raise Refused("AlreadyConnected")
        context = self.in_use()
        record = context.sent(1, UP, b"\4")
        kenb = CALLS.kenb(context.root, context.send - 1)
        self.waiting = context.root, kenb
        return Reply(to=b"\2", record=record, derived=(kenb,))

    def SendNas(self, text: bytes) -> Reply:
        return Reply(to=b"\2", record=self.in_use().sent(2, UP, b"\5" + text))

    # The radio (TS 36.331 5.3, TS 36.323 5.1)

    def Air(self, station: int, air: int, bearer: int, pdu: bytes) -> Reply:
        if self.link is None:
            if self.waiting is None or bearer != SRB1:
                raise Refused("NotConnected")
            return self.secured(station, air, pdu)
        if (station, air) != (self.link.station, self.link.air):
            raise Refused("NotAddressed")
        return self.packet(self.link, bearer, pdu) if bearer in DRBS else self.signalled(self.link, bearer, pdu)

    def secured(self, station: int, air: int, pdu: bytes) -> Reply:
        """An RRC Security Mode Command: its MAC is by the algorithms that it names, and the Complete goes out plain."""
        assert self.waiting
        root, kenb = self.waiting
        if len(pdu) < 5:
            raise Refused("Short")
        if pdu[0] > 31:
            raise Refused("BadHeader", pdu[:1])
        text = texts.fields_of(records.RRC, pdu[1:-4])
        if text["kind"] != 1:
            raise Refused("WrongKind", bytes([text["kind"]]))
        if not self.has(text["algorithms"] >> 4):
            raise Refused("AlgUnsupported", bytes([text["algorithms"]]))
        link = RadioLink(station, air, text["algorithms"] >> 4, kenb, root, (0, kenb), False)
        _, count = link.opened(SRB1, pdu, 0)
        if (text["station"], text["air"]) != (station, air):
            raise Refused("NotAddressed")
        link.counts[SRB1].receive = count + 1
        self.link, self.waiting = link, None
        return dataclasses.replace(link.signalled(SRB1, b"\2", 0), derived=link.derived, note=Note(0, INITIAL, kenb))

    def signalled(self, link: RadioLink, bearer: int, pdu: bytes) -> Reply:
        plain, count = link.opened(bearer, pdu, link.eea)
        text = texts.fields_of(records.RRC, plain)
        if text["kind"] == 5:
            link.counts[bearer].receive = count + 1
            return Reply(text=text["text"])
        if text["kind"] not in (3, 6) or bearer == SRB2:
            raise Refused("WrongKind", bytes([text["kind"]]))
        if not self.has(text["algorithms"] >> 4):
            raise Refused("AlgUnsupported", bytes([text["algorithms"]]))
        return self.handed_over(link, text) if text["kind"] == 3 else self.changed(link, text)

    def handed_over(self, link: RadioLink, text: dict[str, Any]) -> Reply:
        """A handover (TS 33.401 7.2.8): the chain goes to the NCC, and KeNB* is made for the cell."""
        steps: list[bytes] = []
        number, sync = link.number, link.sync
        while number % 8 != text["NCC"]:
            sync = CALLS.nh(link.root, sync)
            number += 1
            steps.append(sync)
        star = CALLS.kenb_star(sync if steps else link.kenb, *place_of(text["cell"]))
        return self.arrived(text, star, link.root, (number, sync), tuple(steps), VERTICAL if steps else HORIZONTAL)

    def changed(self, link: RadioLink, text: dict[str, Any]) -> Reply:
        """A key change (TS 33.401 7.2.9.2): a new chain from KeNB of the KASME in use."""
        root = self.in_use().root
        if root == link.root:
            raise Refused("NoTrigger")
        kenb = CALLS.kenb(root, 0)
        star = CALLS.kenb_star(kenb, *place_of(text["cell"]))
        return self.arrived(text, star, root, (0, kenb), (kenb,), INITIAL)

    def arrived(
        self,
        text: dict[str, Any],
        star: bytes,
        root: bytes,
        chain: tuple[int, bytes],
        made: tuple[bytes, ...],
        way: int,
    ) -> Reply:
        """New keys, all bearers anew, and the Complete to the target."""
        self.link = link = RadioLink(text["station"], text["air"], text["algorithms"] >> 4, star, root, chain, True)
        sent = link.signalled(SRB1, b"\4", link.eea)
        return dataclasses.replace(sent, derived=(*made, star, *link.derived), note=Note(chain[0] % 8, way, star))

    def packet(self, link: RadioLink, bearer: int, pdu: bytes) -> Reply:
        return Reply(text=link.unpacked(bearer, pdu)[:1500])

    # Acts

    def ResendComplete(self) -> Reply:
        link = self.linked()
        if not link.by_handover:
            raise Refused("NothingToResend")
        return link.signalled(SRB1, b"\4", link.eea)

    def GoIdle(self) -> Reply:
        if self.link is None and self.waiting is None:
            raise Refused("NotConnected")
        self.link = self.waiting = None
        return Reply()

    def SendUser(self, bearer: int, text: bytes) -> Reply:
        return self.linked().packed(bearer, text)

    def SendRrc(self, bearer: int, text: bytes) -> Reply:
        link = self.linked()
        return link.signalled(bearer, b"\5" + text, link.eea)

    def Skip(self, bearer: int, n: int) -> Reply:
        if bearer == 0:
            self.in_use().skip(n)
        else:
            counts = self.linked().counts[bearer]
            counts.send = min(counts.send + n, BEARER_LIMIT)
        return Reply()


if __name__ == "__main__":
    serving.main("phone", Phone)
