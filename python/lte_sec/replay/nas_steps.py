"""NAS messages of a capture as steps: authentications, Security Mode exchanges, Service Requests, and texts under their
COUNTs.

A Security Mode Complete changes the key of a standing connection at once here. A product changes it later, and path
switches between are answered from the old chain. So what comes from the Complete on waits for the key change that the
capture shows, or a release.
"""
from __future__ import annotations

from collections.abc import Callable
from dataclasses import dataclass, field

from ..common.causes import Why
from ..nas.contexts import COMMAND, COMPLETE, SERVICE_REQUEST
from ..nas.plain import replayed
from .recording import CapturedNas, KeySeen, Met
from .script import At, Script

AT_ONCE = 250  # COUNTs that are skipped before a text: at 256 the receiver's estimate fails (TS 24.301 4.4.3.1)
FARTHEST = 300_000  # COUNTs that are skipped at the most
LONGEST = 200  # octets of a text
NO_KSI = 7


@dataclass
class ReplayedKey:
    """A key of the capture: the item whose line has it in the run, or why it is not replayed."""

    met: Met
    key: KeySeen
    item: str = ""
    why: Why = ()


@dataclass
class ReplayedNasContext:
    """A NAS context as phone and core have it in the run: the next COUNTs."""

    kasme: str
    up: int = 0
    down: int = 0
    complete: str = ""  # the item that sends the Security Mode Complete


@dataclass
class NasSteps:
    """What the run has of NAS so far."""

    script: Script
    kasmes: dict[str, bytes]
    texts: bool  # whether NAS texts are as in the capture, or zeros
    triggers: set[tuple[str, int]]  # KASME and COUNT of each KeNB of a connection
    rows: list[ReplayedKey] = field(default_factory=list)
    context: ReplayedNasContext | None = None  # in use at the phone
    commanded: ReplayedNasContext | None = None  # by a Security Mode Command
    mode: str = ""  # the item that sends it
    held: list[Callable[[], object]] | None = None  # what waits for a key change
    trigger: tuple[str, int] | None = None  # KASME and COUNT at which the core makes the next KeNB
    used: list[str] = field(default_factory=list)  # KASMEs so far
    ksi: int = -1
    whole: str = "the capture"  # or a part of it

    # -- of the whole

    @property
    def is_connected(self) -> bool:
        raise NotImplementedError

    def end(self, at: At) -> None:
        raise NotImplementedError

    def not_replayed(self, met: Met, why: Why, key: KeySeen | None = None) -> None:
        seen = key or met.key
        if seen is not None:
            self.rows.append(ReplayedKey(met, seen, "", why))

    # -- messages

    def nas(self, met: Met) -> None:
        for one in met.nas:
            self.message(met, one)

    def message(self, met: Met, one: CapturedNas) -> None:
        """One protected message whose MAC is right, or whose KeNB tells that it was taken."""
        at = At(met.frame, f"{met.title}: {one.name}" if one.name else met.title)
        asks = one.is_up and (one.kasme, one.count) in self.triggers
        if not one.is_right and not (asks and one.header >= SERVICE_REQUEST):
            return
        if one.header == COMMAND and not one.is_up:
            self.mode_command(met, one, at)
        elif one.header == COMPLETE and one.is_up and self.commanded is not None and self.commanded.kasme == one.kasme:
            self.mode_complete(at)
        elif self.has(one.kasme, met) and (
            one.header >= SERVICE_REQUEST or asks and one.header != COMPLETE or asks and one.count != 0
        ):
            self.later(lambda: self.service(one.count, at))
        elif self.context is not None and self.context.kasme == one.kasme and one.header not in (COMMAND, COMPLETE):
            self.later(lambda: self.text(one, at))

    def mode_command(self, met: Met, one: CapturedNas, at: At) -> None:
        plain = one.plain or b""
        ksi = plain[3] & 7 if len(plain) > 3 else NO_KSI
        known = (self.commanded, self.context)
        if any(context is not None and context.kasme == one.kasme for context in known) or one.kasme in self.used:
            return  # sent again, or for the KASME in use, or for one that was in use before
        if not self.script.caps:
            told = replayed(plain)
            self.script.caps = told[:2].hex() if told else ""
            self.algorithms(plain, met.frame)
        self.authenticate(one.kasme, ksi, at)

    def algorithms(self, plain: bytes, frame: str) -> None:
        chosen = plain[2] if len(plain) > 2 else 0x22
        self.script.null_ciphering = not chosen >> 4 & 7
        if chosen >> 4 & 7 not in (0, 2) or chosen & 7 != 2:
            self.script.assume(
                frame,
                (
                    f"128-EEA2 and 128-EIA2 in place of EEA{chosen >> 4 & 7} and EIA{chosen & 7}; no key of a line "
                    "depends on them"
                ),
            )

    def authenticate(self, kasme: str, ksi: int, at: At) -> None:
        """A new KASME, and the Security Mode Command of the core."""
        if self.held is not None:  # the core takes one Complete after the other
            self.change_now(at)
        self.ksi = ksi if ksi < NO_KSI else (self.ksi + 1) % NO_KSI
        self.script.act({"do": "auth", "ksi": self.ksi, "kasme": self.kasmes[kasme].hex()}, at)
        self.mode = self.script.act({"do": "smc"}, at)
        self.commanded = ReplayedNasContext(kasme, 0, 1)
        self.used.append(kasme)

    def mode_complete(self, at: At) -> None:
        """The phone takes the new context; the core does so once no connection stands, or with the key change."""
        assert self.commanded is not None
        self.context, self.commanded = self.commanded, None
        self.context.complete = self.script.deliver(self.mode, at)
        self.context.up = 1
        if self.is_connected:
            self.held = []
        else:
            self.completed(at, False)

    def completed(self, at: At, sends: bool) -> str:
        """The Complete comes to the core."""
        assert self.context is not None
        self.trigger = (self.context.kasme, 0)
        return self.script.deliver(self.context.complete, at, sends)

    def release_held(self, at: At, sends: bool) -> str:
        """What waited happens; answers the item with which the Complete came to the core."""
        waiting, self.held = self.held or [], None
        item = self.completed(at, sends)
        for each in waiting:
            each()
        return item

    def change_now(self, at: At) -> None:
        raise NotImplementedError

    def later(self, act: Callable[[], object]) -> None:
        if self.held is not None:
            self.held.append(act)
        else:
            act()

    # -- contexts that the capture does not bring into use

    def has(self, kasme: str, met: Met) -> bool:
        """Whether the phone has this KASME in use, if need be by an exchange that the capture lacks."""
        if self.context is not None and self.context.kasme == kasme:
            return True
        if self.commanded is not None and self.commanded.kasme == kasme:
            self.mode_complete(
                self.script.assume(
                    met.frame, f"the Security Mode Complete of {kasme} is not in {self.whole} before this"
                )
            )
            return True
        if kasme not in self.kasmes or kasme in self.used:
            return False
        at = self.script.assume(met.frame, f"the Security Mode exchange of {kasme} is not in {self.whole} before this")
        self.authenticate(kasme, NO_KSI, at)
        self.mode_complete(at)
        return True

    # -- texts and requests

    def skip(self, is_up: bool, count: int, at: At) -> bool:
        """Brings the sender to a COUNT, with an empty text before the receiver's estimate would fail; whether it is not
        behind."""
        assert self.context is not None
        who, next_one = ("phone", self.context.up) if is_up else ("core", self.context.down)
        if not next_one <= count <= next_one + FARTHEST:
            return False
        while next_one < count:
            n = min(count - next_one, AT_ONCE)
            self.script.act({"do": "skip", "who": who, "bearer": "nas", "n": n}, at)
            next_one += n
            if next_one < count:
                self.script.deliver(self.script.act({"do": "nas", "from": who, "text": ""}, at), at, False)
                next_one += 1
        return True

    def took(self, is_up: bool, count: int) -> None:
        assert self.context is not None
        if is_up:
            self.context.up = count + 1
        else:
            self.context.down = count + 1

    def service(self, count: int, at: At) -> bool:
        """A request for a connection at a COUNT; whether it can be made."""
        if self.context is None:
            return False
        if self.is_connected:
            self.end(at)
        if not self.skip(True, count, at):
            return False
        self.script.deliver(self.script.act({"do": "service"}, at), at, False)
        self.took(True, count)
        self.trigger = (self.context.kasme, count)
        return True

    def text(self, one: CapturedNas, at: At) -> None:
        if self.context is None or self.context.kasme != one.kasme or not self.skip(one.is_up, one.count, at):
            return
        octets = (one.plain or b"")[:LONGEST]
        told = octets if self.texts else bytes(len(octets))
        sent = self.script.act({"do": "nas", "from": "phone" if one.is_up else "core", "text": told.hex()}, at)
        self.script.deliver(sent, at, False)
        self.took(one.is_up, one.count)
