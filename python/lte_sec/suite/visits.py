"""Which row of its table an actor takes: told from what it is told, its reply, and the little of its state that both
show.

A watch goes with one actor that answers as the written machine does. It is given each input with its reply, in order,
and says the row.
"""
from __future__ import annotations

from lte_sec.common import tables
from lte_sec.drive import frames, records
from lte_sec.suite.rows import Visit

HORIZONTAL, VERTICAL, INITIAL = (frames.WAYS.index(way) for way in ("horizontal", "vertical", "initial"))
REJECTED = ("WrongKsi", "AlgUnsupported", "MacFails", "CapsMismatch")
CUT = "cut to 1,500 octets"
KINDS = ("X2", "S1", "within")
KEY_CHANGE = "UE Context Modification Request"
CAME = {
    "Path Switch Request": "X2",
    "Handover Notify": "S1",
}  # over what the phone came, by what its station sends then


def answer_of(reply: frames.Reply) -> str:
    return frames.ANSWERS[reply.answer][0]


def value_of(reply: frames.Reply, name: str) -> int:
    """A value that the answer keeps."""
    return int(frames.values_of(frames.ANSWERS[reply.answer][1], reply.values)[name])


def octets_of(told: frames.Input) -> bytes:
    octets = told.fields["pdu"]
    assert isinstance(octets, bytes)
    return octets


def is_signalling(told: frames.Input) -> bool:
    return told.fields["bearer"] in frames.SRBS


def is_cut(told: frames.Input, reply: frames.Reply) -> bool:
    """Whether a packet is longer than the text of it that is handed on."""
    return reply.text is not None and len(octets_of(told)) > len(reply.text) + 2


class Watch:
    """What all three have: the visit of an input by the methods of its name, `state` and way of a done or refused
    step."""

    actor = ""

    def visit(self, told: frames.Input, reply: frames.Reply, made_by: str) -> Visit:
        """The row of this input; `made_by` is the input by which its record was made, where another actor made it."""
        answer = answer_of(reply)
        took = getattr(self, f"on_{told.name}", None)
        came, state, way = took(told, reply, answer, made_by) if took else (told.name, "any", "")
        return Visit(self.actor, came, state, answer, way)


RowParts = tuple[str, str, str]


class PhoneWatch(Watch):
    """A phone: idle, connecting or connected."""

    actor = "phone"

    def __init__(self) -> None:
        self.radio = "idle"

    def on_ServiceRequest(self, told: frames.Input, reply: frames.Reply, answer: str, made_by: str) -> RowParts:
        if answer == "done":
            self.radio = "connecting"
        return told.name, "any", ""

    def on_GoIdle(self, told: frames.Input, reply: frames.Reply, answer: str, made_by: str) -> RowParts:
        self.radio = "idle"
        return told.name, "any", ""

    def on_Skip(self, told: frames.Input, reply: frames.Reply, answer: str, made_by: str) -> RowParts:
        return "Skip, NAS" if told.fields["bearer"] == 0 else "Skip, bearer", "any", ""

    def on_Nas(self, told: frames.Input, reply: frames.Reply, answer: str, made_by: str) -> RowParts:
        if answer in ("Short", "BadHeader"):
            return "Nas, first octet", "any", ""
        if octets_of(told)[0] >> 4 != 3:
            return "Nas, header 1 or 2", "any", ""
        way = ""
        if answer in REJECTED:
            way = (
                "no Reject"
                if reply.record is None
                else "Reject plain"
                if reply.record[:1] == b"\x07"
                else "Reject protected"
            )
        elif answer == "done":
            way = "connected" if self.radio == "connected" else "not connected"
            self.radio = "connected" if self.radio == "connected" else "connecting"
        return "Nas, header 3", "any", way

    def on_Air(self, told: frames.Input, reply: frames.Reply, answer: str, made_by: str) -> RowParts:
        if self.radio != "connected":
            before, self.radio = self.radio, "connected" if answer == "done" else self.radio
            return "Air", before, ""
        if not is_signalling(told):
            return "Air, DRB", "connected", CUT if is_cut(told, reply) else ""
        way = ""
        if answer == "done":
            way = (
                {HORIZONTAL: "horizontal", VERTICAL: "vertical", INITIAL: "key change"}[reply.note.way]
                if reply.note
                else "text"
            )
        return "Air, SRB", "connected", way


class StationWatch(Watch):
    """A station: its context's air address and whether its security starts, and its attempt, by kind and stage."""

    actor = "station"

    def __init__(self) -> None:
        self.air: int | None = None
        self.is_starting = False
        self.attempt, self.stage = "", ""

    def drop(self) -> None:
        self.air, self.is_starting, self.attempt = None, False, ""

    def on_S1(self, told: frames.Input, reply: frames.Reply, answer: str, made_by: str) -> RowParts:
        return self.record("S1", records.S1, told, reply, answer)

    def on_X2(self, told: frames.Input, reply: frames.Reply, answer: str, made_by: str) -> RowParts:
        return self.record("X2", records.X2, told, reply, answer)

    def record(
        self, interface: str, forms: dict[int, tables.Form], told: frames.Input, reply: frames.Reply, answer: str
    ) -> RowParts:
        octets = octets_of(told)
        if answer in ("BadRecord", "WrongKind"):
            return interface, "any", ""
        message, way = forms[octets[0]][0], ""
        if answer == "done":
            self.taken(message, reply)
        if answer == "OldConnection" and message == KEY_CHANGE:
            way = "the connection" if value_of(reply, "got") == int.from_bytes(octets[1:5], "big") else "the next one"
        return message, "any", way

    def taken(self, message: str, reply: frames.Reply) -> None:
        """What a record that is done with changes."""
        if message == "Initial Context Setup Request":
            self.air, self.is_starting, self.attempt = int.from_bytes(reply.to[2:6], "big"), True, ""
        elif message in ("UE Context Release Command", "X2 UE Context Release"):
            self.drop()
        elif message in ("Handover Command", "X2 Handover Request Acknowledge"):
            self.stage = "ready"
        elif message == KEY_CHANGE:
            self.attempt, self.stage = "key change", "commanded"

    def on_Air(self, told: frames.Input, reply: frames.Reply, answer: str, made_by: str) -> RowParts:
        if answer == "NotAddressed":
            return "Air", "no such address", ""
        if told.fields["air"] != self.air:
            return "Air", "preparation", self.prepared(told, reply, answer)
        if self.is_starting:
            self.is_starting = answer != "done"
            return "Air", "starting", ""
        if not is_signalling(told):
            return "Air, DRB", "active", CUT if is_cut(told, reply) else ""
        return "Air, SRB", "active", "" if answer != "done" else "Complete again" if reply.text is None else "text"

    def prepared(self, told: frames.Input, reply: frames.Reply, answer: str) -> str:
        """The way of a record at the air address of a preparation."""
        if answer == "NotActive":
            return "text" if told.fields["bearer"] == frames.SRBS[0] else "bearer"
        if answer != "done":
            return ""
        way = (
            CAME[records.S1[reply.record[0]][0]]
            if reply.record
            else "key change"
            if self.attempt == "key change"
            else "within"
        )
        self.drop()
        self.air = int(str(told.fields["air"]))
        return way

    def on_Start(self, told: frames.Input, reply: frames.Reply, answer: str, made_by: str) -> RowParts:
        kind = KINDS[int(str(told.fields["way"]))]
        way = ""
        if answer == "done":
            self.attempt, self.stage = kind, "ready" if kind == "within" else "open"
            way = frames.WAYS[reply.note.way] if reply.note else ""
        return f"Start {kind}", "any", way

    def on_Command(self, told: frames.Input, reply: frames.Reply, answer: str, made_by: str) -> RowParts:
        if answer != "done":
            return told.name, "any", ""
        way = self.attempt + (", again" if self.stage == "commanded" else "")
        self.stage = "commanded"
        return told.name, "any", way

    def on_Cancel(self, told: frames.Input, reply: frames.Reply, answer: str, made_by: str) -> RowParts:
        if answer != "done":
            return told.name, "any", ""
        way, self.attempt = f"{self.attempt}, {self.stage}", ""
        return told.name, "any", way


class CoreWatch(Watch):
    """The core: whether a connection stands."""

    actor = "core"

    def __init__(self) -> None:
        self.is_linked = False

    def on_Connect(self, told: frames.Input, reply: frames.Reply, answer: str, made_by: str) -> RowParts:
        self.is_linked = self.is_linked or answer == "done"
        return told.name, "any", ""

    def on_Release(self, told: frames.Input, reply: frames.Reply, answer: str, made_by: str) -> RowParts:
        self.is_linked = False
        return told.name, "any", ""

    def on_Nas(self, told: frames.Input, reply: frames.Reply, answer: str, made_by: str) -> RowParts:
        octets = octets_of(told)
        if not octets or answer == "BadHeader" and octets[0] != 0x07:
            return "Nas, first octet", "any", ""
        header, way = octets[0] >> 4, ""
        if header == 4 and answer == "done":
            way = "key change" if reply.record else "no number left" if self.is_linked else "no connection"
        elif header in (1, 2) and answer == "done":
            way = (
                "text"
                if reply.text is not None
                else "Service Request"
                if made_by == "ServiceRequest"
                else "Security Mode Reject"
            )
        return f"Nas, header {'1 or 2' if header in (1, 2) else header}", "any", way

    def on_S1(self, told: frames.Input, reply: frames.Reply, answer: str, made_by: str) -> RowParts:
        if answer in ("BadRecord", "WrongKind"):
            return "S1", "any", ""
        way = "alarm" if reply.alarm else ""
        if answer == "OldConnection":
            way = "another connection" if value_of(reply, "held") else "no connection"
        return records.S1[octets_of(told)[0]][0], "any", way


def watch(actor: str) -> Watch:
    return {"phone": PhoneWatch, "station": StationWatch, "core": CoreWatch}[actor]()
