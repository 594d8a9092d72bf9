"""The names of the messages that the steps of a report of `run` send.

A report does not say what a record is, so a message has its name, in words of S1AP, X2AP, RRC and NAS, by what made its
sender send it.
"""
from __future__ import annotations

from ..common import tables
from ..nas.contexts import NAMES as NAMES_OF_NAS
from .run_report import StepLine


# What is sent, by who sends it and what made it: an act, or the message that came.
ACTS = {
    ("core", "smc"): "NAS Security Mode Command",
    ("core", "connect"): "Initial Context Setup Request",
    ("core", "release"): "UE Context Release Command",
    ("core", "nas"): "NAS text",
    ("phone", "service"): "Service Request",
    ("phone", "nas"): "NAS text",
    ("phone", "resend"): "RRC Reconfiguration Complete",
    ("station", "x2"): "X2 Handover Request",
    ("station", "s1"): "Handover Required",
    ("station", "command"): "RRC Reconfiguration",
    ("station", "ask"): "Path Switch Request",
}
NAMES = ACTS | tables.sent()


NAS_TEXT, EMM = "NAS text", 7


def nas_name(text: str) -> str:
    """What a NAS text is, by its type, where it is one of EMM (TS 24.301 9.8)."""
    octets = bytes.fromhex(text)
    return NAMES_OF_NAS.get(octets[1], NAS_TEXT) if len(octets) > 1 and octets[0] == EMM else NAS_TEXT


class Names:
    """The names of what the steps of a run send, told step by step."""

    def __init__(self) -> None:
        self.origins: dict[tuple[str, str], str] = {}

    def of(self, line: StepLine, cause: str) -> str:
        """What a step sends, by its line and by what brought it: an act, or the name of the message that came."""
        if line.note:
            self.origins.setdefault((line.who, line.note.key), cause)
        who = line.who.split()[0]
        if cause in ("user", "rrc"):
            return "user packet" if cause == "user" else "RRC text"
        if cause == "cancel":
            return "X2 Handover Cancel" if line.kind == "x2" else "Handover Cancel"
        if who == "phone" and cause == "NAS Security Mode Command" and line.answer != "done":
            return "NAS Security Mode Reject"
        if (
            who == "station"
            and cause == "RRC Reconfiguration Complete"
            and line.note
            and self.origins.get((line.who, line.note.key)) == "Handover Request"
        ):
            return "Handover Notify"
        return NAMES.get((who, cause), "record")
