"""The fields of a message that say something of keys: what tshark calls them, and where they belong in a message."""
from __future__ import annotations

from collections import deque
from collections.abc import Callable
from typing import Optional

from .decoding import Command, Message, Pairs, Radio, Reestablishment, bits, key, leaves, number, octets

OLD_X2 = 10  # the number of a protocol IE (TS 36.423 9.3.7)
WIDE = 65535  # an EARFCN that stands in an extension instead (TS 36.331 6.2.2, TS 36.423 9.2.26)


def eci_of(text: object) -> int:
    return number(text) if str(text).startswith("0x") or ":" not in str(text) else bits(text, 28)


def three(text: object) -> int:
    """The first three bits of a bitmap of algorithms."""
    return bits(text, 3)


SIMPLE: dict[str, tuple[str, Callable[[object], object]]] = {
    "s1ap.ENB_UE_S1AP_ID": ("enb_id", number),
    "s1ap.eNB_UE_S1AP_ID": ("enb_id", number),
    "s1ap.MME_UE_S1AP_ID": ("mme_id", number),
    "s1ap.mME_UE_S1AP_ID": ("mme_id", number),
    "x2ap.mME_UE_S1AP_ID": ("mme_id", number),
    "s1ap.SecurityKey": ("key", key),
    "x2ap.key_eNodeB_star": ("key", key),
    "s1ap.nextHopParameter": ("nh", key),
    "s1ap.nextHopChainingCount": ("ncc", number),
    "x2ap.nextHopChainingCount": ("ncc", number),
    "s1ap.m_TMSI": ("tmsi", lambda text: bits(text, 32) if ":" in str(text) else number(text)),
    "s1ap.Source_ToTarget_TransparentContainer": ("container", octets),
    "s1ap.Target_ToSource_TransparentContainer": ("container", octets),
    "x2ap.TargeteNBtoSource_eNBTransparentContainer": ("container", octets),
    "s1ap.HandoverType": ("kind", number),
    "s1ap.RRC_Establishment_Cause": ("cause", number),
    "lte-rrc.sourcePhysCellId": ("source_pci", number),
    "lte-rrc.sourceUE_Identity": ("rnti", octets),
    "s1ap.CellIdentity": ("eci", eci_of),
    "x2ap.eUTRANcellIdentifier": ("eci", lambda text: bits(text, 28)),
    "x2ap.EUTRANCellIdentifier": ("eci", lambda text: bits(text, 28)),
    "lte-rrc.cellIdentity": ("source_eci", lambda text: bits(text, 28)),
    "s1ap.macroENB_ID": ("station", lambda text: bits(text, 20)),
    "x2ap.macro_eNB_ID": ("station", lambda text: bits(text, 20)),
    "s1ap.homeENB_ID": ("station", lambda text: bits(text, 28)),
    "x2ap.home_eNB_ID": ("station", lambda text: bits(text, 28)),
    "s1ap.ENBname": ("station_name", str),
    "s1ap.MMEname": ("core_name", str),
}
SECRETS = {
    "x2ap.SgNBSecurityKey": "S-KgNB",
    "x2ap.sgNB_SecurityKey": "S-KgNB",
    "x2ap.SeNBSecurityKey": "S-KeNB",
    "x2ap.seNB_SecurityKey": "S-KeNB",
}
CAPABILITIES = ("encryptionAlgorithms", "integrityProtectionAlgorithms")
GROUPS, CODES = ("s1ap.mME_Group_ID", "s1ap.MME_Group_ID", "x2ap.mME_Group_ID"), (
    "s1ap.mME_Code",
    "s1ap.MME_Code",
    "x2ap.mME_Code",
)
NAS_PDUS, X2_ID = ("s1ap.NAS_PDU", "s1ap.nAS_PDU"), "x2ap.UE_X2AP_ID"
REESTABLISHMENT = "lte-rrc.AdditionalReestabInfo_element"
OTHER_CELLS = ("uE_HistoryInformation_tree", "neighbour_Info_tree")
NUMBERED = ("s1ap.id", "x2ap.id")  # the number of the IE that follows
MOST_NAMES = 10_000  # whose kind is kept; a name may have what a message says in it


class Filling:
    """A message that its fields are put into; of a name that comes again the first counts."""

    def __init__(self, message: Message):
        self.message = message
        self.radio: Radio = []
        self.groups: list[int] = []
        self.codes: list[int] = []
        self.able: dict[str, int] = {}

    def walk(self, pairs: Pairs, ie: int = -1, path: tuple[str, ...] = (), within: bool = False) -> None:
        """Takes each field below, with the names above it, the number of the innermost IE, and whether it is of a cell
        for re-establishment."""
        for name, value in pairs:
            take = TAKES[name]
            if take is numbers:
                ie = number(value)
            if value.__class__ is list and value and value[0].__class__ is tuple:  # type: ignore[index]
                if take is passes:
                    deque(leaves(value), 0)  # type: ignore[arg-type] # their numbers must be numbers, too
                else:
                    self.walk(value, ie, (*path, name), within or name == REESTABLISHMENT)  # type: ignore[arg-type]
                continue
            if take is radio:
                self.radio.append((path, name, value))
                take = SIMPLE_OF_RADIO.get(name)
            if take is not None and not within:
                take(self, value, ie)

    def done(self) -> None:
        """What several fields say together."""
        message, able = self.message, self.able
        if self.radio:
            message.command, message.algorithms, message.reestablishment = (
                command(self.radio, b""),
                algorithms(self.radio),
                reestablishments(self.radio),
            )
        if self.groups and self.codes:
            message.gummeis = [(group, code) for group in self.groups for code in self.codes]
        if len(able) == len(CAPABILITIES):
            message.capabilities = able[CAPABILITIES[0]], able[CAPABILITIES[1]]


Take = Callable[[Filling, object, int], None]  # takes the value of a field, with the number of its IE


def numbers(filling: Filling, value: object, ie: int) -> None:
    """It numbers the IE that follows."""


def passes(filling: Filling, value: object, ie: int) -> None:
    """It has cells that are not those of the message."""


def radio(filling: Filling, value: object, ie: int) -> None:
    """It is of RRC, whose fields count with the names above them."""


def simple(attribute: str, read: Callable[[object], object]) -> Take:
    def take(filling: Filling, value: object, ie: int) -> None:
        if getattr(filling.message, attribute) in (None, ""):
            setattr(filling.message, attribute, read(value))

    return take


def nas(filling: Filling, value: object, ie: int) -> None:
    filling.message.nas.append(octets(value))


def x2_id(filling: Filling, value: object, ie: int) -> None:
    setattr(filling.message, "old_x2" if ie == OLD_X2 else "new_x2", number(value))


def secret(name: str) -> Take:
    return lambda filling, value, ie: filling.message.secrets.append((name, octets(value)))


def capability(name: str) -> Take:
    def take(filling: Filling, value: object, ie: int) -> None:
        filling.able.setdefault(name, three(value))

    return take


def malformed(filling: Filling, value: object, ie: int) -> None:
    filling.message.fault = "tshark calls it malformed"


def group(filling: Filling, value: object, ie: int) -> None:
    filling.groups.append(number(value))


def code(filling: Filling, value: object, ie: int) -> None:
    filling.codes.append(number(value))


EXACT: dict[str, Take] = {
    **dict.fromkeys(NUMBERED, numbers),
    **dict.fromkeys(NAS_PDUS, nas),
    X2_ID: x2_id,
    **dict.fromkeys(GROUPS, group),
    **dict.fromkeys(CODES, code),
    **{name: secret(told) for name, told in SECRETS.items()},
    **{name: simple(*told) for name, told in SIMPLE.items()},
}
SIMPLE_OF_RADIO = {name: EXACT[name] for name in SIMPLE if name.startswith("lte-rrc.")}


class Takes(dict[str, Optional[Take]]):
    """What becomes of the value of each name, which is decided once; None of what says nothing of keys."""

    def __missing__(self, name: str) -> Take | None:
        found = take_of(name)
        if len(self) < MOST_NAMES:
            self[name] = found
        return found


def take_of(name: str) -> Take | None:
    if name.startswith("lte-rrc."):
        return radio
    if name in EXACT:
        return EXACT[name]
    if name.endswith(OTHER_CELLS):
        return passes
    ability = name.partition(".")[2]
    if ability in CAPABILITIES:
        return capability(ability)
    return malformed if name.startswith(("_ws.malformed", "per.error")) else None


TAKES = Takes()


def algorithms(radio: Radio) -> tuple[int, int] | None:
    found = {
        name: number(value)
        for _, name, value in reversed(radio)
        if name in ("lte-rrc.cipheringAlgorithm", "lte-rrc.integrityProtAlgorithm")
    }
    return (found["lte-rrc.cipheringAlgorithm"], found["lte-rrc.integrityProtAlgorithm"]) if len(found) == 2 else None


def reestablishments(radio: Radio) -> list[Reestablishment]:
    """The cells for re-establishment of a handover's RRC context."""
    items: dict[tuple[str, ...], dict[str, object]] = {}
    for path, name, value in radio:
        if REESTABLISHMENT in path:
            items.setdefault(path[: path.index(REESTABLISHMENT) + 1], {})[name.removeprefix("lte-rrc.")] = value
    return [
        Reestablishment(bits(one["cellIdentity"], 28), key(one["key_eNodeB_Star"]), octets(one["shortMAC_I"]))
        for one in items.values()
        if {"cellIdentity", "key_eNodeB_Star", "shortMAC_I"} <= set(one)
    ]


TOLD = (
    "targetPhysCellId",
    "nextHopChainingCount",
    "dl_CarrierFreq",
    "dl_CarrierFreq_v9e0",
    "keyChangeIndicator",
)  # what a command tells


def command(radio: Radio, whole: bytes) -> Command | None:
    """The handover command among RRC values, or None."""
    found: dict[str, int] = {}
    for path, name, value in radio:
        inside = "lte-rrc.mobilityControlInfo_element" in path or "lte-rrc.securityConfigHO_element" in path
        if name == "lte-rrc.handoverCommandMessage":
            whole = octets(value)
        elif inside and str(value).isdigit():
            found.setdefault(name.removeprefix("lte-rrc."), number(value))
    if "targetPhysCellId" not in found and "nextHopChainingCount" not in found:
        return None
    earfcn = found.get("dl_CarrierFreq")
    if earfcn == WIDE:
        earfcn = found.get("dl_CarrierFreq_v9e0", earfcn)
    return Command(
        found.get("nextHopChainingCount"),
        found.get("targetPhysCellId"),
        earfcn,
        bool(found.get("keyChangeIndicator")),
        whole,
    )
