"""The messages of a frame, from the layers that tshark decoded: S1AP, X2AP, RRC, S6a and GTPv2-C."""
from __future__ import annotations

from collections.abc import Callable, Iterable, Iterator, Mapping
from dataclasses import replace

from ..common.terms import TraceError
from .cells import sites_of
from .decoding import Message, MmContext, Pairs, begun, fresh, is_tree, key, leaves, number, octets
from .fields import Filling, algorithms, command
from .link_types import RAW, user_dlt
from .packets import layers_of, member
from .stations import FROM_STATION

Reader = Callable[[Message, Pairs], Iterator[Message]]

UNREADABLE = "unreadable"  # the link of what is no message, but has unknown fields
STATION_END, CORE_END = "station:0", "core:0"  # the ends of S1AP that came without addresses
HEADS = {  # the fields of a frame that are looked at, by layer
    "frame": ("frame.number", "frame.time_epoch", "frame.encap_type", "frame.cap_len", "frame.len"),
    "data": ("data.data",),
    "exported_pdu": ("exported_pdu.exported_pdu",),
    "ip": ("ip.src", "ip.dst"),
    "ipv6": ("ipv6.src", "ipv6.dst"),
    "sctp": ("sctp.srcport", "sctp.dstport", "sctp.verification_tag"),
}
OUTCOMES = ("initiatingMessage_element", "successfulOutcome_element", "unsuccessfulOutcome_element")


def of_packet(text: str, label: str, named: str) -> Iterator[Message]:
    """The messages of a packet, and what is to be said of the frame itself; `label` stands before its number."""
    layers = layers_of(text, named)
    told = heads(layers)
    base = based(label, told, tsns(layers), named)
    dlt, data = user_dlt(told.get("frame.encap_type", "")), told.get("data.data", "")
    if dlt is not None and data:
        yield replace(fresh(base, RAW, str(dlt)), nas=[octets(data)])
        return
    exported = told.get("exported_pdu.exported_pdu", "")
    fault = cut_off(told) or ("tshark calls it malformed" if any(name == "_ws.malformed" for name, _ in layers) else "")
    for layer, value in layers:
        if layer in READERS and is_tree(value):
            try:
                for message in rrc(base, value, exported) if layer == "lte_rrc" else READERS[layer](base, value):
                    fault = fault or message.fault
                    yield with_ends(message)
            except ValueError as why:
                yield fresh(base, UNREADABLE, f"tshark tells of it what is not known here ({why})")
    if fault:
        yield fresh(base, UNREADABLE, fault)


def based(label: str, told: Mapping[str, str], numbers: Iterable[str], named: str) -> Message:
    """What all messages of a frame have: its number and time, the addresses and ports of its ends, and the numbers of
    SCTP's DATA chunks."""
    try:
        time, chunks = float(told.get("frame.time_epoch", "")), tuple([int(one) for one in numbers if one.isdigit()])
    except ValueError:
        raise TraceError(f"{named} is not what tshark -T json prints: a packet without its time") from None
    source = f"{told.get('ip.src') or told.get('ipv6.src', '')}:{told.get('sctp.srcport', '')}"
    target = f"{told.get('ip.dst') or told.get('ipv6.dst', '')}:{told.get('sctp.dstport', '')}"
    return Message(
        label + told.get("frame.number", ""),
        time,
        "",
        "",
        source,
        target,
        told.get("sctp.verification_tag", ""),
        chunks,
    )


def heads(layers: Pairs) -> dict[str, str]:
    """The fields of a frame, each of the innermost layer that has it (with bundled messages SCTP is shown in
    pieces)."""
    found: dict[str, str] = {}
    for layer, value in layers:
        if layer in HEADS and is_tree(value):
            own = dict(reversed(value))  # of a name that comes again the first counts
            found.update((name, str(own[name])) for name in HEADS[layer] if own.get(name) is not None)
    return found


def tsns(layers: Pairs) -> Iterator[str]:
    """The numbers of SCTP's DATA chunks in a frame; a bundle shows each chunk in a tree of its own."""
    for layer, value in layers:
        for _, chunk in value if layer == "sctp" and is_tree(value) else []:
            yield str(member(chunk, "sctp.data_tsn_raw"))


def cut_off(told: Mapping[str, str]) -> str:
    """That the capture has only a part of a frame."""
    kept, whole = told.get("frame.cap_len", ""), told.get("frame.len", "")
    is_part = kept.isdigit() and whole.isdigit() and int(kept) < int(whole)
    return f"the capture has only {kept} of its {whole} octets (snap length)" if is_part else ""


def with_ends(message: Message) -> Message:
    """A message of S1 that came without addresses, as in a capture of S1AP alone, with the two ends that its name
    tells."""
    if message.link == "S1" and (message.source, message.target) == (":", ":"):
        ends = (STATION_END, CORE_END) if message.name in FROM_STATION else (CORE_END, STATION_END)
        message.source, message.target = ends
    return message


def child(pairs: Pairs, *names: str) -> Pairs:
    """The first of these trees below, or an empty one."""
    return next((value for name, value in pairs if name in names and is_tree(value)), [])


def pdu(base: Message, layer: str, value: Pairs) -> Iterator[Message]:
    """The message of an S1AP or X2AP layer."""
    tree = child(value, "s1ap.S1AP_PDU_tree", "x2ap.X2AP_PDU_tree")
    body = child(child(tree, *(f"{layer}.{outcome}" for outcome in OUTCOMES)), f"{layer}.value_element")
    none: tuple[str, Pairs] = ("", [])
    name, fields = next(((name, below) for name, below in body if name.endswith("_element") and is_tree(below)), none)
    if not name:
        raise ValueError("no message of it is decoded")
    name = name.removeprefix(f"{layer}.").removesuffix("_element")
    message = begun(base, "S1" if layer == "s1ap" else "X2", name)
    filling = Filling(message)
    filling.walk(fields)
    filling.done()
    if name.startswith(("X2Setup", "ENBConfigurationUpdate")):
        message.sites = list(sites_of(fields))
    if name == "RerouteNASRequest":  # it has a message of S1 in it, which comes again by itself
        message.nas = []
    yield message


def rrc(base: Message, value: Pairs, exported: str) -> Iterator[Message]:
    """The message of an RRC layer of its own: an exported PDU, or what Wireshark deciphered."""
    radio = [(path, name, below) for path, _, name, below in leaves(value)]
    names = [
        part
        for path, _, _ in radio
        for part in path
        if part.startswith("lte-rrc.") and part.endswith("_element") and "_Message" not in part
    ]
    if names:
        name = names[0].removeprefix("lte-rrc.").removesuffix("_element")
        told = command(radio, octets(exported) if exported else b"")
        nas = [octets(below) for _, field, below in radio if field.startswith("lte-rrc.dedicatedInfoNAS")]
        yield replace(
            begun(base, "RRC", name[0].upper() + name[1:]), command=told, algorithms=algorithms(radio), nas=nas
        )


def diameter(base: Message, value: Pairs) -> Iterator[Message]:
    """The KASMEs of an Authentication-Information-Answer of S6a (TS 29.272 7.3.2, 7.3.18)."""
    kasmes = [key(below) for _, _, name, below in leaves(value) if name == "diameter.KASME"]
    if kasmes:
        yield replace(begun(base, "S6a", "AuthenticationInformationAnswer"), kasmes=kasmes)


GTP_NAMES = {"129": "IdentificationResponse", "131": "ContextResponse", "133": "ForwardRelocationRequest"}


def gtpv2(base: Message, value: Pairs) -> Iterator[Message]:
    """The MM context of Forward Relocation Request, Context Response and Identification Response (TS 29.274 7.3.1,
    7.3.6, 8.38)."""
    found: dict[str, object] = {}
    for _, _, name, below in leaves(value):
        found.setdefault(name.removeprefix("gtpv2."), below)
    if "mm_context_kasme" not in found:
        return
    ksi = next((number(found[name]) for name in ("mm_context_ksi_a", "mm_context_ksi") if name in found), None)
    nh = key(found["mm_context_nh"]) if "mm_context_nh" in found else None
    kasme = key(found["mm_context_kasme"])
    old = None
    if {"mm_context_old_kasme", "mm_context.old_nh", "old_ncc"} <= set(found):
        old_ksi = number(found["old_ksiasme"]) if "old_ksiasme" in found else None
        old = MmContext(
            key(found["mm_context_old_kasme"]), old_ksi, key(found["mm_context.old_nh"]), number(found["old_ncc"])
        )
    context = MmContext(kasme, ksi, nh, number(found["mm_context_ncc"]) if "mm_context_ncc" in found else None, old)
    name = GTP_NAMES.get(str(found.get("message_type", "")), "message with an MM context")
    yield replace(begun(base, "GTPv2", name), kasmes=[kasme, *([old.kasme] if old else [])], mm=context)


READERS: dict[str, Reader] = {
    "s1ap": lambda message, value: pdu(message, "s1ap", value),
    "x2ap": lambda message, value: pdu(message, "x2ap", value),
    "lte_rrc": lambda message, value: rrc(message, value, ""),
    "diameter": diameter,
    "gtpv2": gtpv2,
}
