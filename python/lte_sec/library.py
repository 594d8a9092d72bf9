"""The proved calls of LTE access security, over octets: derivations, ciphers, NAS messages, PDCP PDUs and a phone's
chain.

It calls the library that `./lte_sec library` builds (`native`). Keys and MACs are `bytes`; a direction is `UPLINK` or
`DOWNLINK`; a bearer is BEARER, the identity minus 1. A call that is refused raises `Refused`, with one class for each
cause. AES uses tables, so the time of a call may depend on key and text: for tests, references and files.
"""
from __future__ import annotations

import ctypes
from ctypes import byref, c_size_t, c_uint32
from dataclasses import dataclass
from typing import Any

from .native import DrbState, FoundState, NasState, PhoneState, ReachedState, SrbState, calls
from .call_refusals import (
    MAC_FAILS,
    BadHeader,
    BeforeFirst,
    CountSpent,
    MacFails,
    OtherCount,
    OutOfRange,
    Refused,
    Short,
)
from .call_refusals import checked_key, checked_number, key_octets, raises

__all__ = [
    "EEA0",
    "EEA1",
    "EEA2",
    "EEA3",
    "EIA0",
    "EIA1",
    "EIA2",
    "EIA3",
    "DOWNLINK",
    "UPLINK",
    "DISCARDED",
    "LATE",
    "NEW",
    "BadHeader",
    "BeforeFirst",
    "CountSpent",
    "MacFails",
    "OtherCount",
    "OutOfRange",
    "Refused",
    "Short",
    "DrbContext",
    "NasContext",
    "Opened",
    "Reached",
    "SrbContext",
    "algorithm_key",
    "check_service_request",
    "eea1",
    "eea2",
    "eea3",
    "eia1",
    "eia2",
    "eia3",
    "kasme",
    "kenb",
    "kenb_star",
    "nh",
    "proved",
    "reach",
    "service_request",
    "short_mac_i",
]

UPLINK, DOWNLINK = 0, 1
EEA0, EEA1, EEA2, EEA3 = range(4)
EIA0, EIA1, EIA2, EIA3 = range(4)
NEW, LATE, DISCARDED = range(3)  # what becomes of a PDU on RLC AM


def proved() -> bool:
    """Whether the library was built by its proof, and not by `./lte_sec library --unproved`."""
    return bool(calls.ltesec_proved())


# ---- derivations (TS 33.401 Annex A)


def kasme(ck: bytes, ik: bytes, plmn: bytes, sqn_xor_ak: bytes) -> bytes:
    """KASME from CK and IK: the PLMN identity in three octets, as TS 24.301 9.9.3.32 writes it, and SQN xor AK in six
    (A.2)."""
    out = ctypes.create_string_buffer(32)
    calls.ltesec_kasme(checked_key(ck, 16), checked_key(ik, 16), checked_key(plmn, 3), checked_key(sqn_xor_ak, 6), out)
    return out.raw


def kenb(kasme: bytes, count: int) -> bytes:
    """KeNB from KASME at an uplink NAS COUNT, of 24 bits (A.3)."""
    out = ctypes.create_string_buffer(32)
    raises(calls.ltesec_kenb(checked_key(kasme), checked_number(count), out))
    return out.raw


def nh(kasme: bytes, sync: bytes) -> bytes:
    """NH from KASME and the SYNC-input: the KeNB for the first NH, and else the NH before (A.4)."""
    out = ctypes.create_string_buffer(32)
    calls.ltesec_nh(checked_key(kasme), checked_key(sync), out)
    return out.raw


def kenb_star(key: bytes, pci: int, earfcn: int) -> bytes:
    """KeNB* from NH or KeNB for a cell: PCI 0 to 503, EARFCN-DL 0 to 262143 (A.5)."""
    out = ctypes.create_string_buffer(32)
    raises(calls.ltesec_kenb_star(checked_key(key), checked_number(pci), checked_number(earfcn), out))
    return out.raw


def algorithm_key(key: bytes, type: int, identity: int) -> bytes:
    """The whole algorithm key, 32 octets, from KASME or KeNB: type 1 to 6, identity 0 to 15 (A.7)."""
    out = ctypes.create_string_buffer(32)
    raises(calls.ltesec_algorithm_key(checked_key(key), checked_number(type), checked_number(identity), out))
    return out.raw


# ---- ciphers (TS 33.401 Annex B)


def _ciphered(call: Any, key16: bytes, count: int, bearer: int, direction: int, text: bytes) -> bytes:
    out = ctypes.create_string_buffer(bytes(text), max(len(text), 1))
    numbers = checked_number(count), checked_number(bearer), checked_number(direction)
    raises(call(checked_key(key16, 16), *numbers, out, len(text)))
    return out.raw[: len(text)]


def _mac(call: Any, key16: bytes, count: int, bearer: int, direction: int, text: bytes) -> bytes:
    out = ctypes.create_string_buffer(4)
    numbers = checked_number(count), checked_number(bearer), checked_number(direction)
    raises(call(checked_key(key16, 16), *numbers, bytes(text), len(text), out))
    return out.raw


def eea1(key16: bytes, count: int, bearer: int, direction: int, text: bytes) -> bytes:
    """128-EEA1, SNOW 3G: the text enciphered, or deciphered (B.1.2)."""
    return _ciphered(calls.ltesec_eea1, key16, count, bearer, direction, text)


def eea2(key16: bytes, count: int, bearer: int, direction: int, text: bytes) -> bytes:
    """128-EEA2, AES: the text enciphered, or deciphered (B.1.3)."""
    return _ciphered(calls.ltesec_eea2, key16, count, bearer, direction, text)


def eea3(key16: bytes, count: int, bearer: int, direction: int, text: bytes) -> bytes:
    """128-EEA3, ZUC: the text enciphered, or deciphered (B.1.4)."""
    return _ciphered(calls.ltesec_eea3, key16, count, bearer, direction, text)


def eia1(key16: bytes, count: int, bearer: int, direction: int, text: bytes) -> bytes:
    """128-EIA1, SNOW 3G: the MAC of a text, four octets (B.2.2)."""
    return _mac(calls.ltesec_eia1, key16, count, bearer, direction, text)


def eia2(key16: bytes, count: int, bearer: int, direction: int, text: bytes) -> bytes:
    """128-EIA2, AES: the MAC of a text, four octets (B.2.3)."""
    return _mac(calls.ltesec_eia2, key16, count, bearer, direction, text)


def eia3(key16: bytes, count: int, bearer: int, direction: int, text: bytes) -> bytes:
    """128-EIA3, ZUC: the MAC of a text, four octets (B.2.4)."""
    return _mac(calls.ltesec_eia3, key16, count, bearer, direction, text)


# ---- NAS messages and PDCP PDUs


@dataclass(frozen=True)
class Opened:
    """What a PDU held: its text, its COUNT, the security header type of a NAS message, else 0, and whether a MAC was
    compared, which it is not under EIA0 and on a DRB. `fate` is what becomes of a PDU on RLC AM: NEW, LATE or
    DISCARDED."""

    text: bytes
    count: int
    header: int
    checked: bool = True
    fate: int = NEW


class _Context:
    """What the contexts share: a struct of the library, and its COUNTs."""

    _kind: str

    def __init__(self, held: Any):
        self._held = held

    @property
    def send_count(self) -> int:
        """The next COUNT to send."""
        return int(self._held.send)

    @property
    def receive_count(self) -> int:
        """The next COUNT to receive."""
        return int(self._held.receive)

    def _sends(self, call: str, numbers: tuple[int, ...], text: bytes, longer: int) -> bytes:
        out, written = ctypes.create_string_buffer(len(text) + longer), c_size_t()
        send = getattr(calls, f"ltesec_{self._kind}_{call}")
        raises(
            send(
                byref(self._held), *map(checked_number, numbers), bytes(text), len(text), out, len(out), byref(written)
            )
        )
        return out.raw[: written.value]

    def _opens(self, call: str, numbers: tuple[int, ...], pdu: bytes) -> Opened:
        out, found = ctypes.create_string_buffer(max(len(pdu), 1)), FoundState()
        opens = getattr(calls, f"ltesec_{self._kind}_{call}")
        status = opens(
            byref(self._held), *map(checked_number, numbers), bytes(pdu), len(pdu), out, len(out), byref(found)
        )
        raises(status, found)
        return Opened(out.raw[: found.length], found.count, found.header, bool(found.checked))

    def open_at(self, count: int, direction: int, pdu: bytes) -> Opened:
        """Opens a PDU at this COUNT, whatever is expected."""
        return self._opens("open_at", (count, direction), pdu)


class NasContext(_Context):
    """A NAS security context: KNASenc and KNASint, 32 octets each, and the next COUNTs (TS 24.301 4.4)."""

    _kind = "nas"

    def __init__(
        self, enc_key: bytes, int_key: bytes, eea: int = EEA2, send: int = 0, receive: int = 0, eia: int = EIA2
    ):
        numbers = map(checked_number, (send, receive, eea, eia))
        super().__init__(NasState(key_octets(enc_key), key_octets(int_key), *numbers))

    def seal(self, header: int, direction: int, text: bytes) -> bytes:
        """The message of a text under the next COUNT, which it takes. The header type is 1 to 4."""
        return self._sends("seal", (header, direction), text, 6)

    def open(self, direction: int, pdu: bytes) -> Opened:
        """Opens a message under the least COUNT at or above the next one to receive; `accept` then takes that COUNT."""
        return self._opens("open", (direction,), pdu)

    def accept(self, count: int) -> None:
        """Takes the COUNT of a message that opened: the one after it is the next to receive."""
        raises(calls.ltesec_nas_accept(byref(self._held), checked_number(count)))


class SrbContext(_Context):
    """A signalling radio bearer: KRRCenc and KRRCint, 32 octets each, and the next COUNTs (TS 36.323 5.6 and 5.7)."""

    _kind = "srb"

    def __init__(
        self,
        enc_key: bytes,
        int_key: bytes,
        bearer: int,
        eea: int = EEA2,
        send: int = 0,
        receive: int = 0,
        eia: int = EIA2,
    ):
        counts = checked_number(send, 64), checked_number(receive, 64)
        super().__init__(
            SrbState(key_octets(enc_key), key_octets(int_key), *counts, *map(checked_number, (bearer, eea, eia)))
        )

    def send(self, direction: int, text: bytes) -> bytes:
        """The PDU of a text under the next COUNT, which it takes."""
        return self._sends("send", (direction,), text, 5)

    def open(self, direction: int, pdu: bytes) -> Opened:
        """Opens a PDU under the least COUNT at or above the next one to receive; `accept` then takes that COUNT."""
        return self._opens("open", (direction,), pdu)

    def accept(self, count: int) -> None:
        """Takes the COUNT of a PDU that opened: the one after it is the next to receive."""
        raises(calls.ltesec_srb_accept(byref(self._held), checked_number(count)))


class DrbContext(_Context):
    """A data radio bearer: KUPenc, 32 octets, the bits of its sequence numbers, and the next COUNTs (TS 36.323 5.6)."""

    _kind = "drb"

    def __init__(self, enc_key: bytes, bearer: int, bits: int = 12, eea: int = EEA2, send: int = 0, receive: int = 0):
        counts = checked_number(send, 64), checked_number(receive, 64)
        super().__init__(
            DrbState(key_octets(enc_key), *counts, checked_number(bearer), checked_number(eea), checked_number(bits))
        )

    def send(self, direction: int, text: bytes) -> bytes:
        """The PDU of a text under the next COUNT, which it takes."""
        return self._sends("send", (direction,), text, 3)

    def receive(self, direction: int, pdu: bytes) -> Opened:
        """Opens a PDU under the least COUNT at or above the next one to receive, as on RLC UM, and takes that COUNT.
        Nothing is verified."""
        return self._opens("receive", (direction,), pdu)

    def receive_am(self, last: int, direction: int, pdu: bytes) -> Opened:
        """Opens a PDU on RLC AM by the reordering window (5.1.2.1.2): `fate` says what becomes of it, and a new one
        moves the next COUNT.

        `last` is Last_Submitted_PDCP_RX_SN: the sequence number of the last text handed on, and at first the greatest
        one.
        """
        out, found, fate = ctypes.create_string_buffer(max(len(pdu), 1)), FoundState(), c_uint32()
        numbers = checked_number(last), checked_number(direction)
        raises(
            calls.ltesec_drb_receive_am(
                byref(self._held), *numbers, bytes(pdu), len(pdu), out, len(out), byref(found), byref(fate)
            ),
            found,
        )
        return Opened(out.raw[: found.length], found.count, 0, False, fate.value)


# ---- short MACs


def service_request(int_key: bytes, ksi: int, count: int, eia: int = EIA2) -> bytes:
    """A Service Request under KNASint at an uplink NAS COUNT: four octets (TS 24.301 8.2.25)."""
    out = ctypes.create_string_buffer(4)
    raises(
        calls.ltesec_service_request(
            checked_number(eia), checked_key(int_key), checked_number(ksi), checked_number(count), out
        )
    )
    return out.raw


def check_service_request(int_key: bytes, next: int, request: bytes, eia: int = EIA2) -> int:
    """The COUNT of a Service Request: the least at or above `next` with its 5 bits, where its short MAC is right."""
    if len(request) != 4:
        raise Short("a Service Request has four octets")
    found = FoundState()
    status = calls.ltesec_service_request_check(
        checked_number(eia), checked_key(int_key), checked_number(next), bytes(request), byref(found)
    )
    if status == MAC_FAILS:
        raise MacFails(found.count, bytes(found.wanted)[:2], bytes(found.got)[:2])
    raises(status)
    return int(found.count)


def short_mac_i(int_key: bytes, input: bytes, eia: int = EIA2) -> bytes:
    """shortMAC-I under KRRCint over the encoded VarShortMAC-Input: two octets (TS 36.331 5.3.7.4)."""
    out = ctypes.create_string_buffer(2)
    raises(calls.ltesec_short_mac_i(checked_number(eia), checked_key(int_key), bytes(input), len(input), out))
    return out.raw


# ---- the chain of a phone (TS 33.401 7.2.8.4.4)


@dataclass(frozen=True)
class Reached:
    """What a phone comes to: the NH steps, the NH (or the SYNC-input as it was) and KeNB*."""

    steps: int
    sync: bytes
    star: bytes

    @property
    def is_vertical(self) -> bool:
        """Whether KeNB* is derived of an NH, and not of the active KeNB."""
        return self.steps > 0


def reach(kasme: bytes, active: bytes, sync: bytes, own_ncc: int, ncc: int, pci: int, earfcn: int) -> Reached:
    """What a phone with this chain makes of a handover command with an NCC, 0 to 7, for a cell.

    `sync` is the NH of its own NCC, or the first KeNB of the chain where there was no NH yet."""
    phone = PhoneState(key_octets(kasme), key_octets(active), key_octets(sync), checked_number(own_ncc))
    reached = ReachedState()
    raises(
        calls.ltesec_reach(
            byref(phone), checked_number(ncc), checked_number(pci), checked_number(earfcn), byref(reached)
        )
    )
    return Reached(reached.steps, bytes(reached.sync), bytes(reached.star))
