"""The library that `./lte_sec library` builds, loaded by ctypes: its structs, and the types of its calls."""
from __future__ import annotations

import ctypes
import os
from ctypes import POINTER, Structure, c_size_t, c_uint8, c_uint32, c_uint64
from pathlib import Path
from typing import Any


class FoundState(Structure):
    _fields_ = [
        ("length", c_size_t),
        ("count", c_uint32),
        ("header", c_uint32),
        ("wanted", c_uint8 * 4),
        ("got", c_uint8 * 4),
        ("checked", c_uint32),
    ]


class NasState(Structure):
    _fields_ = [
        ("enc_key", c_uint8 * 32),
        ("int_key", c_uint8 * 32),
        ("send", c_uint32),
        ("receive", c_uint32),
        ("eea", c_uint32),
        ("eia", c_uint32),
    ]


class SrbState(Structure):
    _fields_ = [
        ("enc_key", c_uint8 * 32),
        ("int_key", c_uint8 * 32),
        ("send", c_uint64),
        ("receive", c_uint64),
        ("bearer", c_uint32),
        ("eea", c_uint32),
        ("eia", c_uint32),
    ]


class DrbState(Structure):
    _fields_ = [
        ("enc_key", c_uint8 * 32),
        ("send", c_uint64),
        ("receive", c_uint64),
        ("bearer", c_uint32),
        ("eea", c_uint32),
        ("bits", c_uint32),
    ]


class PhoneState(Structure):
    _fields_ = [("kasme", c_uint8 * 32), ("active", c_uint8 * 32), ("sync", c_uint8 * 32), ("ncc", c_uint32)]


class ReachedState(Structure):
    _fields_ = [("sync", c_uint8 * 32), ("star", c_uint8 * 32), ("steps", c_uint32)]


OCTETS, OUT = ctypes.c_char_p, ctypes.c_void_p
CIPHER = [OCTETS, c_uint32, c_uint32, c_uint32, OUT, c_size_t]
MAC = [OCTETS, c_uint32, c_uint32, c_uint32, OCTETS, c_size_t, OUT]
OPEN = [c_uint32, OCTETS, c_size_t, OUT, c_size_t, POINTER(FoundState)]
SEND = [c_uint32, OCTETS, c_size_t, OUT, c_size_t, POINTER(c_size_t)]
TAKES: dict[str, list[Any]] = {
    "version": [],
    "proved": [],
    "kasme": [OCTETS, OCTETS, OCTETS, OCTETS, OUT],
    "kenb": [OCTETS, c_uint32, OUT],
    "nh": [OCTETS, OCTETS, OUT],
    "kenb_star": [OCTETS, c_uint32, c_uint32, OUT],
    "algorithm_key": [OCTETS, c_uint32, c_uint32, OUT],
    "eea1": CIPHER,
    "eea2": CIPHER,
    "eea3": CIPHER,
    "eia1": MAC,
    "eia2": MAC,
    "eia3": MAC,
    "nas_seal": [POINTER(NasState), c_uint32, *SEND],
    "nas_open": [POINTER(NasState), *OPEN],
    "nas_open_at": [POINTER(NasState), c_uint32, *OPEN],
    "nas_accept": [POINTER(NasState), c_uint32],
    "service_request": [c_uint32, OCTETS, c_uint32, c_uint32, OUT],
    "service_request_check": [c_uint32, OCTETS, c_uint32, OCTETS, POINTER(FoundState)],
    "short_mac_i": [c_uint32, OCTETS, OCTETS, c_size_t, OUT],
    "srb_send": [POINTER(SrbState), *SEND],
    "srb_open": [POINTER(SrbState), *OPEN],
    "srb_open_at": [POINTER(SrbState), c_uint32, *OPEN],
    "srb_accept": [POINTER(SrbState), c_uint32],
    "drb_send": [POINTER(DrbState), *SEND],
    "drb_receive": [POINTER(DrbState), *OPEN],
    "drb_receive_am": [POINTER(DrbState), c_uint32, *OPEN, POINTER(c_uint32)],
    "drb_open_at": [POINTER(DrbState), c_uint32, *OPEN],
    "reach": [POINTER(PhoneState), c_uint32, c_uint32, c_uint32, POINTER(ReachedState)],
}
NOTHING = ("kasme", "nh")
VERSION = 2  # of the calls and structs, as `lte_sec.h` has it


def places() -> list[Path]:
    """Where the library may lie: as the environment says, beside this file, or where the launcher builds it."""
    here = Path(__file__).resolve()
    named = os.environ.get("LTE_SEC_LIBRARY")
    return (
        [Path(named)] if named else [here.with_name("liblte_sec.so"), here.parents[2] / "library/built/liblte_sec.so"]
    )


def load() -> ctypes.CDLL:
    """The library, with the types of its calls."""
    for place in places():
        if place.is_file():
            library = ctypes.CDLL(str(place))
            break
    else:
        raise ImportError("liblte_sec.so is not built: run ./lte_sec library, or name it in LTE_SEC_LIBRARY")
    if not hasattr(library, "ltesec_proved") or library.ltesec_version() != VERSION:
        raise ImportError(f"{place} is of another version than this package: run ./lte_sec library")
    for name, takes in TAKES.items():
        call = getattr(library, f"ltesec_{name}")
        call.argtypes = takes
        call.restype = None if name in NOTHING else c_uint32
    return library


calls = load()
