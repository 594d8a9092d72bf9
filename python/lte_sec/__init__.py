"""The names of `import lte_sec`: of LTE access security (TS 33.401) the proved calls (keys, ciphers, NAS messages, PDCP
PDUs, a phone's chain), and what judges captures and logs and runs scenarios. docs/PYTHON.md has a page of it.

    >>> import lte_sec
    >>> key = lte_sec.kenb(bytes.fromhex("000102030405060708090a0b0c0d0e0f101112131415161718191a1b1c1d1e1f"), count=0)
    >>> lte_sec.kenb_star(key, pci=11, earfcn=101).hex()
    '4f92e8cee01ca1f84e022ac503175c61f6792a8fe01fa36a8e154c3910ba1a1c'

Each name is loaded where it is first used, so that what needs no library works without one.
"""
from __future__ import annotations

import importlib
from typing import TYPE_CHECKING

if TYPE_CHECKING:
    from .api import (
        Change,
        JudgedTrace,
        KeyOrigin,
        LadderKey,
        MessageFault,
        RunStep,
        ScenarioRun,
        TraceLine,
        TriedVariant,
        WhatIf,
        WordFails,
        check_trace,
        explain,
        run,
        what_if,
    )
    from .captures.cells import Site
    from .library import (
        DISCARDED,
        DOWNLINK,
        EEA0,
        EEA1,
        EEA2,
        EEA3,
        EIA0,
        EIA1,
        EIA2,
        EIA3,
        LATE,
        NEW,
        UPLINK,
        BadHeader,
        BeforeFirst,
        CountSpent,
        DrbContext,
        MacFails,
        NasContext,
        Opened,
        OtherCount,
        OutOfRange,
        Reached,
        Refused,
        Short,
        SrbContext,
        algorithm_key,
        check_service_request,
        eea1,
        eea2,
        eea3,
        eia1,
        eia2,
        eia3,
        kasme,
        kenb,
        kenb_star,
        nh,
        proved,
        reach,
        service_request,
        short_mac_i,
    )
    from .common.report import Verdict
    from .common.terms import TraceError

__all__ = [
    "Change",
    "JudgedTrace",
    "KeyOrigin",
    "LadderKey",
    "MessageFault",
    "RunStep",
    "ScenarioRun",
    "Site",
    "TraceError",
    "TraceLine",
    "TriedVariant",
    "Verdict",
    "WhatIf",
    "WordFails",
    "check_trace",
    "explain",
    "run",
    "what_if",
    "DISCARDED",
    "DOWNLINK",
    "EEA0",
    "EEA1",
    "EEA2",
    "EEA3",
    "EIA0",
    "EIA1",
    "EIA2",
    "EIA3",
    "LATE",
    "NEW",
    "UPLINK",
    "BadHeader",
    "BeforeFirst",
    "CountSpent",
    "DrbContext",
    "MacFails",
    "NasContext",
    "Opened",
    "OtherCount",
    "OutOfRange",
    "Reached",
    "Refused",
    "Short",
    "SrbContext",
    "algorithm_key",
    "check_service_request",
    "eea1",
    "eea2",
    "eea3",
    "eia1",
    "eia2",
    "eia3",
    "kasme",
    "kenb",
    "kenb_star",
    "nh",
    "proved",
    "reach",
    "service_request",
    "short_mac_i",
]
WHERE = dict.fromkeys(__all__[: __all__.index("DISCARDED")], "api") | {
    "Site": "captures.cells",
    "TraceError": "common.terms",
    "Verdict": "common.report",
}  # and else in the library


def __getattr__(name: str) -> object:
    if name not in __all__:
        raise AttributeError(f"module {__name__} has no {name}")
    found: object = getattr(importlib.import_module(f".{WHERE.get(name, 'library')}", __name__), name)
    globals()[name] = found
    return found


def __dir__() -> list[str]:
    return sorted(__all__)
