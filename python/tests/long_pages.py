"""Pages of many frames."""
from __future__ import annotations

from typing import Any

from lte_sec.pages import trace_page

from .test_pages import trace


def many(frames: int) -> dict[str, Any]:
    """The page of a trace of so many frames: the simulated one many times over, with keys of their own."""
    one = trace_page.page(trace())
    page: dict[str, Any] = {**one, "events": [], "keys": []}
    events, keys = one["events"], one["keys"]
    for turn in range(-(-frames // len(events))):
        shift, at = len(page["keys"]), len(page["events"])
        for key in keys:
            page["keys"].append(
                {
                    **key,
                    "hex": f"{turn:08x}{key['hex'][8:]}",
                    "from": None if key["from"] is None else key["from"] + shift,
                    "at": [place + at for place in key["at"]],
                }
            )
        for event in events:
            lines = [
                {**line, **{name: line[name] + shift for name in ("isk", "wantk", "chain") if name in line}}
                for line in event.get("l", [])
            ]
            page["events"].append(
                {
                    **event,
                    "f": str(len(page["events"]) + 1),
                    "t": float(len(page["events"])),
                    "v": event["v"] if turn % 50 == 7 or event["v"] != "bad" else "ok",
                    "l": lines,
                }
            )
    return page
