"""What leads phone and station back to one key behind a variant, as the program `lte_variants` tells it: a reconnection
of seven events, or an authentication and a reconnection, eleven. Where neither does, its reason is the first refusal
among these eleven, by a run of its own."""
from __future__ import annotations

from dataclasses import dataclass
from typing import Any

EVENTS = {"reconnection": 7, "authentication": 11}
NOTHING = "nothing"


@dataclass(frozen=True)
class Heals:
    """What heals, and where nothing does the reason, if it is known."""

    by: str | None
    reason: str | None = None

    @property
    def events(self) -> int | None:
        return EVENTS[self.by] if self.by else None

    def __str__(self) -> str:
        if self.by:
            return f"{self.by}, {self.events} events"
        return f"no ({self.reason})" if self.reason else "no"

    @classmethod
    def listed(cls, word: str) -> Heals:
        """As the program has it."""
        return cls(None if word == NOTHING else word)

    def to_json(self) -> dict[str, Any]:
        return {"by": self.by, "events": self.events, "reason": self.reason}

    @classmethod
    def from_json(cls, it: dict[str, Any] | None) -> Heals | None:
        return cls(it["by"], it["reason"]) if it else None
