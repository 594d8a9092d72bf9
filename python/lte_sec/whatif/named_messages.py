"""The messages that `what-if --messages` names: by the steps that deliver them or by their names."""
from __future__ import annotations

from collections.abc import Mapping

from ..common.options import WrongWords

USER = "user packet"


def steps_of(wanted: str, messages: Mapping[str, str], packets: bool) -> tuple[str, ...]:
    """The steps of these messages, in their order. Each is a step or a name, which one message or more have."""
    there = {step: name for step, name in messages.items() if packets or name != USER}
    found: set[str] = set()
    for word in wanted.split(","):
        these = [step for step, name in there.items() if word.strip().lower() in (step, name.lower())]
        if not these:
            names = ", ".join(sorted(set(there.values()))) or "none"
            raise WrongWords(
                "--messages takes names or steps of messages, with commas between, "
                f"and not '{word}'; there are: {names}"
            )
        found.update(these)
    return tuple(step for step in there if step in found)
