"""A variant saved as a scenario that `run` takes."""
from __future__ import annotations

from pathlib import Path

from ..common.pairs import paired
from ..runs.courses import Course
from ..runs.scenarios import setup_text
from .probe import PROBE
from .study import Study, Variant, shown


def save(folder: Path, study: Study, variant: Variant, course: Course) -> Path:
    """Writes a variant and its probe."""
    name = "_".join(str(fault).replace(" ", "-") for fault in variant.faults)
    file = folder / f"{name}.toml"
    file.write_text("\n".join(lines(study, variant, course)) + "\n", encoding="utf-8")
    return file


def lines(study: Study, variant: Variant, course: Course) -> list[str]:
    """The lines: what was changed and what came of it, the setup, and each step with the step of the scenario."""
    messages = study.original.messages
    faults = " and ".join(f"{fault} ({messages[fault.item]})" for fault in variant.faults)
    head = [
        f"# {faults}: {', '.join(variant.outcomes)}.",
        *(f"# {word}: {about}" for word, about in variant.outcomes.items() if about.text),
    ]
    steps = [f"  {table}, # {comment(item.name, messages)}" for item, table in paired(course.items, course.steps)]
    return [*head, setup_text(study.scenario.setup).rstrip(), "step = [", *steps, "]"]


def comment(name: str, messages: dict[str, str]) -> str:
    """What a step is: its item, and the message that the scenario's brings."""
    if name.startswith(PROBE):
        return name.replace("+", ", what it sent")
    return shown(name) + (f": {messages[name]}" if name in messages else "")
