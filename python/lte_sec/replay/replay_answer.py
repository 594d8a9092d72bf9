"""What `replay` tells: lines, a document, and a scenario with the frame of each step."""
from __future__ import annotations

from collections.abc import Iterator
from dataclasses import dataclass, field

from ..common.pairs import paired
from .comparison import ComparedKey, ReplayVerdict, Replayed

VERSION = 1  # of the document that --json prints; it changes where a field goes or changes its meaning
WORDS = {ReplayVerdict.SAME: "same", ReplayVerdict.DIFFERS: "differ", ReplayVerdict.NOT_REPLAYED: "not replayed"}
SECRETS = "A scenario of a capture has KASME in it, and the NAS texts of its phone: identities, APN"
NO_TEXTS = "A scenario of a capture has KASME in it; its NAS texts are zeros"


@dataclass
class ReplayedPart:
    """A scenario of a phone: its number, as 1, or 1.2 where it has several; and the KASMEs of the phone."""

    number: str
    kasmes: list[str]
    done: Replayed
    file: str = ""


@dataclass
class ReplayedCapture:
    """All that was replayed of a capture, and the keys that are of no phone."""

    captures: list[str]
    parts: list[ReplayedPart] = field(default_factory=list)
    others: list[ComparedKey] = field(default_factory=list)
    texts: bool = True

    def told(self) -> list[ComparedKey]:
        return [*(told for part in self.parts for told in part.done.told), *self.others]

    def counts(self) -> dict[str, int]:
        told = self.told()
        return {word: sum(one.verdict == verdict for one in told) for verdict, word in WORDS.items()}

    def status(self) -> int:
        """0: each key is the same. 1: one differs. 3: none differs, and one is not replayed, or there is none."""
        verdicts = {one.verdict for one in self.told()}
        return 1 if ReplayVerdict.DIFFERS in verdicts else 0 if verdicts == {ReplayVerdict.SAME} else 3

    def lines(self) -> Iterator[str]:
        for part in self.parts:
            head = f"phone {part.number}: " if len(self.parts) > 1 else ""
            yield from (head + one.text for one in part.done.told)
            yield from (f"{head}assumed: frame {at.frame}: {at.text}" for at in part.done.script.assumed)
            yield from (head + one.text for one in part.done.refused)
        yield from (one.text for one in self.others)
        yield ", ".join(f"{number} {word}" for word, number in self.counts().items())

    def document(self) -> dict[str, object]:
        return {
            "version": VERSION,
            "phones": [document_of(part) for part in self.parts],
            "others": [key_of(one) for one in self.others],
            "summary": self.counts(),
            "status": self.status(),
        }


def key_of(one: ComparedKey) -> dict[str, object]:
    return {
        "frame": one.frame,
        "message": one.message,
        "what": one.what,
        "verdict": one.verdict.value,
        "is": one.term,
        "ncc": one.ncc,
        "run": one.run_term,
        "run_ncc": one.run_ncc,
        "step": one.step,
        "reason": one.reason,
        "follows": one.follows or None,
        "text": one.text,
    }


def document_of(part: ReplayedPart) -> dict[str, object]:
    done = part.done
    return {
        "phone": part.number,
        "kasmes": part.kasmes,
        "file": part.file or None,
        "steps": len(done.course.items),
        "keys": [key_of(one) for one in done.told],
        "assumed": [{"frame": at.frame, "text": at.text} for at in done.script.assumed],
        "refused": [
            {"step": one.step, "do": one.do, "frame": one.frame, "answer": one.answer, "text": one.text}
            for one in done.refused
        ],
    }


def scenario_of(answer: ReplayedCapture, part: ReplayedPart) -> str:
    """The scenario as a text: above the steps of a message a remark with its frame."""
    script, course = part.done.script, part.done.course
    lines = [
        f"# Phone {part.number} of {' and '.join(answer.captures)}, as a capture shows it.",
        f"# {SECRETS if answer.texts else NO_TEXTS}.",
        *(f"# assumed: frame {at.frame}: {at.text}" for at in script.assumed),
        "",
        script.setup().rstrip(),
        "step = [",
    ]
    before = ""
    for item, step in paired(course.items, course.steps):
        remark = str(script.at[item.name])
        if remark != before:
            lines.append(f"  # {remark}")
        before = remark
        lines.append(f"  {step},")
    return "\n".join([*lines, "]", ""])
