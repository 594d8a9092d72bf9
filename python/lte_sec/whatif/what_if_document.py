"""The answer of `what-if`: gathered, written as JSON and read again, merged of parts, and told as a table."""
from __future__ import annotations

from collections import Counter
from collections.abc import Iterator
from dataclasses import dataclass, field
from itertools import groupby
from typing import Any, NamedTuple

from ..common.pairs import paired
from ..runs.remarks import named, with_frames
from ..runs.variants import KINDS, Fault
from .chart import Chart, with_numbers
from .healing import Heals
from .outcomes import GOES_ON, NOT_MADE, RANK, USUAL_BAD, About, limit
from .study import Variant
from .variant_lists import Listed

MANY = {1: "variant", 2: "pair", 3: "triple"}
VERSION = 1  # of the document that --json prints
LINK = "docs/SCENARIOS.md#where-a-product-does-more"


@dataclass
class Answer:
    """What was tried of a scenario: how, its messages, the variants of one fault, those of more that bring something
    new, and counts."""

    tried: dict[str, Any]
    messages: dict[str, str]
    singles: list[Variant] = field(default_factory=list)
    together: list[Variant] = field(default_factory=list)
    counts: dict[int, Counter[str]] = field(default_factory=dict)
    part: tuple[int, int] | None = None
    whole: bool = True
    frames: dict[int, str] = field(default_factory=dict)  # of steps, where the scenario has them
    goal: dict[
        str, Any
    ] | None = None  # of a search for an outcome: what was searched, and the size of the smallest sets
    itself: list[str] = field(
        default_factory=list
    )  # what is wrong in the scenario without any fault, as lte_variants says it
    heals: Heals | None = None  # and what heals behind it
    chart: Chart | None = None  # its own course, where those of the variants are kept

    def sort(self) -> None:
        self.singles.sort(key=order)
        self.together.sort(key=order)

    def others(self) -> int:
        """How many variants have other outcomes by their own run than the program lists."""
        return sum(bool(variant.by_run) for variant in [*self.singles, *self.together])

    def worst(self) -> str | None:
        """The worst outcome of all, or None where nothing was tried."""
        words = [word for counts in self.counts.values() for word in counts]
        return max(words, key=RANK.__getitem__) if words else None


def order(variant: Variant) -> tuple[int, list[tuple[int, int, int]]]:
    """Variants stand by the number of their faults, and then by message, kind and place."""
    return len(variant.faults), [
        (int(fault.item), KINDS.index(fault.kind), int(fault.after or 0)) for fault in variant.faults
    ]


# As JSON


def to_json(answer: Answer) -> dict[str, Any]:
    variants, chart = [*answer.singles, *answer.together], answer.chart
    steps, runs = with_numbers(variant.run for variant in variants)
    charted = {} if chart is None else {"name": chart.name, "lanes": chart.lanes, "base": chart.base, "steps": steps}
    return {
        "version": VERSION,
        "tried": answer.tried,
        "part": f"{answer.part[0]}/{answer.part[1]}" if answer.part else None,
        "whole": answer.whole,
        "itself": [itself_json(line) for line in answer.itself],
        "heals": answer.heals and answer.heals.to_json(),
        "messages": [
            {"step": int(step), "message": message, "frame": answer.frames.get(int(step))}
            for step, message in answer.messages.items()
        ],
        "variants": [
            variant_json(variant, answer) | ({"run": run, "gone": variant.gone} if chart else {})
            for variant, run in paired(variants, runs)
        ],
        "counts": {
            str(faults): {word: counts[word] for word in RANK if counts[word]}
            for faults, counts in sorted(answer.counts.items())
        },
        **({"goal": answer.goal} if answer.goal else {}),
        **charted,
    }


def itself_json(line: str) -> dict[str, Any]:
    """What is wrong in the scenario itself: the outcome, and its step; none of `stuck`, and of keys that differ in the
    probe."""
    words = line.split(" ")
    return (
        {"is": "stuck", "step": None}
        if words == ["stuck"]
        else {"is": " ".join(words[:2]), "step": int(words[2]) if words[2].isdigit() else None}
    )


def itself_from(it: dict[str, Any]) -> str:
    return "stuck" if it["is"] == "stuck" else f"{it['is']} {'probe' if it['step'] is None else it['step']}"


def variant_json(variant: Variant, answer: Answer) -> dict[str, Any]:
    messages = answer.messages
    faults = [
        {"kind": fault.kind, "step": int(fault.item), "message": messages[fault.item]}
        | ({"after": int(fault.after)} if fault.after else {})
        for fault in variant.faults
    ]
    outcomes = [
        {
            "is": word,
            "what": str(about),
            "limit": limit(variant, word, messages),
            "is_limited": is_limited(variant, word, messages),
        }
        for word, about in variant.outcomes.items()
    ]
    return {
        "faults": faults,
        "outcomes": outcomes,
        "heals": variant.heals and variant.heals.to_json(),
        "answers": variant.answers,
    } | ({"by_run": variant.by_run} if variant.by_run else {})


def from_json(it: dict[str, Any]) -> Answer:
    part = it["part"]
    numbers = part.split("/") if part else []
    answer = Answer(it["tried"], {str(each["step"]): each["message"] for each in it["messages"]}, whole=it["whole"])
    answer.frames = {each["step"]: each["frame"] for each in it["messages"] if each.get("frame")}
    answer.part = (int(numbers[0]), int(numbers[1])) if numbers else None
    answer.chart = Chart(it["name"], it["lanes"], it["base"]) if "base" in it else None
    answer.itself, answer.heals = [itself_from(each) for each in it.get("itself", [])], Heals.from_json(it.get("heals"))
    for each in it["variants"]:
        faults = tuple(
            Fault(KINDS[KINDS.index(one["kind"])], str(one["step"]), str(one["after"]) if "after" in one else None)
            for one in each["faults"]
        )
        variant = Variant(
            faults,
            {
                one["is"]: About(
                    one["what"],
                    partly=one.get("is_limited", one["limit"] is not None),
                    is_read=True,
                    limit=one["limit"],
                )
                for one in each["outcomes"]
                if RANK[one["is"]] >= 0
            },
            each["answers"],
            gone=each.get("gone", []),
            by_run=each.get("by_run", []),
            heals=Heals.from_json(each.get("heals")),
        )
        variant.run = [it["steps"][entry] if isinstance(entry, int) else entry for entry in each.get("run", [])]
        (answer.singles if len(faults) == 1 else answer.together).append(variant)
    answer.counts = {int(faults): Counter(counts) for faults, counts in it["counts"].items()}
    return answer


def merged(parts: list[Answer]) -> Answer:
    """The whole of these parts, which are those of one."""
    first = parts[0]
    whole = Answer(
        first.tried, first.messages, frames=first.frames, chart=first.chart, itself=first.itself, heals=first.heals
    )
    for part in parts:
        whole.singles += part.singles
        whole.together += part.together
        for faults, counts in part.counts.items():
            whole.counts.setdefault(faults, Counter()).update(counts)
    whole.sort()
    return whole


# As a table


def table(answer: Answer) -> Iterator[str]:
    """The lines: what is wrong in the scenario itself, a table of messages and faults, each outcome worse than `goes
    on`, and the counts."""
    if answer.itself:
        yield (
            "without any fault: "
            f"{'; '.join(of_itself(line, answer.frames) for line in answer.itself)}{healed(answer.heals)}"
        )
        yield ""
    kinds: list[str] = [kind for kind in KINDS if kind in answer.tried["kinds"]]
    cells = {
        place: list(variants)
        for place, variants in groupby(answer.singles, lambda it: (it.faults[0].item, it.faults[0].kind))
    }
    width = max([len("message"), *map(len, answer.messages.values())])
    steps = max([4, *(len(named(step, answer.frames)) for step in answer.messages)])
    yield f"{'step':>{steps}} {'message':<{width}}" + "".join(f"  {kind:<20}" for kind in kinds).rstrip()
    for step, message in answer.messages.items():
        yield f"{named(step, answer.frames):>{steps}} {message:<{width}}" + "".join(
            f"  {cell(cells.get((step, kind), [])):<20}" for kind in kinds
        ).rstrip()
    told = [*tellings(answer.singles, answer), *tellings(answer.together, answer)]
    if told:
        yield ""
    yield from lines_of(told)
    yield "; ".join(counted(faults, answer) for faults in sorted(answer.counts)) or "no variant"


def of_itself(line: str, frames: dict[int, str]) -> str:
    """A line of the program on the scenario itself, in words."""
    word, _, step = line.rpartition(" ")
    if not word:
        return line
    if not step.isdigit():
        return f"{word} in the probe behind it"
    return f"{word} at step {named(step, frames)}" if word == USUAL_BAD else f"{word} of step {named(step, frames)}"


def cell(variants: list[Variant]) -> str:
    """The worst outcome of a message and a kind of fault, and at how many of its places it comes."""
    if not variants:
        return "-"
    worst = max((variant.worst for variant in variants), key=lambda word: RANK[word])
    at = sum(variant.worst == worst for variant in variants)
    return worst if at == len(variants) else f"{worst} {at}/{len(variants)}"


class Telling(NamedTuple):
    """A line, and whether something of it is a limit of this profile."""

    text: str
    is_limited: bool


def lines_of(told: list[Telling]) -> Iterator[str]:
    """These lines, and what `here` means, if it stands in one."""
    yield from (line.text for line in told)
    yield ""
    if any(line.is_limited for line in told):
        yield f"here: a limit of this profile and not of LTE, see {LINK}"


def tellings(variants: list[Variant], answer: Answer, above: int = RANK[GOES_ON]) -> Iterator[Telling]:
    """A line for variants that differ only in places, if they are worse than `goes on`, or than this rank; where
    something is not made, with the messages whose fault comes to the same, since one is the cause of the next."""
    messages, frames = answer.messages, answer.frames
    bad = [variant for variant in variants if variant.by_run or RANK[variant.worst] > above]
    told: list[tuple[Variant, list[list[Fault]]]] = [
        (variant, [[fault] for fault in variant.faults]) for variant in bad
    ]
    for at in reversed(range(max((len(variant.faults) for variant in bad), default=0))):
        told = together(told, at)
    lines: dict[tuple[int | None, str, bool], list[str]] = {}  # the messages of each line, by what it says behind them
    for number, (first, faults) in enumerate(told):
        outcomes = "; ".join(outcome(first, word, answer) for word in first.outcomes)
        answers = f", from {with_frames(', '.join(first.answers), frames)}" if first.answers else ""
        others = f" (its own run: {'; '.join(first.by_run)})" if first.by_run else ""
        before = "".join(f"{of_faults(each, messages, frames)} and " for each in faults[:-1])
        own = None if len(faults) == 1 and first.worst == NOT_MADE else number
        said = f"{of_places(faults[-1], frames)}: {outcomes}{answers}{healed(first.heals)}{others}"
        key = own, said, any(is_limited(first, word, messages) for word in first.outcomes)
        lines.setdefault(key, []).append(f"{before}{of_message(faults[-1][0], messages, frames)}")
    yield from (Telling(f"{', '.join(found)} {said}", is_limited) for (_, said, is_limited), found in lines.items())


def healed(heals: Heals | None) -> str:
    """What heals, behind a line."""
    return f"; heals: {heals}" if heals else ""


def together(told: list[tuple[Variant, list[list[Fault]]]], at: int) -> list[tuple[Variant, list[list[Fault]]]]:
    """What is told, with the places of one of the faults in one line where all else is the same."""
    groups: dict[tuple[object, ...], tuple[Variant, list[list[Fault]]]] = {}
    for variant, faults in told:
        if at >= len(faults):
            groups[variant.faults] = variant, faults
            continue
        others = tuple(tuple(each) for each in [*faults[:at], *faults[at + 1 :]])
        key = (
            others,
            faults[at][0].item,
            faults[at][0].kind,
            tuple(variant.outcomes.items()),
            tuple(variant.answers),
            tuple(variant.by_run),
            variant.heals,
        )
        if key in groups:
            groups[key][1][at].extend(faults[at])
        else:
            groups[key] = variant, faults
    return list(groups.values())


def is_limited(variant: Variant, word: str, messages: dict[str, str]) -> bool:
    """Whether an outcome, or a part of it, is a limit of this profile."""
    return limit(variant, word, messages) is not None or variant.outcomes[word].partly


def outcome(variant: Variant, word: str, answer: Answer) -> str:
    """An outcome with its limit and what it is about. The steps of keys that differ are the variant's own, which have
    no frames."""
    here, what = limit(variant, word, answer.messages), str(variant.outcomes[word])
    what = what if word == USUAL_BAD else with_frames(what, answer.frames)
    return word + (f" (here; {here})" if here else "") + (f" [{what}]" if what else "")


def of_faults(faults: list[Fault], messages: dict[str, str], frames: dict[int, str]) -> str:
    """Faults of one message and kind, in words."""
    return f"{of_message(faults[0], messages, frames)} {of_places(faults, frames)}"


def of_message(fault: Fault, messages: dict[str, str], frames: dict[int, str]) -> str:
    return f"{named(fault.item, frames)} {messages[fault.item]}"


def of_places(faults: list[Fault], frames: dict[int, str]) -> str:
    """Their kind, and their places."""
    after = (
        f" after {ranges([int(fault.after or 0) for fault in faults], frames)}" if faults[0].after is not None else ""
    )
    return f"{faults[0].kind}{after}"


def ranges(steps: list[int], frames: dict[int, str]) -> str:
    """Steps in words, three or more in a row as `12 to 14`."""
    words: list[str] = []
    for _, row in groupby(enumerate(steps), lambda it: it[1] - it[0]):
        names = [named(step, frames) for _, step in row]
        words += [f"{names[0]} to {names[-1]}"] if len(names) > 2 else names
    return ", ".join(words)


def counted(faults: int, answer: Answer) -> str:
    """How many variants of so many faults there are, and how many have which worst outcome."""
    counts = answer.counts[faults]
    number = sum(counts.values())
    what = f"{number:,} {MANY[faults]}{'' if number == 1 else 's'}" + (
        f" of {len(answer.messages)} message{'' if len(answer.messages) == 1 else 's'}" if faults == 1 else ""
    )
    words = [f"{counts[word]:,} {word}" for word in reversed(RANK) if counts[word]]
    new = sum(len(variant.faults) == faults for variant in answer.together)
    more = f", {new:,} of which bring{'s' if new == 1 else ''} something new" if faults > 1 else ""
    return f"{what}{more}: {', '.join(words)}"


def line(variant: Variant | Listed) -> str:
    """A variant in a line of its own."""
    return f"{' + '.join(map(str, variant.faults))}: {', '.join(variant.outcomes)}"
