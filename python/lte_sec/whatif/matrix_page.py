"""The page of the variants of a scenario: made of the document that `what-if --json` prints. It has no key: keys have
numbers."""
from __future__ import annotations

from collections.abc import Iterator

from ..common.escaped import shown
from ..pages.trace_page import GLYPHS, Json
from .healing import Heals
from .outcomes import GOES_ON, LOOKS, RANK, WORDS

MARKS = {
    "bad": "refused, and not so in the scenario",
    "unk": "otherwise than in the scenario",
    "none": "as in the scenario",
}

DARK = ("keys differ",)  # outcomes whose colour wants a white letter


class Texts:
    """Texts, each once."""

    def __init__(self) -> None:
        self.places: dict[str, int] = {}

    def put(self, text: str) -> int:
        return self.places.setdefault(text, len(self.places))


def name_of(variant: Json) -> str:
    """The name of a variant of one fault in the address of the page."""
    fault = variant["faults"][0]
    return f"{fault['step']}.{fault['kind']}" + (f".{fault['after']}" if "after" in fault else "")


def fault_of(fault: Json) -> str:
    return f"step {fault['step']} {fault['message']} {fault['kind']}" + (
        f" after step {fault['after']}" if "after" in fault else ""
    )


def row(variant: Json, texts: Texts, places: dict[str, int], base: list[Json]) -> Json:
    fault = variant["faults"][0]
    outcomes = [
        [places[one["is"]], texts.put(one["what"]), None if one["limit"] is None else texts.put(one["limit"])]
        for one in variant["outcomes"]
    ]
    names = {step["f"]: step["m"] for step in base if "note" not in step}
    found = {
        "id": name_of(variant),
        "kind": fault["kind"],
        "step": str(fault["step"]),
        "o": outcomes,
        "ans": [texts.put(one) for one in variant["answers"]],
        "run": variant["run"],
        "heals": variant.get("heals") and texts.put(str(Heals.from_json(variant["heals"]))),
        "gone": [texts.put(f"step {name} {names.get(name, '')}") for name in variant["gone"]],
    }
    return found | ({"after": str(fault["after"])} if "after" in fault else {})


def outcomes_of(document: Json) -> list[Json]:
    """The outcomes, the worst first, and how many variants of one fault have each as their worst."""
    counts = document["counts"].get("1", {})
    return [
        {
            "id": word.replace(" ", "-"),
            "word": word,
            "letter": LOOKS[word].letter,
            "colour": LOOKS[word].colour,
            "ink": "#ffffff" if word in DARK else "#000000",
            "means": LOOKS[word].means,
            "isBad": RANK[word] > RANK[GOES_ON],
            "many": counts.get(word, 0),
        }
        for word in reversed(WORDS)
    ]


def together(document: Json, places: dict[str, int]) -> list[Json]:
    """Pairs and triples that bring something new, by their worst outcome."""
    found: dict[int, list[str]] = {}
    for variant in document["variants"]:
        if len(variant["faults"]) > 1:
            words = ", ".join(one["is"] for one in variant["outcomes"])
            found.setdefault(places[variant["outcomes"][0]["is"]], []).append(
                f"{' + '.join(map(fault_of, variant['faults']))}: {words}"
            )
    return [{"o": place, "lines": found[place]} for place in sorted(found)]


def page(document: Json) -> Json:
    """The page of the document."""
    texts, outcomes = Texts(), outcomes_of(document)
    places = {one["word"]: place for place, one in enumerate(outcomes)}
    variants = [row(one, texts, places, document["base"]) for one in document["variants"] if len(one["faults"]) == 1]
    return {
        "page": "matrix",
        "title": f"What if: {shown(document['name'])}",
        "unit": "step",
        "marks": [{"v": verdict, "glyph": GLYPHS[verdict], "word": word} for verdict, word in MARKS.items()],
        "lanes": [{"name": name, "kind": name.split()[0]} for name in document["lanes"]],
        "outcomes": outcomes,
        "kinds": document["tried"]["kinds"],
        "messages": [
            {"step": str(one["step"]), "m": one["message"], "frame": one["frame"]} for one in document["messages"]
        ],
        "variants": variants,
        "together": together(document, places),
        "base": document["base"],
        "steps": document["steps"],
        "texts": list(texts.places),
    }


def told(document: Json) -> Iterator[str]:
    """The summary, in lines."""
    counts = document["counts"]
    told = [
        f"{sum(counts[faults].values()):,} variants with {'one fault' if faults == '1' else f'{faults} faults'}"
        for faults in counts
    ]
    yield f"{', '.join(told)}, of {len(document['messages'])} messages of the scenario."
    if not document["whole"]:
        yield "This was interrupted: not all variants are here."
    if document["part"]:
        yield f"This is part {document['part']} of the variants."
    yield f"Scenario of SHA-256 {document['tried']['scenario']}"
    yield (
        "A box is a variant: a message with one fault, and its worst outcome. The boxes of late and twice are "
        "places, the earliest first."
    )


def of_note(document: Json) -> Iterator[str]:
    """The variants that are worse than `goes on`."""
    for variant in document["variants"]:
        if RANK[variant["outcomes"][0]["is"]] > RANK[GOES_ON]:
            yield (
                f"{' + '.join(map(fault_of, variant['faults']))}: "
                f"{', '.join(one['is'] for one in variant['outcomes'])}"
            )
