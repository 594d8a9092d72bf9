"""An answer of `what-if` as a picture: messages by faults, and in each cell a box for each place, with colour and
letter of its worst outcome."""
from __future__ import annotations

from ..pages.picture import MONO, Picture
from ..runs.remarks import named
from ..runs.variants import KINDS
from .outcomes import LOOKS, WORDS
from .study import Variant
from .what_if_document import Answer


ROW, BOX, TOP, LEFT, GAP = 20, 16, 96, 20, 18


def draw(answer: Answer) -> str:
    """The picture of the variants of one fault."""
    picture = Picture()
    kinds = [kind for kind in KINDS if kind in answer.tried["kinds"]]
    cells: dict[tuple[str, str], list[Variant]] = {}
    for variant in answer.singles:
        cells.setdefault((variant.faults[0].item, variant.faults[0].kind), []).append(variant)
    picture.text(LEFT, 26, "What if a message is lost, late, or comes twice?", 16, weight="bold")
    picture.text(
        LEFT,
        45,
        (
            "A box is a variant of the scenario, with its worst outcome; the boxes of late and twice are places, the "
            "earliest first."
        ),
        11,
        colour="#52606d",
    )
    place = 32 if not answer.frames else 12 + 7 * max(len(named(step, answer.frames)) for step in answer.messages)
    column = LEFT + place + 8 + 7 * max([len("message"), *map(len, answer.messages.values())])
    for kind in kinds:
        most = max([len(variants) for (_, each), variants in cells.items() if each == kind] + [3])
        picture.text(column, TOP - 20, kind, 12, weight="bold")
        for row, step in enumerate(answer.messages):
            for at, variant in enumerate(cells.get((step, kind), [])):
                box(picture, column + BOX * at, TOP + ROW * row - 12, variant.worst)
        column += BOX * most + GAP
    for row, (step, message) in enumerate(answer.messages.items()):
        picture.text(LEFT, TOP + ROW * row, named(step, answer.frames), 11, MONO, "#52606d")
        picture.text(LEFT + place, TOP + ROW * row, message, 12)
    legend(picture, answer, TOP + ROW * len(answer.messages) + 12)
    return picture.svg("What if a message is lost, late, or comes twice?")


def box(picture: Picture, x: float, y: float, word: str) -> None:
    look = LOOKS[word]
    picture.box(x, y, BOX - 1, BOX, look.colour, "#ffffff")
    picture.text(
        x + 4,
        y + 12,
        look.letter,
        10.5,
        MONO,
        "#ffffff" if word in ("stuck", "keys differ", "coincidence") else "#1f2933",
    )


def legend(picture: Picture, answer: Answer, y: float) -> None:
    """The outcomes that there are, the worst last."""
    x = float(LEFT)
    for word in WORDS:
        if any(variant.worst == word for variant in answer.singles):
            box(picture, x, y, word)
            picture.text(x + BOX + 4, y + 12, word, 11)
            x += BOX + 22 + 7 * len(word)
