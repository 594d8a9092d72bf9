"""The ladder of keys of a report of `run`.

The chain runs down (KeNB, and each NH with the key above it as SYNC-input, dashed), and to the right the keys of cells.
"""
from lte_sec.runs.ladders import algorithm, title_of
from lte_sec.pages.picture import MONO, Picture
from lte_sec.runs.run_report import LadderRow, rows_of

from . import NotDrawn

FILLS = {"root": "#e4e7eb", "kenb": "#cfe3ff", "nh": "#cdeed6", "star": "#ffe8c7"}


BOX, STEP, GAP = 300, 344, 22  # the width of a box, of a column, and the space between boxes


def marks(row: LadderRow) -> str:
    """Who has held it, as reports tell it."""
    return ",".join(row.holders) or "-"


def height_of(row: LadderRow) -> int:
    return 44 + 15 * len(row.algs) + (6 if row.algs else 0)


def draw_row(picture: Picture, row: LadderRow, x: int, y: int, number: int) -> None:
    picture.box(x, y, BOX, height_of(row), FILLS[row.word])
    picture.text(x + 9, y + 18, title_of(row, number), 12.5, weight="bold")
    picture.text(x + BOX - 9, y + 18, f"row {row.number}", 10.5, colour="#52606d", anchor="end")
    picture.text(x + 9, y + 35, f"{row.key[:8]}..{row.key[-8:]}", 11, MONO)
    picture.text(x + BOX - 9, y + 35, marks(row), 11, MONO, weight="bold", anchor="end")
    for place, alg in enumerate(row.algs):
        at = y + 54 + 15 * place
        picture.text(x + 9, at, algorithm(alg.values), 9.5)
        picture.text(x + 186, at, f"..{alg.key[-8:]}", 9.5, MONO)
        picture.text(x + BOX - 9, at, marks(alg), 9.5, MONO, anchor="end")


def draw_from(picture: Picture, row: LadderRow, x: int, y: int, number: int) -> int:
    """The row and, to its right, the keys of cells that come of it; answers where the next may begin."""
    draw_row(picture, row, x, y, number)
    bottom, at = y + height_of(row) + GAP, y
    for star in row.stars:
        middle = at + 28
        if at == y:
            picture.line([(x + BOX, middle), (x + STEP, middle)])
        else:
            picture.line([(x + BOX + 14, y + 28), (x + BOX + 14, middle), (x + STEP, middle)])
        at = draw_from(picture, star, x + STEP, at, number)
    return max(bottom, at)


def draw(text: str, name: str) -> str:
    """The picture of a report, under a name."""
    report = text.splitlines()
    if not any(line.startswith("row ") for line in report):
        raise NotDrawn("it has no rows of keys")
    return picture_of(report, name)


def picture_of(report: list[str], name: str) -> str:
    rows, picture = rows_of(report), Picture()
    picture.text(20, 26, name, 16, weight="bold")
    picture.text(
        20,
        45,
        (
            "Each key stands right of or below the key it is derived from; dashed: the SYNC-input of an NH (TS "
            "33.401 A.3 to A.7)."
        ),
        11,
        colour="#52606d",
    )
    picture.text(
        20,
        60,
        "Its first and last four octets, and who has held it: P phone, C core, S0 .. stations.",
        11,
        colour="#52606d",
    )
    y = 80
    for root in (row for row in rows.values() if row.word == "root"):
        chain = [row for row in rows.values() if row.word in ("kenb", "nh") and row.parent == root.number]
        draw_row(picture, root, 20, y, 0)
        top, trunk, at, places = y + 28, 20 + BOX + 16, y, dict[int, int]()
        below = y + height_of(root) + GAP
        for row in chain:
            places[row.number] = at
            picture.line([(20 + BOX, top), (trunk, top), (trunk, at + 28), (20 + STEP, at + 28)])
            at = draw_from(picture, row, 20 + STEP, at, row.chain)
        for before, row in zip([None, *chain], chain):
            if row.word != "nh":
                continue
            sync = rows[row.values[1]]
            if sync is before:
                x = 20 + STEP + 40
                picture.line([(x, places[sync.number] + height_of(sync)), (x, places[row.number])], dashed=True)
            elif sync.number in places:
                x = 20 + STEP - 14
                picture.line(
                    [
                        (20 + STEP, places[sync.number] + 40),
                        (x, places[sync.number] + 40),
                        (x, places[row.number] + 40),
                        (20 + STEP, places[row.number] + 40),
                    ],
                    dashed=True,
                )
        y = max(below, at) + 10
    return picture.svg(name)
