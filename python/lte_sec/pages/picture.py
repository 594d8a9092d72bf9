"""A picture as SVG, of boxes, lines and texts. Python's own library is all that is needed."""
from __future__ import annotations

from collections.abc import Iterable
from xml.sax.saxutils import escape

SANS, MONO = "DejaVu Sans, Verdana, Helvetica, sans-serif", "DejaVu Sans Mono, Menlo, Consolas, monospace"
INK, PALE, RED = "#1f2933", "#7b8794", "#b3261e"


class Picture:
    def __init__(self) -> None:
        self.parts: list[str] = []
        self.width, self.height = 0.0, 0.0

    def reach(self, x: float, y: float) -> None:
        self.width, self.height = max(self.width, x), max(self.height, y)

    def put(self, other: Picture) -> None:
        """Puts another picture on this one."""
        self.reach(other.width, other.height)
        self.parts += other.parts

    def box(self, x: float, y: float, width: float, height: float, fill: str, stroke: str = PALE) -> None:
        self.reach(x + width, y + height)
        self.parts.append(
            f'<rect x="{x}" y="{y}" width="{width}" height="{height}" rx="5" fill="{fill}" stroke="{stroke}"/>'
        )

    def line(
        self,
        points: Iterable[tuple[float, float]],
        colour: str = INK,
        dashed: bool = False,
        arrow: bool = True,
        width: float = 1.3,
    ) -> None:
        path = " ".join(f"{x},{y}" for x, y in points)
        more = (' stroke-dasharray="5 4"' if dashed else "") + (
            f' marker-end="url(#{"red" if colour == RED else "tip"})"' if arrow else ""
        )
        self.parts.append(f'<polyline points="{path}" fill="none" stroke="{colour}" stroke-width="{width}"{more}/>')

    def text(
        self,
        x: float,
        y: float,
        words: str,
        size: float = 12,
        font: str = SANS,
        colour: str = INK,
        weight: str = "normal",
        anchor: str = "start",
    ) -> None:
        self.reach(x + (0.62 * size * len(words) if anchor == "start" else 0), y + 4)
        halo = ' stroke="#ffffff" stroke-width="3" paint-order="stroke"' if anchor == "middle" else ""
        self.parts.append(
            f'<text x="{x}" y="{y}" font-family="{font}" font-size="{size}" font-weight="{weight}" fill="{colour}"'
            f' text-anchor="{anchor}"{halo} xml:space="preserve">{escape(words)}</text>'
        )

    def svg(self, title: str) -> str:
        width, height = round(self.width) + 20, round(self.height) + 16
        tips = "".join(
            f'<marker id="{name}" viewBox="0 0 8 8" refX="7.5" refY="4" markerWidth="8" markerHeight="8" orient="auto">'
            f'<path d="M0,0.8 L8,4 L0,7.2 z" fill="{colour}"/></marker>'
            for name, colour in (("tip", INK), ("red", RED))
        )
        head = (
            f'<svg xmlns="http://www.w3.org/2000/svg" width="{width}" height="{height}" viewBox="0 0 {width} '
            f'{height}" role="img">'
        )
        back = f'<rect width="{width}" height="{height}" fill="#ffffff"/>'
        return "\n".join(
            [head, f"<title>{escape(title)}</title>", f"<defs>{tips}</defs>", back, *self.parts, "</svg>", ""]
        )
