"""A glyph as a picture in a hover."""

from __future__ import annotations

import base64
from fractions import Fraction
from typing import Iterable, List

from ..entries import Glyph
from ..outlines import Segment

ROOM, HEIGHT = 60, 160


def path_of(outline: Iterable[Segment]) -> str:
    """An outline as a path of SVG, in which each contour is closed."""
    steps: List[str] = []
    for letter, *coordinates in outline:
        close = "Z" if letter == "M" and steps else ""
        steps.append(close + letter + " ".join(map(decimal, coordinates)))
    return "".join(steps) + "Z" * bool(steps)


def decimal(value: Fraction) -> str:
    return str(value) if value.denominator == 1 else f"{float(value):.3f}"


def picture(glyph: Glyph) -> str:
    """Markdown with a glyph as SVG: what it draws, its baseline, its origin and its width."""
    width, box = glyph.metrics.width, glyph.metrics.box
    left, right = min(0, box.left) - ROOM, max(width, box.right) + ROOM
    low, high = min(-200, box.bottom) - ROOM, max(700, box.top) + ROOM
    size = f'width="{HEIGHT * (right - left) // (high - low)}" height="{HEIGHT}"'
    svg = (
        f'<svg xmlns="http://www.w3.org/2000/svg" {size} viewBox="{left} {-high} {right - left} {high - low}">'
        f'<rect x="{left}" y="{-high}" width="100%" height="100%" fill="#fff"/>'
        f'<path d="M{left} 0H{right}M0 {-high}V{-low}M{width} {-high}V{-low}" stroke="#9bd" stroke-width="6"/>'
        f'<path transform="scale(1 -1)" d="{path_of(glyph.outline())}"/></svg>'
    )
    return f"![{glyph.name}](data:image/svg+xml;base64,{base64.b64encode(svg.encode()).decode()})"
