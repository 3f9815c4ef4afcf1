"""What a page shows of a glyph: its metrics, and its outline as a path of SVG."""

from __future__ import annotations

import dataclasses
import os
import string
from fractions import Fraction
from typing import Any, Iterable, List, Mapping, Optional, Tuple

from t1edit import Box, Font, Glyph

HERE = os.path.dirname(os.path.abspath(__file__))
# In character space units: the room round what a cell shows, and the least height below and above the baseline.
ROOM, DEPTH, HEIGHT = 40, 150, 700


@dataclasses.dataclass(frozen=True)
class Cell:
    """What is shown of a glyph. Lengths are in character space units, the path's too, with y upward."""

    name: str
    code: Optional[int]
    width: int
    box: Box
    path: str


def cell_of(glyph: Glyph) -> Cell:
    metrics = glyph.metrics
    return Cell(glyph.name, metrics.code, metrics.width, metrics.box, path_of(glyph.outline()))


def cells_of(font: Font) -> List[Cell]:
    """The cells of all glyphs: those with a code by the code, and then the others by their names."""
    return sorted(map(cell_of, font.glyphs.values()), key=lambda it: (it.code is None, it.code or 0, it.name))


def path_of(outline: Iterable[Tuple[Any, ...]]) -> str:
    """An outline as a path of SVG, in which each contour is closed."""
    steps = []
    for letter, *coordinates in outline:
        close = "Z " if letter == "M" and steps else ""
        steps.append(close + letter + " ".join(map(decimal, coordinates)))
    return " ".join(steps) + "Z" * bool(steps)


def decimal(value: Fraction) -> str:
    """A number to six decimals, and none where it is whole."""
    return str(value) if value.denominator == 1 else f"{float(value):.6f}".rstrip("0").rstrip(".")


def heights(cells: Iterable[Cell]) -> Tuple[int, int]:
    """How low and how high a page shows cells, the same for all, so that baselines are at one height."""
    boxes = [it.box for it in cells]
    return min([-DEPTH, *(it.bottom for it in boxes)]) - ROOM, max([HEIGHT, *(it.top for it in boxes)]) + ROOM


def view(cells: Iterable[Cell], low: int, high: int) -> Tuple[int, int, int, int]:
    """The viewBox, with y downward, that holds the box and the advance of a glyph, or of several that are shown as one."""
    sides = [side for it in cells for side in (0, it.width, it.box.left, it.box.right)]
    left, right = min(sides) - ROOM, max(sides) + ROOM
    return left, -high, right - left, high - low


def drawing(cell: Cell, low: int, high: int, kind: str = "glyph") -> str:
    """The elements of SVG for the baseline, the advance, the box and the outline of a glyph."""
    left, bottom, right, top = cell.box
    far = max(cell.width, right)
    return (
        f'<path class="line" d="M{min(0, left)} 0H{far}M0 {-high}V{-low}M{cell.width} {-high}V{-low}"/>'
        f'<rect class="box" x="{left}" y="{-top}" width="{right - left}" height="{top - bottom}"/>'
        f"{outline(cell, kind)}"
    )


def outline(cell: Cell, kind: str) -> str:
    return f'<path class="{kind}" transform="scale(1 -1)" d="{cell.path}"/>'


def filled(template: str, fields: Mapping[str, str]) -> str:
    """A file of this folder with its $fields filled in."""
    with open(os.path.join(HERE, template), encoding="utf-8") as file:
        return string.Template(file.read()).substitute(fields)
