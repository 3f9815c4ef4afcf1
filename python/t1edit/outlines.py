"""The outline of a glyph, in numbers and with a pen."""

from __future__ import annotations

from fractions import Fraction
from typing import Any, List, Protocol, Tuple

# ('M', x, y), ('L', x, y), or ('C', x, y, x, y, x, y), in character space units.
Segment = Tuple[Any, ...]
Point = Tuple[float, float]


class Pen(Protocol):
    """What draws: the calls of a segment pen, as fontTools has them."""

    def moveTo(self, point: Point, /) -> object: ...

    def lineTo(self, point: Point, /) -> object: ...

    def curveTo(self, first: Point, second: Point, end: Point, /) -> object: ...

    def closePath(self) -> object: ...


def segments_of(shown: str) -> Tuple[Segment, ...]:
    """The segments of an outline as a session shows it, a line each: 'M 5 5/2'."""
    return tuple(segment_of(line) for line in shown.splitlines())


def segment_of(line: str) -> Segment:
    letter, *coordinates = line.split(" ")
    return (letter, *(Fraction(it) if "/" in it else Fraction(int(it)) for it in coordinates))


def draw(outline: Tuple[Segment, ...], pen: Pen) -> None:
    """Draws an outline with a pen. Each contour is closed at its end, as painting closes it."""
    is_open = False
    for letter, *coordinates in outline:
        points = points_of(coordinates)
        if letter == "M":
            if is_open:
                pen.closePath()
            pen.moveTo(points[0])
        elif letter == "L":
            pen.lineTo(points[0])
        else:
            pen.curveTo(points[0], points[1], points[2])
        is_open = True
    if is_open:
        pen.closePath()


def points_of(coordinates: List[Fraction]) -> List[Point]:
    """The points of a segment, in the numbers that pens take: whole ones as int, others as float."""
    numbers: List[float] = [it.numerator if it.denominator == 1 else float(it) for it in coordinates]
    return list(zip(numbers[::2], numbers[1::2]))
