"""What the AFM file says of a glyph."""

from __future__ import annotations

import re
from dataclasses import dataclass
from typing import Dict, NamedTuple, Optional

N = "(-?[0-9]+)"
LINE = re.compile(f"C {N} ; WX? {N}(?: {N})? ; N ([!-~]+) ; B {N} {N} {N} {N} ;")


class Box(NamedTuple):
    """The least box of whole numbers around an outline, in character space units; 0 0 0 0 where nothing is drawn."""

    left: int
    bottom: int
    right: int
    top: int


@dataclass(frozen=True)
class Metrics:
    """A glyph's line in the AFM file. All lengths are in character space units, rounded as the file has them.

    name   the glyph's name
    code   the lowest code that the encoding gives the glyph, from 0 to 255, or None
    width  how far the next glyph stands along x
    box    the box of what it draws
    rise   how far the next glyph stands along y, which is 0 in nearly all fonts
    """

    name: str
    code: Optional[int]
    width: int
    box: Box
    rise: int = 0


def metrics_of(line: str) -> Metrics:
    """What a glyph's line of an AFM file says."""
    found = LINE.fullmatch(line)
    assert found is not None, line
    code, width, rise, name, *box = found.groups()
    return Metrics(name, None if code == "-1" else int(code), int(width), Box(*map(int, box)), int(rise or 0))


def metric_lines(afm: str) -> Dict[str, str]:
    """Each glyph's line of an AFM file by the glyph's name."""
    lines = (line for line in afm.split("\n") if line.startswith("C "))
    return {line.split(" ; ", 3)[2][len("N ") :]: line for line in lines}
