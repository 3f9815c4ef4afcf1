"""The part of a source on which the faults of some glyphs depend, as a source of its own.

In a font without a fault some bodies are changed. Faults then stand in these, in Subrs that they enter, or in composites on them:
each other glyph runs as before. So `faults` of the part that has all Subrs, these glyphs, the composites on them, and the parts of
both, tells what it tells of the whole; only lines are counted otherwise.
"""

from __future__ import annotations

import bisect
from collections import defaultdict
from dataclasses import replace
from typing import Callable, Dict, Iterable, List, Optional, Set, Tuple

from ..fault_list import Fault
from . import engine
from .places import GLYPH, Places, words_of
from .runs import Run
from .text import as_bytes

COMPOSITE = "seac"
BASE_AND_ACCENT = ("bchar", "achar")
OF_A_LINE = "line "
BEHIND_ALL = 1 << 62


class Part:
    """What a font's glyphs need of each other, and which can be left out: runs of numbers of glyphs between which no line stands, as
    first and last, ascending. It holds as long as changes stay within bodies, and no body makes another composite.
    """

    def __init__(self, lines: List[str], places: Places, run: Callable[[int], Run]) -> None:
        self._composites = composites(lines, places)
        self._beside: Dict[int, Set[int]] = defaultdict(set)
        # a Subr may make a composite of any glyph; of a glyph that was changed the parts aren't known
        self._unknown = {it for it in self._composites if not self._join(it, places, run)}
        self._runs: List[Tuple[int, int]] = []
        for number in places.of_kind(GLYPH):
            if self._runs and self._runs[-1][1] == number - 1 and places.last(number - 1) + 1 == places.rows[number]:
                self._runs[-1] = self._runs[-1][0], number
            else:
                self._runs.append((number, number))

    def _join(self, composite: int, places: Places, run: Callable[[int], Run]) -> bool:
        """A composite and its parts need each other: a fault of a part is told with the composites on it. Whether it is one."""
        if places.entries[composite].kind != GLYPH:
            return False
        named = [places.numbers.get(it.place) for it in run(composite).calls if it.command.text == COMPOSITE]
        parts = [it for it in named if it is not None]
        for part in parts:
            self._beside[composite].add(part)
            self._beside[part].add(composite)
        return len(parts) == len(BASE_AND_ACCENT)

    def faults(self, numbers: List[int], lines: List[str], places: Places) -> Optional[List[Fault]]:
        """The faults of a text in which these glyphs were changed, or None where the part doesn't say: where it isn't known which
        glyphs stand on them, where it has no fault, or one of reading."""
        if not self._unknown.issubset(numbers):
            return None
        rows: List[str] = []
        begins: List[Tuple[int, int]] = []
        row = 0
        for first, last in [*self._left_out(self._needed(numbers, lines, places)), (-1, -1)]:
            end = len(lines) if first < 0 else places.rows[first]
            begins.append((len(rows), row))
            rows += lines[row:end]
            row = places.last(last) + 1 if first >= 0 else end
        found = engine.faults(as_bytes("\n".join(rows)))
        if not found or any(it.place.startswith(OF_A_LINE) for it in found):
            return None
        return [replace(it, line=1 + row_of(begins, it.line - 1)) for it in found]

    def _needed(self, numbers: Iterable[int], lines: List[str], places: Places) -> Set[int]:
        """These glyphs, the composites on them, and the parts of all."""
        todo, kept = list(numbers), set[int]()
        if any(is_composite(lines, places, it) for it in todo):
            # (it may have become one just now, of whatever StandardEncoding names)
            names = (places.numbers.get(f"{GLYPH} {name}") for name in engine.standard_names().values())
            todo += [*self._composites, *(it for it in names if it is not None)]
        while todo:
            number = todo.pop()
            if number not in kept:
                kept.add(number)
                todo += self._beside.get(number, ())
        return kept

    def _left_out(self, kept: Set[int]) -> List[Tuple[int, int]]:
        """The runs without the glyphs that are kept."""
        runs = list(self._runs)
        for number in kept:
            at = bisect.bisect_right(runs, (number, BEHIND_ALL)) - 1
            if at >= 0 and runs[at][1] >= number:
                first, last = runs[at]
                left = [(first, number - 1)] if first < number else []
                runs[at : at + 1] = left + ([(number + 1, last)] if number < last else [])
        return runs


def row_of(begins: List[Tuple[int, int]], row: int) -> int:
    """The row of the whole for one of the part."""
    at, stood = begins[bisect.bisect_right(begins, (row, BEHIND_ALL)) - 1]
    return stood + row - at


def composites(lines: List[str], places: Places) -> List[int]:
    """The entries that have the command of a composite."""
    rows = (row for row, line in enumerate(lines) if COMPOSITE in line)
    return sorted({number for number in map(places.number_at, rows) if number is not None})


def is_composite(lines: List[str], places: Places, number: int) -> bool:
    return any(it.text == COMPOSITE for it in words_of(lines, places, number))
