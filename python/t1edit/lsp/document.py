"""A source that is edited, and what is known of it.

There are two states. The session holds the last text that had no fault. As long as the text differs from it by bodies alone, a
change is a `replace` of the session: where it takes that, the session is the text, and there is no fault. Where it refuses, and
where the text differs by more, `faults` judges the text from scratch, or the part of it on which the faults depend. So what is
told is always what `faults` tells of the text.
"""

from __future__ import annotations

from typing import Dict, Iterable, List, Mapping, Optional, Set, Tuple

from ..fault_list import Fault
from ..refusals import Error, Refused
from . import engine, places as stands
from .engine import Held, Note
from .part import COMPOSITE, Part
from .places import GLYPH, Places
from .runs import Run, run
from .text import Json, Splice, Text, as_bytes

# Up to so many changed bodies that are refused, the part is judged, and not the whole.
FEW = 8
# What an entry with a fault has as its body in a font that is opened all the same.
STUBS = {GLYPH: "0 0 hsbw endchar", stands.SUBR: "return"}


class Document:
    """A text, what stands where in it, its faults and notes, and the session of its font."""

    def __init__(self, uri: str, version: int, text: str, unit: str) -> None:
        self.uri, self.version, self.text = uri, version, Text(text, unit)
        self.faults: List[Fault] = []
        self.notes: List[Note] = []
        self.held: Optional[Held] = None
        # entries that have other bodies in the session than any text had, since theirs have faults
        self.stubs: Set[str] = set()
        self._places: Optional[Places] = None
        self._is_apart = True
        self._touched: Set[int] = set()
        self._behind: Dict[str, str] = {}
        self._part: Optional[Part] = None
        self._runs: Dict[int, Run] = {}

    @property
    def lines(self) -> List[str]:
        return self.text.lines

    @property
    def places(self) -> Places:
        """What stands where, as the text is now."""
        if self._places is None:
            self._places = stands.read(self.lines)
        return self._places

    @property
    def is_held(self) -> bool:
        """Whether the session's font is this text's."""
        return not self._is_apart and not self._touched and not self._behind

    @property
    def wants_to_be_held(self) -> bool:
        return self._is_apart and not self.faults

    def run(self, number: int) -> Run:
        """The run of a glyph over the text as it is now."""
        if number not in self._runs:
            self._runs[number] = run(self.lines, self.places, number, engine.standard_names().get)
        return self._runs[number]

    def close(self) -> None:
        if self.held is not None:
            self.held.close()
        self.held, self._is_apart = None, True

    def change(self, changes: Iterable[Json], version: int) -> None:
        """Takes changes; they aren't judged yet."""
        for it in changes:
            self._take(it)
        self.version = version
        self._runs.clear()

    def judge(self) -> None:
        """Finds the faults of the text as it is now."""
        is_near = self.held is not None and not self._is_apart
        self.faults = self._by_session() if is_near else engine.faults(self.text.as_bytes())

    def look_for_notes(self) -> None:
        self.notes = engine.notes(self.text.as_bytes())

    def hold(self) -> None:
        """Has the session hold the text, which has no fault."""
        try:
            held = Held(self.text.as_bytes())
        except Refused:
            return
        self._become(held, set())
        self._is_apart = False
        self._touched, self._behind, self._part = set(), {}, None
        # (read now, since they are moved along from here on)
        assert self.places.rows is not None

    def hold_stubbed(self) -> None:
        """Where no session holds a font, and the text has faults: holds it with other bodies in place of those that have them."""
        lines, stubs, faults = list(self.lines), set[str](), self.faults
        while self.held is None:
            more = {it.place for it in faults if self.places.has(it.place)} - stubs
            if not more:
                return
            for place in more:
                self._put_stub(lines, self.places.numbers[place])
            stubs |= more
            source = as_bytes("\n".join(lines))
            faults = engine.faults(source)
            if not faults:
                self._become(Held(source), stubs)

    def _take(self, change: Json) -> None:
        number, closing = self._entry_of(change)
        splice = self.text.change(change)
        self._move_notes(splice)
        if number is None or closing is None or not stands.changes_a_body(self.lines, self.places, number, splice, closing):
            self._is_apart, self._places = True, None
        else:
            self._touched.add(number)

    def _entry_of(self, change: Json) -> Tuple[Optional[int], Optional[str]]:
        """The entry within whose lines a change stands, and the closing text of it; None where that doesn't matter any more."""
        if self._is_apart or "range" not in change:
            return None, None
        top, bottom = change["range"]["start"]["line"], change["range"]["end"]["line"]
        number = self.places.number_at(top)
        if number is None or bottom > self.places.last(number):
            return None, None
        entry, last = self.places.entries[number], self.places.last(number)
        return number, stands.closing_of(self.lines[last], entry.body if entry.height == 0 else 0)

    def _by_session(self) -> List[Fault]:
        """The faults of a text that differs by bodies alone from the font that the session holds."""
        assert self.held is not None
        entries = self.places.entries
        for number in self._touched:
            body = stands.body_of(self.lines, self.places, number)
            self._behind[entries[number].place] = as_bytes(body).decode("latin-1")
        self._touched = set()
        try:
            if not self._behind or self.held.takes(self._behind):
                self._forget_part_by(self._behind)
                self._behind = {}
                return []
        except Error:  # (the session has ended)
            self.close()
            return engine.faults(self.text.as_bytes())
        found = self._by_part()
        return engine.faults(self.text.as_bytes()) if found is None else found

    def _by_part(self) -> Optional[List[Fault]]:
        """The faults by the part of the text that the refused bodies touch, where they are few and no Subr's."""
        numbers = [self.places.numbers[it] for it in self._behind]
        if len(numbers) > FEW or any(self.places.entries[it].kind != GLYPH for it in numbers):
            return None
        if self._part is None:
            self._part = Part(self.lines, self.places, self.run)
        return self._part.faults(numbers, self.lines, self.places)

    def _forget_part_by(self, bodies: Mapping[str, str]) -> None:
        """A body that the font has now may make a composite, where none was: of its glyph, or of those that enter its Subr."""
        if any(COMPOSITE in body or not place.startswith(GLYPH) for place, body in bodies.items()):
            self._part = None

    def _become(self, held: Held, stubs: Set[str]) -> None:
        if self.held is not None:
            self.held.close()
        self.held, self.stubs = held, stubs

    def _put_stub(self, lines: List[str], number: int) -> None:
        entry, first, last = self.places.entries[number], self.places.rows[number], self.places.last(number)
        end = lines[last][max(0, stands.brace_in(lines[last], entry.body if first == last else 0)) :]
        rows = [""] * (last + 1 - first)
        rows[0] = lines[first][: entry.body] + STUBS[entry.kind]
        rows[-1] += end
        lines[first : last + 1] = rows

    def _move_notes(self, splice: Splice) -> None:
        """Moves the notes below lines that were replaced; those on them are dropped, until notes are looked for again."""
        top, bottom, by = splice.top, splice.top + splice.removed, splice.added - splice.removed
        kept = [it for it in self.notes if not top <= it.line - 1 < bottom]
        self.notes = [it._replace(line=it.line + by) if it.line > bottom else it for it in kept]
