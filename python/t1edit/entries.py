"""The glyphs and the Subrs of a font."""

from __future__ import annotations

from collections.abc import Iterator, Mapping
from typing import Tuple

from .metrics import Metrics
from .outlines import Pen, Segment, draw
from .queries import Queries
from .representing import counted, said_of
from .spelling import judge_name
from .uses import Uses


class Glyph:
    """A glyph of a font by its name, as long as the font has it."""

    __slots__ = ("_name", "_queries")

    def __init__(self, name: str, queries: Queries) -> None:
        self._name = name
        self._queries = queries

    def __repr__(self) -> str:
        return f"Glyph(name={self._name!r})"

    def __eq__(self, other: object) -> bool:
        return isinstance(other, Glyph) and (self._name, self._queries) == (other._name, other._queries)

    def __hash__(self) -> int:
        return hash((self._name, self._queries))

    @property
    def name(self) -> str:
        return self._name

    @property
    def body(self) -> str:
        """Its charstring as text: numbers and commands, a line for each command. Comments aren't kept."""
        return self._queries.glyph_body(self._name)

    @body.setter
    def body(self, body: str) -> None:
        """Replaces the body. Where the font would have a fault then, Refused is raised, and it stays as it was."""
        self._queries.session.edit("replace", "glyph", self._name, body=body)

    @property
    def metrics(self) -> Metrics:
        """Its line in the AFM file."""
        return self._queries.metrics(self._name)

    def outline(self) -> Tuple[Segment, ...]:
        """What it draws, its parts' outlines included, exact: ('M', x, y) where a segment doesn't begin where the one before
        it ended, ('L', x, y) for a line, ('C', x, y, x, y, x, y) for a curve. Coordinates are Fractions, in character space
        units; nothing where nothing is drawn. The program runs the glyph for it."""
        return self._queries.outline(self._name)

    def draw(self, pen: Pen) -> None:
        """Draws its outline with a pen that has the calls moveTo, lineTo, curveTo and closePath, as those of fontTools.
        Coordinates are in character space units: whole ones as int, others as the nearest float. Each contour is closed
        at its end."""
        draw(self.outline(), pen)

    @property
    def uses(self) -> Uses:
        """The Subrs and glyphs that it stands on."""
        return self._queries.uses(self._name)


class Subr:
    """A Subr of a font by its number, as long as the font has it."""

    __slots__ = ("_number", "_queries")

    def __init__(self, number: int, queries: Queries) -> None:
        self._number = number
        self._queries = queries

    def __repr__(self) -> str:
        return f"Subr(number={self._number!r})"

    def __eq__(self, other: object) -> bool:
        return isinstance(other, Subr) and (self._number, self._queries) == (other._number, other._queries)

    def __hash__(self) -> int:
        return hash((self._number, self._queries))

    @property
    def number(self) -> int:
        return self._number

    @property
    def body(self) -> str:
        """Its charstring as text, as of a glyph."""
        return self._queries.subr_body(self._number)

    @body.setter
    def body(self, body: str) -> None:
        self._queries.session.edit("replace", "subr", self._number, body=body)


class Glyphs(Mapping[str, Glyph]):
    """The glyphs of a font by their names, in the order of the source."""

    def __init__(self, queries: Queries) -> None:
        self._queries = queries
        self._session = queries.session

    def __repr__(self) -> str:
        return said_of(self, self._session, lambda: counted(len(self), "glyph"))

    def __getitem__(self, name: str) -> Glyph:
        """A glyph. Raises Missing, which is a KeyError."""
        judge_name(name)
        if name not in self:
            raise self._session.missing(name)
        return Glyph(name, self._queries)

    def __contains__(self, name: object) -> bool:
        return isinstance(name, str) and self._queries.has_glyph(name)

    def __iter__(self) -> Iterator[str]:
        return iter(self._queries.glyph_names())

    def __len__(self) -> int:
        return len(self._queries.glyph_names())

    def add(self, name: str, body: str) -> Glyph:
        """Adds a glyph after all others."""
        judge_name(name)
        self._session.edit("add", "glyph", name, body=body)
        return Glyph(name, self._queries)

    def __delitem__(self, name: str) -> None:
        """Removes a glyph; codes and kerning pairs that name it stay."""
        judge_name(name)
        self._session.edit("remove", "glyph", name)


class Subrs(Mapping[int, Subr]):
    """The Subrs of a font by their numbers, in the order of the source."""

    def __init__(self, queries: Queries) -> None:
        self._queries = queries
        self._session = queries.session

    def __repr__(self) -> str:
        return said_of(self, self._session, lambda: counted(len(self), "Subr"))

    def __getitem__(self, number: int) -> Subr:
        """A Subr. Raises Missing, which is a KeyError."""
        if number not in self:
            raise self._session.missing(str(number))
        return Subr(number, self._queries)

    def __contains__(self, number: object) -> bool:
        return isinstance(number, int) and self._queries.has_subr(number)

    def __iter__(self) -> Iterator[int]:
        return iter(self._queries.subr_numbers())

    def __len__(self) -> int:
        return len(self._queries.subr_numbers())

    def add(self, number: int, body: str) -> Subr:
        """Adds a Subr after all others, by a number from 0 to 32000 that none has."""
        self._session.edit("add", "subr", number, body=body)
        return Subr(number, self._queries)

    def __delitem__(self, number: int) -> None:
        """Removes a Subr, which leaves its number free."""
        self._session.edit("remove", "subr", number)
