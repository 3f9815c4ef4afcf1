"""The kerning pairs and the encoding of a font, as mappings that can be changed."""

from __future__ import annotations

from collections.abc import Iterator, MutableMapping
from typing import Tuple

from .queries import Queries
from .representing import counted, said_of
from .spelling import judge_name

Pair = Tuple[str, str]


class Kerning(MutableMapping[Pair, int]):
    """The kerning pairs of a font, by the bytes of the left name and then of the right one: how far the right glyph is
    moved along x, in character space units, from -32000 to 32000. A pair may name glyphs that the font lacks."""

    def __init__(self, queries: Queries) -> None:
        self._session = queries.session
        self._queries = queries

    def __repr__(self) -> str:
        return said_of(self, self._session, lambda: counted(len(self), "pair"))

    def __getitem__(self, pair: Pair) -> int:
        return self._queries.pairs()[names_of(pair)]

    def __contains__(self, pair: object) -> bool:
        return pair in self._queries.pairs()

    def __setitem__(self, pair: Pair, value: int) -> None:
        self._session.edit("kern", *names_of(pair), value)

    def __delitem__(self, pair: Pair) -> None:
        self._session.edit("unkern", *names_of(pair))

    def __iter__(self) -> Iterator[Pair]:
        return iter(list(self._queries.pairs()))

    def __len__(self) -> int:
        return len(self._queries.pairs())


def names_of(pair: Pair) -> Pair:
    """The names of a pair. Raises TypeError where it is none."""
    if not isinstance(pair, tuple) or len(pair) != 2:
        raise TypeError(f"a pair is a tuple of two names, and not {pair!r}")
    for name in pair:
        judge_name(name)
    return pair


class Encoding(MutableMapping[int, str]):
    """The names that the encoding gives to codes from 0 to 255, by ascending codes. It may name glyphs that the font lacks.

    StandardEncoding can't be edited: that is refused by the rule E5.
    """

    def __init__(self, queries: Queries) -> None:
        self._session = queries.session
        self._queries = queries

    def __repr__(self) -> str:
        return said_of(self, self._session, lambda: "StandardEncoding" if self.is_standard else counted(len(self), "code"))

    @property
    def is_standard(self) -> bool:
        """Whether it is StandardEncoding, and no array."""
        return self._queries.slots() is None

    def __getitem__(self, code: int) -> str:
        return self._queries.encoding()[code]

    def __setitem__(self, code: int, name: str) -> None:
        judge_name(name)
        self._session.edit("encode", code, name)

    def __delitem__(self, code: int) -> None:
        self._session.edit("unencode", code)

    def __iter__(self) -> Iterator[int]:
        return iter(list(self._queries.encoding()))

    def __len__(self) -> int:
        return len(self._queries.encoding())
