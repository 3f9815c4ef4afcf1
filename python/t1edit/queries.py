"""What a font is asked about one glyph, one Subr, a pair or a code.

A session shows one entry by a command. What is asked of all of them, as their names, is printed: a print is read once, and
kept until the next edit that is accepted.
"""

from __future__ import annotations

from typing import Any, Callable, Dict, List, Mapping, Optional, Tuple, TypeVar, cast

from .metrics import Metrics, metric_lines, metrics_of
from .outlines import Segment, segments_of
from .printed_source import bodies, slots
from .session import Session
from .spelling import Word
from .uses import Uses, use_lines, uses_of

T = TypeVar("T")

# Of so many glyphs the metrics are shown one by one; of any more without an edit between, those of all are printed.
FEW = 8


class Queries:
    """What the font of a session has, as it stands; in a batch, as it was before. Raises Missing at what it hasn't."""

    def __init__(self, session: Session) -> None:
        self.session = session
        self._changes = self._entries = -1
        # what readers have found in prints of the font as it stands; and of the names and numbers of its entries
        self._kept: Dict[object, Any] = {}
        self._there: Dict[str, Dict[str, None]] = {}
        self._shown_metrics = 0

    def glyph_names(self) -> List[str]:
        """The names of all glyphs, in the order of the source."""
        return list(self._names("glyph"))

    def has_glyph(self, name: str) -> bool:
        return name in self._names("glyph")

    def glyph_body(self, name: str) -> str:
        return body_of(self._show("glyph", name))

    def subr_numbers(self) -> List[int]:
        """The numbers of all Subrs, in the order of the source."""
        return list(map(int, self._names("subr")))

    def has_subr(self, number: int) -> bool:
        return str(number) in self._names("subr")

    def subr_body(self, number: int) -> str:
        return body_of(self._show("subr", number))

    def metrics(self, name: str) -> Metrics:
        with self.session.held():
            self._forget_what_changed()
            if self._shown_metrics == FEW:
                return metrics_of(self._of(name, self._read("afm", metric_lines)))
            self._shown_metrics += 1
            return metrics_of(self._show("metrics", name).rstrip("\n"))

    def outline(self, name: str) -> Tuple[Segment, ...]:
        return segments_of(self._show("outline", name))

    def uses(self, name: str) -> Uses:
        return uses_of(self._of(name, self._uses()))

    def pairs(self) -> Mapping[Tuple[str, str], int]:
        """All kerning pairs, in character space units, by the bytes of the left name and then of the right one."""
        return self._read("kern", pairs_of)

    def slots(self) -> Optional[Mapping[int, str]]:
        """The names of the encoding array by codes, or None where the encoding is StandardEncoding."""
        return self._read("source", slots)

    def encoding(self) -> Mapping[int, str]:
        """The names that codes have, by ascending codes."""
        return self._kept_of(encoding_of, lambda: self._show("encoding"))

    def _show(self, what: str, *word: Word) -> str:
        """What a session shows, each byte of which is a character."""
        return self.session.show(what, *word).decode("latin-1")

    def _of(self, key: str, found: Mapping[str, T]) -> T:
        if key not in found:
            raise self.session.missing(key)
        return found[key]

    def _uses(self) -> Dict[str, str]:
        return self._read("uses", use_lines)

    def _subrs(self) -> Dict[str, str]:
        return self._read("source", bodies)[0]

    def _read(self, what: str, reader: Callable[[str], T]) -> T:
        """What a reader finds in a print, each byte of which is a character."""
        return self._kept_of(reader, lambda: self.session.print(what).decode("latin-1"))

    def _names(self, kind: str) -> Dict[str, None]:
        """What glyphs or Subrs are called, in the order of the source; it is asked again once some may have come or gone."""
        with self.session.held():
            count = self.session.entries
            if count != self._entries:
                self._entries = count
                self._there.clear()
            if kind not in self._there:
                self._there[kind] = dict.fromkeys(self._uses() if kind == "glyph" else self._subrs())
            return self._there[kind]

    def _kept_of(self, reader: Callable[[str], T], given: Callable[[], str]) -> T:
        """What a reader finds in what the session gives; it is asked again once the font has changed."""
        with self.session.held():
            self._forget_what_changed()
            if reader not in self._kept:
                self._kept[reader] = reader(given())
            return cast(T, self._kept[reader])

    def _forget_what_changed(self) -> None:
        """Keeps nothing that was read before the last edit that was accepted."""
        changes = self.session.changes
        if changes != self._changes:
            self._changes = changes
            self._kept.clear()
            self._shown_metrics = 0


def pairs_of(kern: str) -> Dict[Tuple[str, str], int]:
    """The pairs of a kerning file in its printed form."""
    lines = (line.split(" ") for line in kern.split("\n")[:-1])
    return {(left, right): int(value) for _, left, right, value in lines}


def body_of(shown: str) -> str:
    """A body as a session shows it, without the tab in front of each line, and without its last line end."""
    return "\n".join(line.removeprefix("\t") for line in shown.split("\n")[:-1])


def encoding_of(shown: str) -> Dict[int, str]:
    """The names that codes have, as a session shows them, a line each: '65 A'."""
    lines = (line.split(" ") for line in shown.split("\n")[:-1])
    return {int(code): name for code, name in lines}
