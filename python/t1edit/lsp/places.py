"""What stands where in a source: its sections, the slots of its encoding, its entries and their words.

This stands in for what the program doesn't tell yet (t1edit places). It goes by docs/SOURCE.md; of a text with a fault of reading
it tells what a reader would guess: an entry without its brace ends where the next one begins.
"""

from __future__ import annotations

import bisect
import re
from dataclasses import dataclass, field
from typing import Dict, Iterator, List, NamedTuple, Optional

from .text import Splice

BLANKS = "\0\t\f "
B = r"[\0\t\f ]"
NAME = r"[!-$&'*-.0-:=?-Z\\^-z|~]"
HEAD_OF_SUBR = re.compile(rf"{B}*dup{B}+([0-9]+){B}*\{{")
HEAD_OF_GLYPH = re.compile(rf"{B}*/({NAME}+){B}*\{{")
END_OF_TOKEN = r"(?![^\0\t\f ()<>\[\]{}/%])"
SUBRS = re.compile(rf"[^%]*?/Subrs{B}+([0-9]{{1,9}}){B}+array{END_OF_TOKEN}")
GLYPHS = re.compile(rf"[^%]*?/CharStrings{B}+([0-9]{{1,9}}){B}+dict{END_OF_TOKEN}")
ENCODING = re.compile(rf"{B}*/Encoding{END_OF_TOKEN}{B}*([0-9]+{B}+array{END_OF_TOKEN})?")
SLOT = re.compile(rf"{B}*dup{B}+(8#[0-7]+|[0-9]+){B}*/({NAME}+){B}+put{B}*(?:%|$)")
LAST_TOKEN = re.compile(rf"(/?[^\0\t\f ()<>\[\]{{}}/%]+){B}*$")
WORD = re.compile(r"%.*|[{}]|[^\0\t\f {}%]+")
END_OF_CLEAR, END_OF_PRIVATE = "currentfile eexec", "mark currentfile closefile"
GLYPH, SUBR = "glyph", "subr"


class Word(NamedTuple):
    """A word of a body, and where it stands."""

    text: str
    row: int
    start: int

    @property
    def end(self) -> int:
        return self.start + len(self.text)


@dataclass
class Entry:
    """A glyph or a Subr. Rows are kept by Places, so that lines put in above don't touch it."""

    kind: str
    key: str
    # where its name stands on its first line, and where its body begins there
    start: int
    end: int
    body: int
    # the rows after the first, and whether a brace ends it on the last
    height: int = 0
    is_closed: bool = False

    @property
    def place(self) -> str:
        """Its place as the program says it: 'glyph A', 'subr 7'."""
        return f"{self.kind} {self.key}"


@dataclass(frozen=True)
class Slot:
    """A line of the encoding array that gives a code a name."""

    code: int
    name: str
    row: int
    start: int
    end: int


@dataclass
class Section:
    """A line /Subrs or /CharStrings, and where its count stands."""

    kind: str
    row: int
    start: int
    end: int


@dataclass
class Places:
    """All that was found, in the order of the source. The row of entry n is rows[n]."""

    entries: List[Entry] = field(default_factory=list)
    rows: List[int] = field(default_factory=list)
    slots: List[Slot] = field(default_factory=list)
    sections: Dict[str, Section] = field(default_factory=dict)
    encoding: Optional[int] = None
    numbers: Dict[str, int] = field(default_factory=dict)

    def add(self, entry: Entry, row: int) -> None:
        self.numbers.setdefault(entry.place, len(self.entries))
        self.entries.append(entry)
        self.rows.append(row)

    def number_at(self, row: int) -> Optional[int]:
        """The number of the entry to which a row belongs."""
        number = bisect.bisect_right(self.rows, row) - 1
        return number if number >= 0 and row <= self.last(number) else None

    def last(self, number: int) -> int:
        """The last row of an entry."""
        return self.rows[number] + self.entries[number].height

    def has(self, place: str) -> bool:
        return place in self.numbers

    def of_kind(self, kind: str) -> Iterator[int]:
        return (number for number, it in enumerate(self.entries) if it.kind == kind)

    def between(self, top: int, bottom: int) -> range:
        """The numbers of the entries that have some of these rows."""
        first = max(0, bisect.bisect_right(self.rows, top) - 1)
        if first < len(self.rows) and self.last(first) < top:
            first += 1
        return range(first, bisect.bisect_right(self.rows, bottom))

    def grow(self, number: int, by: int) -> None:
        """Moves what stands below an entry that has got so many rows more."""
        if by:
            self.entries[number].height += by
            self.rows[number + 1 :] = [row + by for row in self.rows[number + 1 :]]
            for section in self.sections.values():
                section.row += by * (section.row > self.rows[number])


def code_of(text: str) -> int:
    """A code of a slot, in decimal or as 8#101."""
    return int(text[2:], 8) if text.startswith("8#") else int(text)


def ends_in(line: str, words: str) -> bool:
    return words in line and line.rstrip(BLANKS).endswith(words)


def head_of(line: str, kind: str) -> Optional[Entry]:
    """The entry that a line opens."""
    found = (HEAD_OF_GLYPH if kind == GLYPH else HEAD_OF_SUBR).match(line)
    if found is None:
        return None
    key = found[1] if kind == GLYPH else str(int(found[1]))
    return Entry(kind, key, found.start(1), found.end(1), found.end())


def brace_in(line: str, start: int = 0) -> int:
    """Where the first } of a line stands, outside of its comment; -1 where none does."""
    at = line.find("}", start)
    return -1 if at < 0 or 0 <= line.find("%", start) < at else at


class Reader:
    """Reads lines in turn into Places."""

    def __init__(self, lines: List[str]) -> None:
        self.lines, self.found = lines, Places()

    def read(self) -> Places:
        clear = next((row for row, it in enumerate(self.lines) if ends_in(it, END_OF_CLEAR)), None)
        if clear is not None:
            self._read_encoding(clear)
        self._read_private(0 if clear is None else clear + 1)
        return self.found

    def _read_encoding(self, last: int) -> None:
        in_array = False
        for row in range(last + 1):
            line = self.lines[row]
            if self.found.encoding is None:
                found = ENCODING.match(line)
                if found:
                    self.found.encoding, in_array = row, bool(found[1])
            elif not in_array:
                return
            elif (slot := SLOT.match(line)) is not None:
                self.found.slots.append(Slot(code_of(slot[1]), slot[2], row, *slot.span(2)))
            else:
                token = LAST_TOKEN.search(line.partition("%")[0])
                in_array = token is None or token[1] != "def"

    def _read_private(self, row: int) -> None:
        """Reads entries and sections, up to the line that ends the private part."""
        lines, kind = self.lines, ""
        while row < len(lines):
            line = lines[row]
            if "mark" in line and ends_in(line, END_OF_PRIVATE):
                return
            entry = head_of(line, kind) if kind and "{" in line else None
            if entry is not None:
                self.found.add(entry, row)
                row = self._end_of(entry, row)
            elif "/" in line:
                kind = self._section(line, row, kind)
            row += 1

    def _section(self, line: str, row: int, kind: str) -> str:
        """The kind of the entries from a line on."""
        for pattern, opened in ((SUBRS, SUBR), (GLYPHS, GLYPH)):
            found = pattern.match(line) if opened not in self.found.sections else None
            if found is not None:
                self.found.sections[opened] = Section(opened, row, *found.span(1))
                kind = opened
        return kind

    def _end_of(self, entry: Entry, first: int) -> int:
        """The last row of an entry: that of its brace, or the one before the next entry."""
        lines, row, start = self.lines, first, entry.body
        while row < len(lines):
            line = lines[row]
            if "}" in line and brace_in(line, start) >= 0:
                entry.height, entry.is_closed = row - first, True
                return row
            if row > first and self._begins_anew(line):
                break
            row, start = row + 1, 0
        entry.height = row - 1 - first
        return row - 1

    @staticmethod
    def _begins_anew(line: str) -> bool:
        """Whether a line stands in no body: it opens an entry, or ends the private part."""
        if "{" in line:
            return head_of(line, GLYPH) is not None or head_of(line, SUBR) is not None
        return "mark" in line and ends_in(line, END_OF_PRIVATE)


def read(lines: List[str]) -> Places:
    """What stands where in a text."""
    return Reader(lines).read()


def words_of(lines: List[str], places: Places, number: int) -> Iterator[Word]:
    """The words of an entry's body."""
    entry, row = places.entries[number], places.rows[number]
    start = entry.body
    for at in range(row, row + entry.height + 1):
        for found in WORD.finditer(lines[at], start):
            if found[0] == "}":
                return
            if found[0][0] != "%":
                yield Word(found[0], at, found.start())
        start = 0


def body_of(lines: List[str], places: Places, number: int) -> str:
    """The text of an entry's body, without comments."""
    entry, row = places.entries[number], places.rows[number]
    rows = lines[row : row + entry.height + 1]
    rows[0] = rows[0][entry.body :]
    return "\n".join(it.partition("%")[0].partition("}")[0] for it in rows)


def changes_a_body(lines: List[str], places: Places, number: int, splice: Splice, closing: str) -> bool:
    """Whether lines that were replaced within an entry have changed its body and nothing else: its head, its brace and the text
    behind that are as they were, and nothing is opened or ended, so that all other lines are read as before. Then the entry stands
    where it is now."""
    entry, row = places.entries[number], places.rows[number]
    last = row + entry.height + splice.added - splice.removed
    head: Optional[Entry] = entry
    if splice.top == row:
        head = head_of(lines[row], entry.kind)
        if head is None or head.place != entry.place:
            return False
    assert head is not None
    for at in range(splice.top, splice.top + splice.added):
        line, start = lines[at], head.body if at == row else 0
        bare = line[start:].partition("%")[0]
        if ends_in(line, END_OF_PRIVATE) or "{" in bare.partition("}")[0]:
            return False
        if at < last and "}" in bare or at == last and closing_of(line, start) != closing:
            return False
    entry.start, entry.end, entry.body = head.start, head.end, head.body
    places.grow(number, splice.added - splice.removed)
    return True


def closing_of(line: str, start: int) -> Optional[str]:
    """What stands behind the brace of an entry's last line; None where it has none."""
    at = brace_in(line, start)
    return None if at < 0 else line[at + 1 :].strip(BLANKS)
