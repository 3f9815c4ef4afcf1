"""The text of a document: lines that changes are spliced into, and columns in the units of a client.

An editor hands over characters, and not the file's bytes. For the program each character becomes one byte: its own up to U+00FF,
and 0xBF above, which no word of a source may have either. So a column of the program, in bytes, is a character of the line.
"""

from __future__ import annotations

import codecs
import re
from typing import Any, Dict, List, NamedTuple, Tuple, Union

Json = Dict[str, Any]

LINE_END = re.compile("\r\n|\r|\n")
# How a client may count the characters of a line.
UTF_8, UTF_16, UTF_32 = "utf-8", "utf-16", "utf-32"
BEYOND_LATIN_1 = "t1edit-beyond-latin-1"
# Past the end of each line.
FAR = 1 << 30


def byte_for_each(error: UnicodeError) -> Tuple[Union[str, bytes], int]:
    assert isinstance(error, UnicodeEncodeError)
    return b"\xbf" * (error.end - error.start), error.end


codecs.register_error(BEYOND_LATIN_1, byte_for_each)


def as_bytes(text: str) -> bytes:
    """A text as the program reads it, a byte for each character."""
    return text.encode("latin-1", BEYOND_LATIN_1)


class Splice(NamedTuple):
    """Lines that were replaced: the first row, how many there were, and how many there are instead."""

    top: int
    removed: int
    added: int


class Text:
    """The lines of a document, without their ends. Rows and characters count from 0."""

    def __init__(self, text: str, unit: str = UTF_16) -> None:
        self.lines, self.unit = lines_of(text), unit

    def as_bytes(self) -> bytes:
        """The text as the program reads it."""
        return as_bytes("\n".join(self.lines))

    def line(self, row: int) -> str:
        return self.lines[row] if 0 <= row < len(self.lines) else ""

    def change(self, change: Json) -> Splice:
        """Takes a change of the protocol."""
        lines = lines_of(change["text"])
        if "range" not in change:
            splice = Splice(0, len(self.lines), len(lines))
            self.lines = lines
            return splice
        top, start = self.place(change["range"]["start"])
        bottom, end = self.place(change["range"]["end"])
        tail = self.lines[bottom][end:]
        lines[0] = self.lines[top][:start] + lines[0]
        lines[-1] += tail
        self.lines[top : bottom + 1] = lines
        return Splice(top, bottom + 1 - top, len(lines))

    def place(self, position: Json) -> Tuple[int, int]:
        """The row and the character at a position; the end of the text where it is past that."""
        row = position["line"]
        if row >= len(self.lines):
            return len(self.lines) - 1, len(self.lines[-1])
        return row, self.character(row, position["character"])

    def character(self, row: int, column: int) -> int:
        """The character of a line at which a column of the protocol stands."""
        line = self.line(row)
        if self.unit == UTF_32 or line.isascii():
            return min(column, len(line))
        reached = 0
        for character, it in enumerate(line):
            if reached >= column:
                return character
            reached += units(it, self.unit)
        return len(line)

    def column(self, row: int, character: int) -> int:
        """The column of the protocol for a character of a line."""
        line = self.line(row)
        if self.unit == UTF_32 or line.isascii():
            return min(character, len(line))
        return sum(units(it, self.unit) for it in line[:character])

    def position(self, row: int, character: int) -> Json:
        return {"line": row, "character": self.column(row, character)}

    def span(self, row: int, start: int, end: int) -> Json:
        """The range of some characters of a line."""
        return {"start": self.position(row, start), "end": self.position(row, end)}

    def rows(self, first: int, last: int) -> Json:
        """The range of whole lines."""
        return {"start": self.position(first, 0), "end": self.position(last, FAR)}


def units(character: str, unit: str) -> int:
    """How many units of a client a character takes."""
    if unit == UTF_16:
        return 2 if character > "\uffff" else 1
    return len(character.encode("utf-8", "surrogatepass"))


def lines_of(text: str) -> List[str]:
    """The lines of a text, whatever they end with."""
    return LINE_END.split(text) if "\r" in text else text.split("\n")
