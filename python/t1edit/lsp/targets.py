"""What stands at a place of a text: a glyph's name, a Subr's number, a command, or a number."""

from __future__ import annotations

import re
from typing import List, NamedTuple, Optional, Tuple

from .commands import COMMANDS
from .document import Document
from .places import GLYPH, SUBR, Word, words_of
from .text import Json

COMMAND, NUMBER, NOTHING = "command", "number", ""
DIGITS = re.compile("-?[0-9]+")


class Target(NamedTuple):
    """What stands at a place, where its word stands, and the number of the entry to which that belongs."""

    kind: str
    key: str
    row: int
    start: int
    end: int
    entry: Optional[int] = None

    @property
    def place(self) -> str:
        return f"{self.kind} {self.key}"


def target(document: Document, params: Json) -> Target:
    """What stands at the position of a request."""
    row, character = document.text.place(params["position"])
    places = document.places
    number = places.number_at(row)
    if number is None:
        return slot_at(document, row, character)
    entry = places.entries[number]
    if row == places.rows[number] and character <= entry.end:
        return Target(entry.kind, entry.key, row, entry.start, entry.end, number)
    words = list(words_of(document.lines, places, number))
    word = next((it for it in words if it.row == row and it.start <= character <= it.end), None)
    return Target(NOTHING, "", row, character, character) if word is None else of_word(document, number, words, word)


def slot_at(document: Document, row: int, character: int) -> Target:
    """A name in the encoding array."""
    for it in document.places.slots:
        if it.row == row and it.start - 1 <= character <= it.end:
            return Target(GLYPH, it.name, row, it.start, it.end)
    return Target(NOTHING, "", row, character, character)


def of_word(document: Document, number: int, words: List[Word], word: Word) -> Target:
    """What a word of a body names: by the run of a glyph that has it, or else by the words beside it."""
    kind, key = named_by_run(document, number, word) or named_beside(words, word)
    return Target(kind, key, word.row, word.start, word.end, number)


def named_by_run(document: Document, number: int, word: Word) -> Optional[Tuple[str, str]]:
    runner = runner_of(document, number)
    if runner is None:
        return None
    for call in document.run(runner).calls:
        if word == call.number or word == call.command and call.command.text == "callsubr":
            kind, _, key = call.place.partition(" ")
            return kind, key
    return None


def runner_of(document: Document, number: int) -> Optional[int]:
    """The glyph whose run goes over an entry: itself, or one that enters the Subr."""
    entry = document.places.entries[number]
    if entry.kind == GLYPH:
        return number
    return next(iter(users_of_subr(document, entry.key)), None)


def users_of_subr(document: Document, key: str) -> List[int]:
    """The glyphs whose run enters a Subr, in the font that the session holds."""
    uses = document.held.uses() if document.held is not None else {}
    numbers = (document.places.numbers.get(f"{GLYPH} {name}") for name, it in uses.items() if int(key) in it.subrs)
    return [it for it in numbers if it is not None]


def composites_on(document: Document, name: str) -> List[str]:
    """The composites that have a glyph as a part, in the font that the session holds."""
    uses = document.held.uses() if document.held is not None else {}
    return [other for other, it in uses.items() if name in it.parts]


def named_beside(words: List[Word], word: Word) -> Tuple[str, str]:
    """What a word names by itself, where no run goes over it."""
    if word.text in COMMANDS:
        return COMMAND, word.text
    at = words.index(word)
    if DIGITS.fullmatch(word.text):
        if at + 1 < len(words) and words[at + 1].text == "callsubr":
            return SUBR, word.text
        return NUMBER, word.text
    return NOTHING, word.text
