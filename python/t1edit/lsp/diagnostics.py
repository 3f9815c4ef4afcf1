"""Faults and notes as diagnostics of the protocol."""

from __future__ import annotations

import functools
import os
import pathlib
import re
from typing import Dict, List, Optional, Tuple

from ..fault_list import Fault
from ..program import TOP
from .document import Document
from .engine import Note
from .text import Json

ERROR, WARNING = 1, 2
WORD = re.compile(r"[^\0\t\f {}%]+|.?")
BLANKS_AND_COMMENT = re.compile(r"[\0\t\f ]*(%.*)?$")
SOURCE = "t1edit"
# A section of the page with all codes, and what its name as an anchor leaves out.
HEAD = re.compile(r"(?m)^### (([A-Za-z0-9-]+): .*)$")
NO_ANCHOR = re.compile(r"[^a-z0-9 -]")
# Of so many glyphs that met a fault in a Subr, the places are told.
SEVERAL = 20
# Where the page with all codes may stand: in a checkout, or as Debian has it.
PAGES = [os.path.join(TOP, "docs", "FAULTS.md"), "/usr/share/doc/t1edit/docs/FAULTS.md"]


def diagnostics(document: Document) -> List[Json]:
    """All that is told of a text."""
    return [*(of_fault(document, it) for it in document.faults), *(of_note(document, it) for it in document.notes)]


def of_fault(document: Document, fault: Fault) -> Json:
    word = fault.word if fault.word is not None else ""
    said = ": ".join(filter(None, [fault.place, fault.text, word])) + (f" ({fault.hint})" if fault.hint else "")
    if fault.composites:
        said += "\ncomposites on it: " + " ".join(fault.composites)
    span = span_of(document, fault)
    found = diagnostic(span, ERROR, fault.code, said)
    related = [it for chain in fault.chains[:SEVERAL] for it in calls(document, chain)]
    return {**found, "relatedInformation": related} if related else found


def of_note(document: Document, note: Note) -> Json:
    return diagnostic(word_span(document, note.line - 1, note.column - 1), WARNING, note.kind, note.text)


def diagnostic(span: Json, severity: int, code: str, message: str) -> Json:
    found = {"range": span, "severity": severity, "source": SOURCE, "code": code, "message": message}
    link = links().get(code)
    return {**found, "codeDescription": {"href": link}} if link else found


@functools.lru_cache(maxsize=None)
def links() -> Dict[str, str]:
    """Where the page says what a code means; nothing where the page isn't there."""
    path = next((it for it in PAGES if os.path.exists(it)), None)
    if path is None:
        return {}
    with open(path, encoding="utf-8") as file:
        heads, page = HEAD.findall(file.read()), pathlib.Path(path).as_uri()
    return {code: f"{page}#{NO_ANCHOR.sub('', head.lower()).replace(' ', '-')}" for head, code in heads}


def span_of(document: Document, fault: Fault) -> Json:
    """The range of the word at fault, or of the line where that is at fault as a whole."""
    row, start = fault.line - 1, fault.column - 1
    if not fault.place.startswith("line "):
        return word_span(document, row, start)
    line = document.text.line(row)
    found = BLANKS_AND_COMMENT.search(line, min(start, len(line)))
    return document.text.span(row, start, max(found.start() if found else 0, start))


def word_span(document: Document, row: int, start: int) -> Json:
    line = document.text.line(row)
    found = WORD.match(line, min(start, len(line)))
    return document.text.span(row, start, found.end() if found else start)


def calls(document: Document, chain: Tuple[str, ...]) -> List[Json]:
    """Where the calls stand by which a glyph came to a fault: in the glyph, and in the Subrs on the way."""
    found = []
    for caller, called in zip(chain, chain[1:]):
        span = call_span(document, chain[0], caller, called)
        if span is not None:
            found.append({"location": {"uri": document.uri, "range": span}, "message": ", ".join(chain)})
    return found


def call_span(document: Document, glyph: str, caller: str, called: str) -> Optional[Json]:
    """The range of the command by which a glyph's run goes from one entry to another; or of the caller's name."""
    places = document.places
    runner, number = places.numbers.get(glyph), places.numbers.get(caller)
    if runner is None or number is None:
        return None
    for call in document.run(runner).calls:
        if call.place == called and places.number_at(call.command.row) == number:
            return document.text.span(call.command.row, call.command.start, call.command.end)
    entry = places.entries[number]
    return document.text.span(places.rows[number], entry.start, entry.end)
