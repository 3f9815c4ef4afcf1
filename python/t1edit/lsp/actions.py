"""What can be done about a fault or a note: an edit for each hint that means one."""

from __future__ import annotations

import re
from typing import Callable, Dict, Iterator, List, Optional, Tuple

from ..fault_list import Fault
from . import diagnostics
from .document import Document
from .engine import Note
from .places import GLYPH, SUBR
from .text import Json
from .workspace import Workspace

# A title, where something is put in place of what, and the text.
Edit = Tuple[str, Json, str]

TITLES = {GLYPH: "glyph", SUBR: "Subr"}
EMPTY = {GLYPH: "\t0 0 hsbw\n\tendchar\n\t} ND\n", SUBR: "\treturn\n\t} NP\n"}
HEADS = {GLYPH: "/{} {{\n", SUBR: "dup {} {{\n"}
ONLY_A_NAME = re.compile(r"[\0\t\f ]*/[^\0\t\f ()<>\[\]{}/%]+[\0\t\f ]*$")
BRACE_ALONE = re.compile(r"[\0\t\f ]*\{[\0\t\f ]*$")


def actions(workspace: Workspace, params: Json) -> List[Json]:
    document = workspace.document(params)
    top, bottom = params["range"]["start"]["line"], params["range"]["end"]["line"]
    found: List[Json] = []
    for fault in document.faults:
        if top <= fault.line - 1 <= bottom:
            found += [action(document, diagnostics.of_fault(document, fault), it) for it in edits_for_fault(document, fault)]
    for note in document.notes:
        if top <= note.line - 1 <= bottom:
            found += [action(document, diagnostics.of_note(document, note), it) for it in edits_for_note(document, note)]
    return found


def action(document: Document, diagnostic: Json, edit: Edit) -> Json:
    title, span, text = edit
    changes = {document.uri: [{"range": span, "newText": text}]}
    return {"title": title, "kind": "quickfix", "diagnostics": [diagnostic], "isPreferred": True, "edit": {"changes": changes}}


def edits_for_fault(document: Document, fault: Fault) -> Iterator[Edit]:
    hint, span = fault.hint or "", diagnostics.span_of(document, fault)
    missing = re.fullmatch(r"no (Subr|glyph) (\S+)", hint)
    if hint.endswith("?"):
        yield f"write {hint[:-1]}", span, hint[:-1]
    elif missing:
        yield from added(document, {"Subr": SUBR, "glyph": GLYPH}[missing[1]], missing[2])
    elif hint.startswith("first on line "):
        yield from taken_out(document, fault)
    elif fault.code == "F35":
        yield from before_brace(document, fault, "endchar")
    elif fault.code == "F34":
        yield "write endchar", span, "endchar"
    elif fault.code == "F7":
        yield from closed(document, fault)


def added(document: Document, kind: str, key: str) -> Iterator[Edit]:
    """An entry that does nothing, behind all others of its kind."""
    last = max(document.places.of_kind(kind), default=None)
    if last is not None:
        row = document.places.last(last) + 1
        yield f"add an empty {TITLES[kind]} {key}", document.text.span(row, 0, 0), HEADS[kind].format(key) + EMPTY[kind]


def taken_out(document: Document, fault: Fault) -> Iterator[Edit]:
    number = document.places.number_at(fault.line - 1)
    if number is not None:
        first, after = document.places.rows[number], document.places.last(number) + 1
        yield "take this entry out", {"start": document.text.position(first, 0), "end": document.text.position(after, 0)}, ""


def before_brace(document: Document, fault: Fault, word: str) -> Iterator[Edit]:
    number = document.places.numbers.get(fault.place)
    if number is not None:
        row = document.places.last(number)
        line = document.lines[row]
        start = line.rfind("}") if document.places.entries[number].height == 0 else len(line) - len(line.lstrip("\0\t\f "))
        gap = "\n\t" if start and line[:start].isspace() else " "
        yield f"write {word}", document.text.span(row, start, start), word + gap


def closed(document: Document, fault: Fault) -> Iterator[Edit]:
    """A brace behind the last line that can be of an entry."""
    number = document.places.number_at(fault.line - 1)
    if number is not None and not document.places.entries[number].is_closed:
        row = document.places.last(number)
        text = "\n\t} " + ("ND" if document.places.entries[number].kind == GLYPH else "NP")
        yield "write the missing }", document.text.span(row, len(document.lines[row]), len(document.lines[row])), text


def edits_for_note(document: Document, note: Note) -> Iterator[Edit]:
    call: Optional[Callable[[Document, Note], Iterator[Edit]]] = OF_NOTES.get(note.kind)
    return call(document, note) if call is not None else iter(())


def right_count(document: Document, note: Note) -> Iterator[Edit]:
    for section in document.places.sections.values():
        if section.row == note.line - 1:
            keys = [document.places.entries[it].key for it in document.places.of_kind(section.kind)]
            count = len(keys) if section.kind == GLYPH else max(map(int, keys), default=-1) + 1
            yield f"write the count {count}", document.text.span(section.row, section.start, section.end), str(count)


def without_line(document: Document, note: Note) -> Iterator[Edit]:
    row = note.line - 1
    yield "take the line out", {"start": document.text.position(row, 0), "end": document.text.position(row + 1, 0)}, ""


def with_brace(document: Document, note: Note) -> Iterator[Edit]:
    """The brace of an entry, at the end of the line that has its name."""
    row = note.line - 1
    line = document.text.line(row)
    if ONLY_A_NAME.match(line):
        end, below = len(line.rstrip("\0\t\f ")), document.text.line(row + 1)
        last = (row + 1, len(below)) if BRACE_ALONE.match(below) else (row, len(line))
        yield "write {", {"start": document.text.position(row, end), "end": document.text.position(*last)}, " {"


def closed_path(document: Document, note: Note) -> Iterator[Edit]:
    row, start = note.line - 1, note.column - 1
    if document.text.line(row)[start:].startswith("endchar"):
        yield "write closepath", document.text.span(row, start, start), "closepath\n\t"


OF_NOTES: Dict[str, Callable[[Document, Note], Iterator[Edit]]] = {
    "count": right_count,
    "encoded-name": without_line,
    "no-entry": with_brace,
    "open-path": closed_path,
}
