"""Ways through a source: to a definition, to all that names a glyph or a Subr, and an outline of the whole."""

from __future__ import annotations

from typing import Iterator, List, Optional

from .document import Document
from .places import GLYPH, SUBR
from .targets import Target, composites_on, target, users_of_subr
from .text import Json
from .workspace import Workspace

# Kinds of symbols in the protocol: what a glyph, a Subr and a section are shown as.
CLASS, FUNCTION, NAMESPACE = 5, 12, 3
TITLES = {SUBR: "Subrs", GLYPH: "CharStrings"}
SHOWN_AS = {SUBR: FUNCTION, GLYPH: CLASS}
# So many symbols are found in all documents.
ENOUGH = 500


def definition(workspace: Workspace, params: Json) -> Optional[Json]:
    document = workspace.document(params)
    number = document.places.numbers.get(target(document, params).place)
    return None if number is None else {"uri": document.uri, "range": name_span(document, number)}


def references(workspace: Workspace, params: Json) -> List[Json]:
    document = workspace.document(params)
    with_declaration = bool((params.get("context") or {}).get("includeDeclaration"))
    return [{"uri": document.uri, "range": it} for it in spans(document, target(document, params), with_declaration)]


def highlight(workspace: Workspace, params: Json) -> List[Json]:
    document = workspace.document(params)
    return [{"range": it} for it in spans(document, target(document, params), True)]


def spans(document: Document, found: Target, with_declaration: bool) -> List[Json]:
    """Where a glyph or a Subr is named: at its head, in the encoding, and in bodies that call it or stand on it."""
    number = document.places.numbers.get(found.place)
    heads = [name_span(document, number)] if number is not None and with_declaration else []
    if found.kind == GLYPH:
        slots = [document.text.span(it.row, it.start, it.end) for it in document.places.slots if it.name == found.key]
        return [*heads, *slots, *words_that_name(document, found, runners_on_glyph(document, found.key))]
    if found.kind == SUBR:
        return [*heads, *words_that_name(document, found, users_of_subr(document, found.key))]
    return []


def runners_on_glyph(document: Document, name: str) -> List[int]:
    numbers = (document.places.numbers.get(f"{GLYPH} {it}") for it in composites_on(document, name))
    return [it for it in numbers if it is not None]


def words_that_name(document: Document, found: Target, runners: List[int]) -> Iterator[Json]:
    """The words that name an entry, as these glyphs are run, each once."""
    calls = (it for runner in runners for it in document.run(runner).calls if it.place == found.place)
    words = dict.fromkeys(it.number or it.command for it in calls)
    return (document.text.span(it.row, it.start, it.end) for it in words)


def name_span(document: Document, number: int) -> Json:
    """The range of an entry's name."""
    entry = document.places.entries[number]
    return document.text.span(document.places.rows[number], entry.start, entry.end)


def whole_span(document: Document, number: int) -> Json:
    return document.text.rows(document.places.rows[number], document.places.last(number))


def title_of(document: Document, number: int) -> str:
    entry = document.places.entries[number]
    return entry.key if entry.kind == GLYPH else f"Subr {entry.key}"


def symbols(workspace: Workspace, params: Json) -> List[Json]:
    document = workspace.document(params)
    if not workspace.can("textDocument", "documentSymbol", "hierarchicalDocumentSymbolSupport"):
        return [located(document, it) for it in range(len(document.places.entries))]
    return [it for kind in TITLES for it in section_symbols(document, kind)]


def section_symbols(document: Document, kind: str) -> List[Json]:
    """A section with its entries; nothing where it has none."""
    details = document.held.metrics() if document.held is not None and kind == GLYPH else {}
    children = []
    for number in document.places.of_kind(kind):
        key = document.places.entries[number].key
        it = details.get(key)
        detail = f"{it.width}  [{' '.join(map(str, it.box))}]" if it else ""
        shown: Json = {"name": title_of(document, number), "kind": SHOWN_AS[kind], "detail": detail}
        children.append({**shown, "range": whole_span(document, number), "selectionRange": name_span(document, number)})
    if not children:
        return []
    span = {"start": children[0]["range"]["start"], "end": children[-1]["range"]["end"]}
    head: Json = {"name": TITLES[kind], "kind": NAMESPACE, "detail": str(len(children)), "range": span}
    return [{**head, "selectionRange": {"start": span["start"], "end": span["start"]}, "children": children}]


def located(document: Document, number: int) -> Json:
    entry = document.places.entries[number]
    where = {"uri": document.uri, "range": name_span(document, number)}
    shown = {"name": title_of(document, number), "kind": SHOWN_AS[entry.kind], "location": where}
    return {**shown, "containerName": TITLES[entry.kind]}


def workspace_symbols(workspace: Workspace, params: Json) -> List[Json]:
    """The entries of all documents whose names have a text in them."""
    asked = params.get("query", "").lower()
    found = (
        located(document, number)
        for document in workspace.documents.values()
        for number in range(len(document.places.entries))
        if asked in title_of(document, number).lower()
    )
    return [it for it, _ in zip(found, range(ENOUGH))]


def folding(workspace: Workspace, params: Json) -> List[Json]:
    places = workspace.document(params).places
    folds = [(row, places.last(number)) for number, row in enumerate(places.rows)]
    if places.encoding is not None and places.slots:
        folds.insert(0, (places.encoding, places.slots[-1].row + 1))
    return [{"startLine": first, "endLine": last} for first, last in folds if last > first]
