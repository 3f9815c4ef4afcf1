"""What is shown beside the words of a text, and how bodies are laid out: inlay hints, semantic tokens, formatting of a range."""

from __future__ import annotations

import re
from typing import Iterator, List, Optional, Tuple

from .commands import COMMANDS
from .document import Document
from .places import GLYPH, closing_of
from .text import FAR, Json
from .workspace import Workspace

TOKENS = ["keyword", "number", "class", "comment", "string"]
KEYWORD, NUMBER, CLASS, COMMENT, OTHER = range(len(TOKENS))
WORD = re.compile(r"%.*|[{}]|[^\0\t\f {}%]+")
DIGITS = re.compile("-?[0-9]+")
# A row, a start, an end, and the kind of a token.
Token = Tuple[int, int, int, int]


def inlay_hints(workspace: Workspace, params: Json) -> List[Json]:
    """Width and box at the heads of glyphs, as the session's font has them."""
    document = workspace.document(params)
    if document.held is None:
        return []
    found = []
    for number in document.places.between(params["range"]["start"]["line"], params["range"]["end"]["line"]):
        entry, row = document.places.entries[number], document.places.rows[number]
        is_known = entry.kind == GLYPH and entry.place not in document.stubs
        metrics = document.held.metrics_of(entry.key) if is_known else None
        if metrics is not None:
            label = f"width {metrics.width}, box {' '.join(map(str, metrics.box))}"
            found.append({"position": document.text.position(row, FAR), "label": label, "paddingLeft": True})
    return found


def semantic_tokens(workspace: Workspace, params: Json) -> Json:
    """The tokens of the entries in a range, each by its distance from the one before."""
    document = workspace.document(params)
    top, bottom = params["range"]["start"]["line"], params["range"]["end"]["line"]
    data: List[int] = []
    row = column = 0
    for number in document.places.between(top, bottom):
        for at, start, end, kind in tokens(document, number, top, bottom):
            begin = document.text.column(at, start)
            data += [at - row, begin - (column if at == row else 0), document.text.column(at, end) - begin, kind, 0]
            row, column = at, begin
    return {"data": data}


def tokens(document: Document, number: int, top: int, bottom: int) -> Iterator[Token]:
    """The name, the words and the comments of an entry, in some rows."""
    entry, first = document.places.entries[number], document.places.rows[number]
    for row in range(max(first, top), min(document.places.last(number), bottom, len(document.lines) - 1) + 1):
        if row == first:
            yield row, entry.start, entry.end, CLASS
        for found in WORD.finditer(document.lines[row], entry.body if row == first else 0):
            if found[0] == "}":
                return
            yield (row, *found.span(), kind_of(found[0]))


def kind_of(word: str) -> int:
    if word[0] == "%":
        return COMMENT
    if word in COMMANDS:
        return KEYWORD
    return NUMBER if DIGITS.fullmatch(word) else OTHER


def format_range(workspace: Workspace, params: Json) -> List[Json]:
    """Lays out the entries that a range touches, one edit each; those that are laid out already have none."""
    document = workspace.document(params)
    top, bottom = params["range"]["start"]["line"], params["range"]["end"]["line"]
    return [it for number in document.places.between(top, bottom) for it in laid_out(document, number)]


def format_all(workspace: Workspace, params: Json) -> List[Json]:
    document = workspace.document(params)
    return [it for number in range(len(document.places.entries)) for it in laid_out(document, number)]


def laid_out(document: Document, number: int) -> Iterator[Json]:
    entry, first, last = document.places.entries[number], document.places.rows[number], document.places.last(number)
    rows = document.lines[first : last + 1]
    closing = closing_of(rows[-1], entry.body if first == last else 0)
    body = body_lines(rows, entry.body)
    if not entry.is_closed or closing is None or body is None:
        return
    head = f"/{entry.key} {{" if entry.kind == GLYPH else f"dup {entry.key} {{"
    new = [head, *body, f"\t}} {closing}".rstrip(" ")]
    if new != rows:
        yield {"range": document.text.rows(first, last), "newText": "\n".join(new)}


def body_lines(rows: List[str], start: int) -> Optional[List[str]]:
    """A body in lines as the program prints them: a line ends behind each word that is no number. A comment ends its line; one that
    stood behind a command stays there, and one that had a line of its own keeps that. None where a brace opens in it."""
    lines: List[str] = []
    words: List[str] = []
    for row in rows:
        is_first = True
        for found in WORD.finditer(row, start):
            word = found[0]
            if word == "{":
                return None
            if word == "}":
                return lines + ([spelled(words)] if words else [])
            if word[0] == "%" and not words and not is_first and lines:
                lines[-1] += f" {word}"
            else:
                words.append(word)
                if not DIGITS.fullmatch(word):
                    lines.append(spelled(words))
                    words = []
            is_first = False
        start = 0
    return None


def spelled(words: List[str]) -> str:
    return "\t" + " ".join(words)
