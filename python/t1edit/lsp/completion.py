"""Completion: commands in bodies, names of glyphs behind a slash."""

from __future__ import annotations

import re
from typing import List

from .commands import COMMANDS, rule, usage
from .document import Document
from .places import GLYPH
from .text import Json
from .workspace import Workspace

WORD_BEFORE = re.compile(r"[^\0\t\f (){}\[\]<>%/]*$")
FUNCTION, CLASS = 3, 7


def completion(workspace: Workspace, params: Json) -> List[Json]:
    document = workspace.document(params)
    row, character = document.text.place(params["position"])
    before = document.lines[row][:character]
    found = WORD_BEFORE.search(before)
    word = found[0] if found else ""
    span = document.text.span(row, character - len(word), character)
    if "%" in before:
        return []
    if before[: character - len(word)].endswith("/"):
        return names(document, word, span)
    number = document.places.number_at(row)
    if number is None or (row == document.places.rows[number] and character < document.places.entries[number].body):
        return []
    return commands(word, span)


def names(document: Document, word: str, span: Json) -> List[Json]:
    """The glyphs whose names begin with a word."""
    keys = (document.places.entries[it].key for it in document.places.of_kind(GLYPH))
    return [{"label": it, "kind": CLASS, "textEdit": {"range": span, "newText": it}} for it in keys if it.startswith(word)]


def commands(word: str, span: Json) -> List[Json]:
    return [
        {
            "label": name,
            "kind": FUNCTION,
            "detail": usage(name),
            "documentation": {"kind": "plaintext", "value": rule(name)},
            "textEdit": {"range": span, "newText": name},
        }
        for name in COMMANDS
        if name.startswith(word)
    ]
