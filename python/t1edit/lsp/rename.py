"""A glyph gets another name: at its head, in the encoding, and in the kerning file beside the source."""

from __future__ import annotations

import re
from typing import Dict, List, Optional

from .document import Document
from .navigation import name_span
from .places import GLYPH, NAME
from .targets import Target, composites_on, target
from .text import Json, Text
from .workspace import Refusal, Workspace, kerning_file, path_of

LONGEST = 127
WORD = re.compile(r"[^\0\t\f ]+")
PAIR = "KPX"


def prepare(workspace: Workspace, params: Json) -> Optional[Json]:
    """The name that can be changed at a place: that of a glyph, where it stands as a name and not as a code."""
    document = workspace.document(params)
    found = renamed(document, params)
    return found and {"range": document.text.span(found.row, found.start, found.end), "placeholder": found.key}


def renamed(document: Document, params: Json) -> Optional[Target]:
    found = target(document, params)
    is_name = document.text.line(found.row)[found.start : found.end] == found.key
    return found if found.kind == GLYPH and is_name and document.places.has(found.place) else None


def rename(workspace: Workspace, params: Json) -> Json:
    """The changes. A composite has its parts by their codes, so a part can't get another name: that is refused."""
    document = workspace.document(params)
    found, name = renamed(document, params), params["newName"]
    if found is None:
        raise Refusal("no glyph stands here by its name")
    judge_name(document, found.key, name)
    slots = [document.text.span(it.row, it.start, it.end) for it in document.places.slots if it.name == found.key]
    spans = [name_span(document, document.places.numbers[found.place]), *slots]
    changes = {document.uri: edits(spans, name), **in_kerning(workspace, document, found.key, name)}
    return {"changes": changes}


def judge_name(document: Document, old: str, name: str) -> None:
    """Refuses a name that would be a fault, or take something along."""
    if not re.fullmatch(f"{NAME}{{1,{LONGEST}}}", name):
        raise Refusal(f"no name of a glyph: {name}")
    if name != old and document.places.has(f"{GLYPH} {name}"):
        raise Refusal(f"there is a glyph {name} already")
    users = composites_on(document, old)
    if users:
        raise Refusal(f"{old} is a part of composites, which have it by its code: {' '.join(users)}")


def edits(spans: List[Json], text: str) -> List[Json]:
    return [{"range": it, "newText": text} for it in spans]


def in_kerning(workspace: Workspace, document: Document, old: str, name: str) -> Dict[str, List[Json]]:
    """The changes of the kerning file's pairs."""
    uri = kerning_file(document.uri)
    text = text_of(workspace, uri) if uri else None
    if uri is None or text is None:
        return {}
    spans = []
    for row, line in enumerate(text.lines):
        words = list(WORD.finditer(line))
        if words and words[0][0] == PAIR:
            spans += [text.span(row, *it.span()) for it in words[1:3] if it[0] == old]
    return {uri: edits(spans, name)} if spans else {}


def text_of(workspace: Workspace, uri: str) -> Optional[Text]:
    """A file as the editor has it, or as it is on the disk."""
    if uri in workspace.documents:
        return workspace.documents[uri].text
    try:
        with open(path_of(uri), "rb") as file:
            return Text(file.read().decode("utf-8", "replace"), workspace.unit)
    except OSError:
        return None
