"""What is said of a glyph, a Subr, a command, a number or a fault under the pointer."""

from __future__ import annotations

import re
from typing import List, Optional

from . import engine
from .commands import COMMANDS, rule, usage
from .document import Document
from .pictures import picture
from .places import GLYPH, SUBR, words_of
from .runs import Point, Step
from .targets import COMMAND, NUMBER, Target, composites_on, runner_of, target, users_of_subr
from .text import Json
from .workspace import Workspace

SPECIAL = re.compile(r"([\\`*_<>\[\]#])")
NEW_LINE = "  \n"
OLDER = "*(of the last font without a fault)*"
MANY = 40


def hover(workspace: Workspace, params: Json) -> Optional[Json]:
    document = workspace.document(params)
    found = target(document, params)
    said = [*faults_at(document, found), *about(workspace, document, found)]
    if not said:
        return None
    span = document.text.span(found.row, found.start, found.end)
    return {"contents": {"kind": "markdown", "value": "\n\n".join(said)}, "range": span}


def faults_at(document: Document, found: Target) -> List[str]:
    """What the faults of a word mean."""
    codes = [it.code for it in document.faults if it.line - 1 == found.row and it.column - 1 == found.start]
    return ["```text\n" + engine.explained(it).strip() + "\n```" for it in dict.fromkeys(codes) if engine.explained(it)]


def about(workspace: Workspace, document: Document, found: Target) -> List[str]:
    if found.kind == GLYPH:
        return about_glyph(workspace, document, found.key)
    if found.kind == SUBR:
        return about_subr(document, found.key)
    if found.kind == COMMAND:
        return [f"`{usage(found.key)}`{NEW_LINE}{rule(found.key)}", *pen_at(document, found)]
    return pen_at(document, found) if found.kind == NUMBER else []


def about_glyph(workspace: Workspace, document: Document, name: str) -> List[str]:
    if document.held is None:
        return []
    glyph, shown = document.held.glyph(name), f"**{plain(name)}**"
    if glyph is None:
        return [f"{shown} isn't in the {'' if document.is_held else 'last '}font{'' if document.is_held else ' without a fault'}"]
    if f"{GLYPH} {name}" in document.stubs:
        return [f"{shown} has a fault, and none of its texts was without"]
    metrics, uses, users = glyph.metrics, glyph.uses, composites_on(document, name)
    rows = [
        shown + (f", code {metrics.code}" if metrics.code is not None else ""),
        f"width {metrics.width}, box {' '.join(map(str, metrics.box))}",
        f"composite of {' and '.join(map(plain, uses.parts))}" if uses.parts else "",
        f"Subrs {' '.join(map(str, uses.subrs))}" if uses.subrs else "",
        f"composites on it: {several(users)}" if users else "",
        "" if document.is_held else OLDER,
    ]
    said = NEW_LINE.join(filter(None, rows))
    return [said, picture(glyph)] if workspace.shows_pictures else [said]


def about_subr(document: Document, key: str) -> List[str]:
    number = document.places.numbers.get(f"{SUBR} {key}")
    if number is None:
        return [f"there is no Subr {key}"]
    words = [it.text for it in words_of(document.lines, document.places, number)]
    users = [document.places.entries[it].key for it in users_of_subr(document, key)]
    said = f"**Subr {key}**, {len(words)} words"
    if document.held is not None:
        said += f"; entered by the runs of {len(users)} glyphs" + (f": {several(users)}" if users else "")
    shown = " ".join(words[:MANY]) + (" .." if len(words) > MANY else "")
    return [f"{said}\n```\n{shown}\n```"]


def pen_at(document: Document, found: Target) -> List[str]:
    """Where the pen stands at a word, and which value of its command that is."""
    runner = None if found.entry is None else runner_of(document, found.entry)
    if runner is None or found.entry is None:
        return []
    for step in document.run(runner).steps:
        if (step.command.row, step.command.start) == (found.row, found.start):
            return [moved(step) + by_run_of(document, runner, found.entry)]
        for nth, word in enumerate(step.operands):
            if word is not None and (word.row, word.start) == (found.row, found.start):
                takes = COMMANDS[step.command.text].takes.split(" ")
                role = takes[nth] if len(takes) == len(step.operands) else f"value {nth + 1}"
                return [f"{role} of `{step.command.text}`{NEW_LINE}{moved(step)}" + by_run_of(document, runner, found.entry)]
    return []


def moved(step: Step) -> str:
    if step.before == step.after:
        return f"the pen stands at {point(step.after)}"
    return f"the pen goes from {point(step.before)} to {point(step.after)}"


def by_run_of(document: Document, runner: int, entry: int) -> str:
    return "" if runner == entry else f", as {plain(document.places.entries[runner].key)} is run"


def point(at: Point) -> str:
    return f"({at[0]}, {at[1]})"


def several(names: List[str]) -> str:
    return " ".join(map(plain, names[:MANY])) + (f" and {len(names) - MANY} more" if len(names) > MANY else "")


def plain(name: str) -> str:
    """A name as markdown shows it."""
    return SPECIAL.sub(r"\\\1", name)
