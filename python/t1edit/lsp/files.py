"""Commands of the client: files of a font that are written, a font's file shown as its source, a page on a glyph."""

from __future__ import annotations

import os
import subprocess
import sys
from typing import Any, Callable, Dict, List
from urllib.parse import quote

from ..program import TOP, found, last_line
from . import engine
from .places import GLYPH
from .targets import target
from .text import Json
from .workspace import ERROR, Refusal, Workspace, file_of, kerning_file, path_of

FORMS = {"pfb": ["assemble"], "pfa": ["assemble", "--pfa"], "afm": ["measure"]}
FONTS = (".pfb", ".pfa")
# Where a page may stand that shows a font's file glyph by glyph: in a checkout, or as Debian has it.
PAGES = [os.path.join(TOP, "examples", "live.py"), "/usr/share/doc/t1edit/examples/live.py"]


def write(workspace: Workspace, uri: str, *forms: str) -> List[str]:
    """Writes files of a source beside it, by the program, of the file as it was saved. Gives their names."""
    path, kern = file_of(uri), kerning_file(uri)
    front = os.path.splitext(path)[0]
    wrote: List[str] = []
    for form in forms:
        if form not in FORMS:
            raise Refusal(f"no form of a font: {form}")
        options = [*(["--kern", path_of(kern)] if kern and form == "afm" else []), *(["--font"] if is_font(uri) else [])]
        ran = run(*FORMS[form], *options, "-o", f"{front}.{form}", path)
        if ran.returncode:
            workspace.show(f"{os.path.basename(front)}.{form} isn't written: {said(ran)}", ERROR)
            return wrote
        wrote.append(f"{os.path.basename(front)}.{form}")
    if wrote:
        workspace.show(f"t1edit wrote {' '.join(wrote)}")
    return wrote


def run(*words: str) -> "subprocess.CompletedProcess[bytes]":
    """Runs the program."""
    return subprocess.run([found(), *words], capture_output=True, stdin=subprocess.DEVNULL)


def said(ran: "subprocess.CompletedProcess[bytes]") -> str:
    """Why the program has ended with a fault."""
    return last_line(ran.stderr.decode("latin-1"))


def save(workspace: Workspace, params: Json) -> None:
    """Writes the files that are wanted at each save of a source."""
    uri, forms = params["textDocument"]["uri"], workspace.options["writeOnSave"] or []
    if forms and not is_font(uri):
        write(workspace, uri, *forms)


def is_font(uri: str) -> bool:
    return path_of(uri).lower().endswith(FONTS)


def source(workspace: Workspace, uri: str) -> str:
    """The source of a font's file."""
    ran = run("disassemble", path_of(uri))
    if ran.returncode:
        raise Refusal(said(ran))
    return ran.stdout.decode("latin-1")


def content(workspace: Workspace, params: Json) -> Json:
    """The same as the content of a document that the client shows."""
    return {"text": source(workspace, params["uri"])}


def explain(workspace: Workspace, code: str) -> str:
    return engine.explained(code)


def page(workspace: Workspace, uri: str, line: int = 0, character: int = 0) -> str:
    """Has the client open a page on the glyph at a place of a source, and gives its address."""
    document = workspace.document({"textDocument": {"uri": uri}})
    place = target(document, {"position": {"line": line, "character": character}})
    number = document.places.number_at(line)
    entry = None if number is None else document.places.entries[number]
    name = place.key if place.kind == GLYPH else entry.key if entry is not None and entry.kind == GLYPH else ""
    address = workspace.pages.address(page_words(workspace), file_of(uri))
    if not address:
        raise Refusal("the page isn't served; the file of a source with a fault has none")
    address += f"#{quote(name)}" if name else ""
    if workspace.can("window", "showDocument", "support"):
        workspace.ask("window/showDocument", {"uri": address, "external": True})
    else:
        workspace.show(f"open {address}")
    return address


def page_words(workspace: Workspace) -> List[str]:
    """The words of the program that serves the page."""
    if workspace.options["page"]:
        return list(workspace.options["page"])
    script = next((it for it in PAGES if os.path.exists(it)), None)
    if script is None:
        raise Refusal("no page is installed: the setting 'page' says how one is served")
    return [sys.executable, script]


COMMANDS: Dict[str, Callable[..., Any]] = {
    "t1edit.write": write,
    "t1edit.source": source,
    "t1edit.page": page,
    "t1edit.explain": explain,
}


def execute(workspace: Workspace, params: Json) -> Any:
    """Performs a command of the client."""
    name = params["command"]
    if name not in COMMANDS:
        raise Refusal(f"no command {name}")
    try:
        return COMMANDS[name](workspace, *(params.get("arguments") or []))
    except TypeError:
        raise Refusal(f"other arguments are wanted by {name}") from None
