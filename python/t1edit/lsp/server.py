"""The server: messages are handed to the features, and what a text has is told once no message waits."""

from __future__ import annotations

import signal
import sys
from functools import partial
from typing import Any, Callable, Dict, Optional, TextIO

from ..refusals import Error
from . import actions, completion, files, hover, layout, navigation, rename
from .diagnostics import diagnostics
from .document import Document
from .places import END_OF_PRIVATE
from .text import Json
from .wire import Message, Wire
from .workspace import ERROR, Refusal, Workspace

USAGE = """usage: t1edit-lsp [--stdio]

A language server for sources of Type 1 fonts. An editor starts it and speaks with it over standard input and output;
docs/EDITORS.md of the repository says how. Faults and notes are those of the program t1edit: the one that the variable T1EDIT
names, or that of the PATH. Where T1EDIT_LIBRARY names the library for C, faults and sessions are had of it, in this process.
"""
NO_SUCH_METHOD, INVALID_REQUEST, NOT_INITIALIZED, FAILED, BROKEN = -32601, -32600, -32002, -32803, -32603
INCREMENTAL = 2
# How long a typist rests before the session of a text that differs by more than bodies is opened anew, in seconds.
PAUSE = 0.1

REQUESTS: Dict[str, Callable[[Workspace, Json], Any]] = {
    "textDocument/hover": hover.hover,
    "textDocument/definition": navigation.definition,
    "textDocument/references": navigation.references,
    "textDocument/documentHighlight": navigation.highlight,
    "textDocument/documentSymbol": navigation.symbols,
    "textDocument/foldingRange": navigation.folding,
    "textDocument/completion": completion.completion,
    "textDocument/prepareRename": rename.prepare,
    "textDocument/rename": rename.rename,
    "textDocument/codeAction": actions.actions,
    "textDocument/inlayHint": layout.inlay_hints,
    "textDocument/semanticTokens/range": layout.semantic_tokens,
    "textDocument/rangeFormatting": layout.format_range,
    "textDocument/formatting": layout.format_all,
    "workspace/symbol": navigation.workspace_symbols,
    "workspace/executeCommand": files.execute,
    "workspace/textDocumentContent": files.content,
}

CAPABILITIES: Json = {
    "textDocumentSync": {"openClose": True, "change": INCREMENTAL, "save": {"includeText": False}},
    "hoverProvider": True,
    "definitionProvider": True,
    "referencesProvider": True,
    "documentHighlightProvider": True,
    "documentSymbolProvider": True,
    "workspaceSymbolProvider": True,
    "foldingRangeProvider": True,
    "completionProvider": {"triggerCharacters": ["/"]},
    "renameProvider": {"prepareProvider": True},
    "codeActionProvider": {"codeActionKinds": ["quickfix"]},
    "inlayHintProvider": True,
    "semanticTokensProvider": {"legend": {"tokenTypes": layout.TOKENS, "tokenModifiers": []}, "range": True},
    "documentRangeFormattingProvider": True,
    "documentFormattingProvider": True,
    "executeCommandProvider": {"commands": list(files.COMMANDS)},
    "workspace": {"textDocumentContent": {"schemes": ["t1edit-source"]}},
}


class Server:
    """Answers the messages of one client."""

    def __init__(self, wire: Wire) -> None:
        self.wire, self.workspace = wire, Workspace(wire)
        self._is_greeted = self._is_shut = False
        self._complained_of = ""
        self._notifications: Dict[str, Callable[[Json], None]] = {
            "textDocument/didOpen": self.open,
            "textDocument/didChange": self.change,
            "textDocument/didClose": self.close,
            "textDocument/didSave": partial(files.save, self.workspace),
            "workspace/didChangeConfiguration": self.configure,
        }

    def serve(self) -> int:
        """Answers all messages up to 'exit', and gives the status to end with."""
        try:
            for message in self.wire.messages():
                if message.get("method") == "exit":
                    return 0 if self._is_shut else 1
                self.take(message)
            return 1
        finally:
            self._close_all()

    def take(self, message: Message) -> None:
        """Answers a request, or follows a notification. Answers to what the server has asked say nothing."""
        method, params = message.get("method"), message.get("params") or {}
        if not isinstance(method, str):
            return
        if "id" in message:
            self.wire.send({"id": message["id"], **self.answer(method, params)})
        elif self._is_greeted and not self._is_shut:
            call = self._notifications.get(method)
            if call is not None:
                self.guarded(method, partial(call, params))

    def answer(self, method: str, params: Json) -> Json:
        """The result of a request, or its error."""
        try:
            if method == "initialize":
                return {"result": self.initialize(params)}
            if not self._is_greeted or self._is_shut:
                return failure(INVALID_REQUEST if self._is_shut else NOT_INITIALIZED, f"{method} isn't answered now")
            if method == "shutdown":
                self._is_shut = True
                return {"result": None}
            if method not in REQUESTS:
                return failure(NO_SUCH_METHOD, f"no method {method}")
            return {"result": REQUESTS[method](self.workspace, params)}
        except (Error, OSError, Refusal) as error:
            return failure(FAILED, str(error))
        except Exception as error:  # (a mistake of ours: the editor is told, and the server lives on)
            log(f"{method}: {error!r}")
            return failure(BROKEN, repr(error))

    def initialize(self, params: Json) -> Json:
        self.workspace.greet(params)
        self._is_greeted = True
        return {"serverInfo": {"name": "t1edit-lsp"}, "capabilities": {"positionEncoding": self.workspace.unit, **CAPABILITIES}}

    def configure(self, params: Json) -> None:
        settings = params.get("settings")
        self.workspace.configure(settings.get("t1edit", settings) if isinstance(settings, dict) else None)

    def open(self, params: Json) -> None:
        it = params["textDocument"]
        if files.is_font(it["uri"]) and END_OF_PRIVATE not in it["text"]:
            self.workspace.show("a font's file is no source: the command t1edit.source shows the source of it")
            return
        document = Document(it["uri"], it["version"], it["text"], self.workspace.unit)
        self.workspace.documents[document.uri] = document
        self.judge(document, 0)

    def change(self, params: Json) -> None:
        document = self.workspace.documents.get(params["textDocument"]["uri"])
        if document is not None:
            self._drop(document, "hold", "notes")
            document.change(params["contentChanges"], params["textDocument"]["version"])
            # (of changes that have come together, what the last one leaves is judged)
            self.later("judge", document, 0, partial(self.judge, document))

    def close(self, params: Json) -> None:
        document = self.workspace.documents.pop(params["textDocument"]["uri"], None)
        if document is not None:
            document.close()
            self._drop(document, "judge", "hold", "notes")
            self.wire.notify("textDocument/publishDiagnostics", {"uri": document.uri, "diagnostics": []})

    def judge(self, document: Document, pause: float = PAUSE) -> None:
        """Tells the faults of a text; its session is opened and its notes are looked for after a while."""
        document.judge()
        self._complained_of = ""
        self.publish(document)
        self.later("hold", document, pause, partial(self.hold, document))
        self.later("notes", document, self.workspace.options["notesAfter"], partial(self.note, document))

    def hold(self, document: Document) -> None:
        if document.wants_to_be_held:
            document.hold()
        elif document.held is None:
            document.hold_stubbed()

    def note(self, document: Document) -> None:
        document.look_for_notes()
        self.publish(document)

    def publish(self, document: Document) -> None:
        told = {"uri": document.uri, "version": document.version, "diagnostics": diagnostics(document)}
        self.wire.notify("textDocument/publishDiagnostics", told)

    def later(self, name: str, document: Document, seconds: float, call: Callable[[], None]) -> None:
        """Does something of a document after a while."""
        self.wire.later(f"{name} {document.uri}", seconds, lambda: self.guarded(name, call))

    def _drop(self, document: Document, *names: str) -> None:
        """Does no longer what was to be done of a document."""
        for name in names:
            self.wire.drop(f"{name} {document.uri}")

    def guarded(self, name: str, call: Callable[[], None]) -> None:
        """Does what nobody waits for. The user is told where the program can't be run; the server lives on."""
        try:
            call()
        except (Error, OSError, Refusal) as error:
            self._complain(name, str(error))
        except Exception as error:  # (a mistake of ours)
            log(f"{name}: {error!r}")

    def _complain(self, name: str, why: str) -> None:
        """Shows what is wrong, once for as long as it is the same."""
        if why != self._complained_of:
            self._complained_of = why
            log(f"{name}: {why}")
            self.workspace.show(f"t1edit: {why}", ERROR)

    def _close_all(self) -> None:
        for document in self.workspace.documents.values():
            document.close()
        self.workspace.pages.close()


def failure(code: int, message: str) -> Json:
    return {"error": {"code": code, "message": message}}


def log(text: str, target: Optional[TextIO] = None) -> None:
    print(f"t1edit-lsp: {text}", file=target or sys.stderr, flush=True)


def main() -> int:
    """Serves the editor that started this process."""
    words = [it for it in sys.argv[1:] if it != "--stdio"]
    if words:
        print(USAGE, end="", file=sys.stdout if words[0] in ("-h", "--help") else sys.stderr)
        return 0 if words[0] in ("-h", "--help") else 2
    signal.signal(signal.SIGTERM, lambda *_: sys.exit(1))
    try:
        return Server(Wire()).serve()
    except (BrokenPipeError, KeyboardInterrupt):  # (the editor has gone)
        return 1
