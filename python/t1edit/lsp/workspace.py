"""What the server knows of its client: its settings, what it can do, and the texts that it has open."""

from __future__ import annotations

import os
import pathlib
from typing import Any, Dict, Optional
from urllib.parse import unquote, urlsplit

from .document import Document
from .pages import Pages
from .text import UTF_8, UTF_16, UTF_32, Json
from .wire import Wire

ERROR, INFO = 1, 3
# How long a typist rests before notes are looked for, and before the session is opened anew, in seconds.
REST = 0.3
# What the options of initialize, or the settings below 't1edit', may say.
DEFAULTS: Json = {"writeOnSave": [], "pictures": None, "notesAfter": REST, "page": None}
CODE = "Visual Studio Code"


class Refusal(Exception):
    """A request that is answered with an error, whose text the editor shows."""


class Workspace:
    """The documents of a client, by their URIs."""

    def __init__(self, wire: Wire) -> None:
        self.wire = wire
        self.documents: Dict[str, Document] = {}
        self.unit = UTF_16
        self.client = ""
        self.capabilities: Json = {}
        self.options = dict(DEFAULTS)
        self.pages = Pages()
        self._asked = 0

    def greet(self, params: Json) -> None:
        """Takes what the client says of itself."""
        self.client = (params.get("clientInfo") or {}).get("name", "")
        self.capabilities = params.get("capabilities") or {}
        self.configure(params.get("initializationOptions"))
        offered = self.can("general", "positionEncodings") or [UTF_16]
        self.unit = next((it for it in (UTF_32, UTF_8) if it in offered), UTF_16)

    def configure(self, options: Any) -> None:
        if isinstance(options, dict):
            self.options.update({name: it for name, it in options.items() if name in DEFAULTS})

    def can(self, *names: str) -> Any:
        """What the client's capabilities say under these names."""
        found: Any = self.capabilities
        for name in names:
            found = found.get(name) if isinstance(found, dict) else None
        return found

    @property
    def shows_pictures(self) -> bool:
        wanted = self.options["pictures"]
        return bool(self.client.startswith(CODE) if wanted is None else wanted)

    def document(self, params: Json) -> Document:
        """The document that a request names, once its changes are judged, and a session has a font of it where it can."""
        uri = params["textDocument"]["uri"]
        if uri not in self.documents:
            raise Refusal(f"not open: {uri}")
        self.wire.run_now(f"judge {uri}")
        if self.documents[uri].held is None:
            self.wire.run_now(f"hold {uri}")
        return self.documents[uri]

    def ask(self, method: str, params: Any) -> None:
        """Asks the client for something, whose answer isn't waited for."""
        self._asked += 1
        self.wire.send({"id": f"t1edit-{self._asked}", "method": method, "params": params})

    def show(self, message: str, kind: int = INFO) -> None:
        self.wire.notify("window/showMessage", {"type": kind, "message": message})


def path_of(uri: str) -> str:
    """The path of a file by its URI."""
    return unquote(urlsplit(uri).path)


def file_of(uri: str) -> str:
    """The path of a file that is on the disk."""
    if urlsplit(uri).scheme != "file":
        raise Refusal(f"no file: {uri}")
    return path_of(uri)


def kerning_file(uri: str) -> Optional[str]:
    """The URI of the kerning file of a source, NAME.kern beside NAME.t1, where it is there."""
    path = os.path.splitext(path_of(uri))[0] + ".kern"
    return pathlib.Path(path).as_uri() if os.path.exists(path) else None
