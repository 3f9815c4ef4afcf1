"""Pages on which a font's file is shown in a browser, each served by a program of its own."""

from __future__ import annotations

import subprocess
from typing import Dict, List

ADDRESS = "http://"


class Pages:
    """The programs that serve pages, one for each source, which end with the server."""

    def __init__(self) -> None:
        self._served: Dict[str, "subprocess.Popen[str]"] = {}
        self._addresses: Dict[str, str] = {}

    def address(self, words: List[str], path: str) -> str:
        """The address of the page of a source, which is served from the first call on; nothing where it isn't served."""
        if path not in self._served or self._served[path].poll() is not None:
            nothing = subprocess.DEVNULL
            child = subprocess.Popen([*words, path], stdin=nothing, stdout=subprocess.PIPE, stderr=nothing, text=True)
            self._served[path] = child
            assert child.stdout is not None
            said = child.stdout.readline()
            self._addresses[path] = next((it for it in said.split() if it.startswith(ADDRESS)), "")
        return self._addresses[path]

    def close(self) -> None:
        for child in self._served.values():
            child.terminate()
            child.wait()
            if child.stdout is not None:
                child.stdout.close()
        self._served.clear()
