"""A file that other programs write too."""

from __future__ import annotations

import os
import threading
from typing import Callable, Optional, Tuple

# When a file was last written, its length, and which file it is.
Stamp = Optional[Tuple[int, int, int]]


class Watched:
    """A file that is looked at again and again. Each call may come from another thread."""

    def __init__(self, path: str) -> None:
        self.path = path
        self._lock = threading.Lock()
        self._taken = self._judged = self._seen = stamp(path)

    def look(self, take: Callable[[bytes], bool]) -> None:
        """Gives what another program has written, once two looks have seen the same, to a call, which says whether it could
        take it."""
        with self._lock:
            before, self._seen = self._seen, stamp(self.path)
            if self._seen in (None, self._judged) or self._seen != before:
                return
            try:
                with open(self.path, "rb") as file:
                    data = file.read()
            except OSError:  # (it is looked at again)
                return
            self._judged = self._seen
            if take(data):
                self._taken = self._judged

    def settle(self, call: Callable[[], bool]) -> None:
        """Has a call decide on what was given last, which says whether it is taken now."""
        with self._lock:
            if call():
                self._taken = self._judged

    def write(self, call: Callable[[], object]) -> bool:
        """Has the file written by a call, unless it holds what couldn't be taken, or hasn't been yet; whether it was."""
        with self._lock:
            if stamp(self.path) not in (None, self._taken):
                return False
            call()
            self._taken = self._judged = self._seen = stamp(self.path)
            return True


def stamp(path: str) -> Stamp:
    try:
        found = os.stat(path)
    except OSError:  # (an editor may write a new file, and give it the name then)
        return None
    return found.st_mtime_ns, found.st_size, found.st_ino
