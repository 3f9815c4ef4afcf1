"""JSON-RPC over two pipes, with timers: a message is given out as soon as it is there, and what is due is done when none comes."""

from __future__ import annotations

import json
import os
import select
import time
from typing import Any, Callable, Dict, Iterator, Optional, Tuple

Message = Dict[str, Any]

PIECE = 1 << 20
END_OF_HEAD = b"\r\n\r\n"
# The error of JSON-RPC for a message that isn't JSON.
PARSE_ERROR = -32700


class Wire:
    """The messages of a client, and those to it."""

    def __init__(self, source: int = 0, target: int = 1) -> None:
        self._source, self._target = source, target
        self._unread = bytearray()
        self._has_ended = False
        self._due: Dict[str, Tuple[float, Callable[[], None]]] = {}

    def later(self, name: str, seconds: float, call: Callable[[], None]) -> None:
        """Does a call once so much time has passed and no message waits. One of the same name that is due is dropped."""
        self._due[name] = time.monotonic() + seconds, call

    def drop(self, name: str) -> None:
        """Does no longer what was due by this name."""
        self._due.pop(name, None)

    def send(self, message: Message) -> None:
        body = json.dumps({"jsonrpc": "2.0", **message}, ensure_ascii=False, separators=(",", ":"))
        # (a lone surrogate, which a client may send as an escape, has no bytes in UTF-8)
        data = body.encode("utf-8", "replace")
        self._write(b"Content-Length: %d\r\n\r\n" % len(data) + data)

    def notify(self, method: str, params: Any) -> None:
        self.send({"method": method, "params": params})

    def messages(self) -> Iterator[Message]:
        """All messages in turn, to the end of the input. What is due is done between them, when none waits."""
        while not self._has_ended:
            message = self._take()
            if message is not None:
                yield message
            elif self._is_readable(self._patience()):
                self._read()
            else:
                self.run_due()

    def run_now(self, name: str) -> None:
        """Does at once what was to be done later by this name, if anything was."""
        if name in self._due:
            self._due.pop(name)[1]()

    def run_due(self) -> None:
        """Does what is due by now."""
        now = time.monotonic()
        for name in [name for name, (when, _) in self._due.items() if when <= now]:
            self.run_now(name)

    def _patience(self) -> Optional[float]:
        """How long nothing is due, in seconds; None where nothing is."""
        return max(0.0, min(when for when, _ in self._due.values()) - time.monotonic()) if self._due else None

    def _is_readable(self, seconds: Optional[float]) -> bool:
        return bool(select.select([self._source], [], [], seconds)[0])

    def _read(self) -> None:
        piece = os.read(self._source, PIECE)
        self._has_ended = not piece
        self._unread += piece

    def _take(self) -> Optional[Message]:
        """The next message, or None where it isn't whole yet. One that isn't JSON is answered with an error."""
        end = self._unread.find(END_OF_HEAD)
        if end < 0:
            return None
        start = end + len(END_OF_HEAD)
        length = length_in(bytes(self._unread[:end]))
        if len(self._unread) < start + length:
            return None
        body = bytes(self._unread[start : start + length])
        del self._unread[: start + length]
        try:
            message = json.loads(body)
            return message if isinstance(message, dict) else {}
        except ValueError:
            self.send({"id": None, "error": {"code": PARSE_ERROR, "message": "no JSON"}})
            return {}

    def _write(self, data: bytes) -> None:
        while data:
            data = data[os.write(self._target, data) :]


def length_in(head: bytes) -> int:
    """The count of bytes of a message, by its header; 0 where that has none."""
    for line in head.split(b"\r\n"):
        name, _, value = line.partition(b":")
        if name.strip().lower() == b"content-length" and value.strip().isdigit():
            return int(value)
    return 0
