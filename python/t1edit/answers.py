"""A session's answers, taken out of the bytes that it writes."""

from __future__ import annotations

from typing import NamedTuple, Optional


# What a session writes where an edit is taken.
OK = b"ok\n"


class Answer(NamedTuple):
    """A whole answer: its line, as 'ok' or 'refused E4', and for a print or a show its bytes."""

    line: str
    data: Optional[bytes] = None


class NoAnswer(Exception):
    """A line that no session answers."""


class Answers:
    """Is fed with bytes as they come, and gives each answer once it is whole."""

    def __init__(self) -> None:
        self._bytes = bytearray()
        # the count of bytes of the data that are under way
        self._length: Optional[int] = None

    @property
    def is_empty(self) -> bool:
        """Whether no piece of an answer is there."""
        return self._length is None and not self._bytes

    def feed(self, piece: bytes) -> None:
        self._bytes += piece

    def take(self) -> Optional[Answer]:
        """The next answer, or None where it isn't whole yet."""
        if self._length is None:
            end = self._bytes.find(b"\n")
            if end < 0:
                return None
            line = self._cut(end).decode("latin-1")
            head, _, rest = line.partition(" ")
            if line == "ok" or (head == "refused" and rest):
                return Answer(line)
            if head != "data" or not (rest.isascii() and rest.isdigit()):
                raise NoAnswer(line)
            self._length = int(rest)
        if len(self._bytes) <= self._length:
            return None
        data = self._cut(self._length)
        self._length = None
        return Answer("data", data)

    def _cut(self, length: int) -> bytes:
        """Takes so many bytes away, and the line end after them."""
        if self._bytes[length] != ord("\n"):
            raise NoAnswer("bytes without a line end after them")
        found = bytes(self._bytes[:length])
        del self._bytes[: length + 1]
        return found
