"""A session by the library for C, in this process, in the place of the program and its pipes."""

from __future__ import annotations

import ctypes
import functools
import os
from typing import Any, List, Optional, Tuple

from .answers import OK
from .refusals import Stopped

# The shared object is named by this variable.
NAMED_BY = "T1EDIT_LIBRARY"
VERSION = 1
DONE, REFUSED, MEMORY, UNTOLD, MISUSED = range(5)
ROOM = 65536
# The statuses of the program for a font with a fault, and where memory ran out.
FAULT, WANT = 1, 4


class Handle(ctypes.Structure):
    """A session of the library; a null pointer is none."""

    _fields_ = [("at", ctypes.c_void_p)]


def named(program: Optional[str] = None) -> Optional[str]:
    """The shared object that stands in the place of the program, or None, as where a program is named."""
    return None if program else os.environ.get(NAMED_BY) or None


@functools.lru_cache(maxsize=None)
def loaded(path: str) -> ctypes.CDLL:
    """The library of a shared object. Raises OSError where it can't be loaded or is of another version."""
    library = ctypes.CDLL(path)
    text: List[Any] = [ctypes.c_char_p, ctypes.c_size_t]
    room: List[Any] = [*text, ctypes.POINTER(ctypes.c_size_t)]
    handle = ctypes.POINTER(Handle)
    for name, kinds in (("version", []), ("open", [*text, *text, handle, *room]), ("answer", [handle, *room])):
        getattr(library, f"t1edit_{name}").argtypes = kinds
    library.t1edit_perform.argtypes = [handle, *text, *text, *room]
    library.t1edit_faults.argtypes = [*text, *text, *room]
    library.t1edit_close.argtypes = [handle]
    library.t1edit_close.restype = None
    if library.t1edit_version() != VERSION:
        raise OSError(f"{path} isn't version {VERSION} of the library")
    return library


def contents(path: str) -> bytes:
    with open(path, "rb") as file:
        return file.read()


def rows_of_faults(path: str, source: bytes, pairs: bytes) -> List[List[str]]:
    """The fields of each line that the library tells of a source's faults. Raises Stopped where memory runs out."""
    library, length, room = loaded(path), ctypes.c_size_t(), ROOM
    while True:
        buffer = ctypes.create_string_buffer(room)
        status = library.t1edit_faults(source, len(source), pairs, len(pairs), buffer, room, ctypes.byref(length))
        if status == MEMORY:
            raise Stopped("the library ended out of memory", WANT)
        if length.value <= room:
            return [line.split("\t") for line in buffer.raw[: length.value].decode("ascii").split("\n")[:-1]]
        room = length.value


class Calls:
    """A session of the library, with the calls of Pipes, but that a command gives its answer when it is pushed. For one call at
    a time, since ctypes lets other threads run meanwhile.
    """

    has_unwritten = False

    def __init__(self, path: str, source: str, kern: Optional[str]) -> None:
        self._library = loaded(path)
        self._perform = self._library.t1edit_perform
        self._handle, self._length = Handle(), ctypes.c_size_t()
        self._at = ctypes.byref(self._handle), ctypes.byref(self._length)
        self._buffer: Any = ctypes.create_string_buffer(ROOM)
        self._room = ROOM
        self._owner, self.is_ours = os.getpid(), True
        self._status, self._said = 0, ""
        self._open(contents(source), b"" if kern is None else contents(kern))

    @property
    def pid(self) -> int:
        """The number of this process, which the session is part of."""
        return self._owner

    def push(self, line: bytes, body: Optional[bytes]) -> bytes:
        """Performs a command, and gives its answer; nothing where there is no session."""
        return self._performed(line, body or b"") if self._handle.at else b""

    def wait(self) -> List[Tuple[int, int]]:
        return []

    def move(self, ready: List[Tuple[int, int]]) -> Optional[bytes]:
        """Nothing more, and None where there is no session."""
        return b"" if self._handle.at else None

    def close_input(self) -> None:
        self._close()

    def kill(self) -> None:
        self._close()

    def end(self) -> Tuple[int, str]:
        self._close()
        return self._status, self._said

    def _open(self, source: bytes, pairs: bytes) -> None:
        handle, length = self._at
        status = self._library.t1edit_open(source, len(source), pairs, len(pairs), handle, self._buffer, self._room, length)
        if status == REFUSED:
            self._status, self._said = FAULT, f"t1edit: {self._told().decode('latin-1')}\n"
        elif status != DONE:
            self._status, self._said = WANT, "t1edit: out of memory\n"

    def _performed(self, line: bytes, body: bytes) -> bytes:
        """The answer to a command."""
        handle, length = self._at
        status = self._perform(handle, line, len(line), body, len(body), self._buffer, self._room, length)
        if self._length.value == len(OK) and status == DONE:
            answer: bytes = self._buffer[: len(OK)]
            return answer
        while status == UNTOLD or (status == DONE and self._length.value > self._room):
            if self._length.value > self._room:
                self._room = self._length.value
                self._buffer = ctypes.create_string_buffer(self._room)
            status = self._library.t1edit_answer(handle, self._buffer, self._room, length)
        if status == MEMORY:
            return b"refused memory\n"
        assert status == DONE, status
        return self._told()

    def _told(self) -> bytes:
        return ctypes.string_at(self._buffer, min(self._length.value, self._room))

    def _close(self) -> None:
        # (in a fork the session's memory goes with the process)
        if self.is_ours:
            self._library.t1edit_close(ctypes.byref(self._handle))
