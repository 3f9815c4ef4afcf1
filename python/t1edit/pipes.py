"""A program with which bytes are exchanged, in which neither side waits for the other for ever."""

from __future__ import annotations

import os
import select
import signal
import subprocess
from typing import List, Optional, Sequence, Tuple

# As many bytes as are written or read at once; a pipe of Linux holds so many.
PIECE = 65536
# How long a program may take to end once it has closed its output, in seconds.
PATIENCE = 10

Ready = List[Tuple[int, int]]


class Pipes:
    """A program that runs, with pipes at its standard input, output and error.

    It is put in a process group of its own, so that an interrupt typed at the terminal doesn't end it.
    """

    def __init__(self, words: Sequence[str]) -> None:
        pipe = subprocess.PIPE
        self._child = subprocess.Popen(words, bufsize=0, stdin=pipe, stdout=pipe, stderr=pipe, start_new_session=True)
        child = self._child
        assert child.stdin and child.stdout and child.stderr
        self._input, self._output, self._errors = child.stdin, child.stdout, child.stderr
        for end in (self._input, self._output, self._errors):
            os.set_blocking(end.fileno(), False)
        # whether this process started the program, and isn't a fork of the one that did
        self.is_ours = True
        self._unwritten = bytearray()
        self._said = bytearray()
        # what there may be to read, and to write where some bytes wait
        self._to_read, self._to_write = select.poll(), select.poll()
        for end, events in ((self._output, select.POLLIN), (self._errors, select.POLLIN)):
            self._to_read.register(end, events)
            self._to_write.register(end, events)
        self._to_write.register(self._input, select.POLLOUT)

    @property
    def pid(self) -> int:
        return self._child.pid

    @property
    def has_unwritten(self) -> bool:
        """Whether some bytes still wait for the program to read."""
        return bool(self._unwritten)

    def push(self, line: bytes, body: Optional[bytes]) -> bytes:
        """Has a command written, as much as goes into the pipe now, the rest by move, which has its answer too."""
        data = line + b"\n" if body is None else b"%s\n%s\n.\n" % (line, body)
        if self._unwritten:
            self._unwritten += data
            return b""
        try:
            written = os.write(self._input.fileno(), data)
        except BlockingIOError:
            written = 0
        except BrokenPipeError:  # (it has ended; what it gave before can still be read)
            return b""
        if written < len(data):
            self._unwritten += data[written:]
        return b""

    def wait(self) -> Ready:
        """Waits until something can be written, where something is to be, or read."""
        return (self._to_write if self._unwritten else self._to_read).poll()

    def move(self, ready: Ready) -> Optional[bytes]:
        """Writes and reads what can be; what the program gave, or None where it has closed its output."""
        given: Optional[bytes] = b""
        for end, _ in ready:
            if end == self._output.fileno():
                given = read(end)
            elif end == self._errors.fileno():
                piece = read(end)
                self._said += piece or b""
                if piece is None:
                    self._to_read.unregister(end)
                    self._to_write.unregister(end)
            else:
                self._write()
        return given

    def close_input(self) -> None:
        """Says that nothing is written any more, which ends a session."""
        self._unwritten.clear()
        self._input.close()
        self._child.stdin = None

    def kill(self) -> None:
        """Kills the program where it runs, and what it has started."""
        if self.is_ours and self._child.poll() is None:
            os.killpg(self._child.pid, signal.SIGKILL)

    def end(self) -> Tuple[int, str]:
        """Waits until the program has ended: its status, and what it has said on standard error."""
        self._unwritten.clear()
        if self._output.closed:
            return self._child.returncode, self._said.decode("latin-1")
        if not self.is_ours:
            for end in (self._input, self._output, self._errors):
                end.close()
            return 0, ""
        try:
            _, said = self._child.communicate(timeout=PATIENCE)
        except subprocess.TimeoutExpired:
            self.kill()
            _, said = self._child.communicate()
        self._said += said
        return self._child.returncode, self._said.decode("latin-1")

    def _write(self) -> None:
        try:
            written = os.write(self._input.fileno(), self._unwritten[:PIECE])
        except BlockingIOError:
            return
        except BrokenPipeError:
            self._unwritten.clear()
            return
        del self._unwritten[:written]


def read(end: int) -> Optional[bytes]:
    """What there is to read now, or None at the end."""
    try:
        return os.read(end, PIECE) or None
    except BlockingIOError:
        return b""
