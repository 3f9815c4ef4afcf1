"""What the tests of the package share: the program, fonts, and programs that stand in the program's place."""

import os
import signal
import sys
import tempfile
import unittest

TOP = os.path.dirname(os.path.dirname(os.path.dirname(os.path.abspath(__file__))))
PACKAGE = os.path.join(TOP, "python")
sys.path[:0] = [PACKAGE]

PROGRAM = os.path.abspath(os.environ.get("T1EDIT") or os.path.join(TOP, "crates/t1edit/out/t1edit"))
DEMO = os.path.join(TOP, "fonts", "demo.t1")
SANS = os.path.join(TOP, "fonts", "sans.t1")
SMALL = os.path.join(TOP, "fonts", "small.t1")
SECONDS = 120
BODY = "10 600 hsbw 400 hlineto 700 vlineto closepath endchar"
# As a print has it.
PRINTED = "10 600 hsbw\n400 hlineto\n700 vlineto\nclosepath\nendchar"

os.environ["T1EDIT"] = PROGRAM


def data(path):
    with open(path, "rb") as file:
        return file.read()


def changed(*changes, path=DEMO):
    """The bytes of a font with some texts replaced, each of which it has once."""
    text = data(path).decode("latin-1")
    for old, new in changes:
        assert text.count(old) == 1, old
        text = text.replace(old, new)
    return text.encode("latin-1")


ARRAY = ("/Encoding StandardEncoding def", "/Encoding 256 array\n0 1 255 {1 index exch /.notdef put} for\n"
         "dup 8#101/space put % x\ndup 32 /space put\ndup 65 /A put\nreadonly def")


class OutOfTime(BaseException):
    """A test waits for ever."""


def out_of_time(*_):
    raise OutOfTime


class Room(unittest.TestCase):
    """A test with a folder of its own, and a time in which it must end."""

    def setUp(self):
        signal.signal(signal.SIGALRM, out_of_time)
        # (and once more, where what a test leaves open waits for ever too)
        signal.setitimer(signal.ITIMER_REAL, SECONDS, SECONDS)
        self.addCleanup(signal.setitimer, signal.ITIMER_REAL, 0)
        folder = tempfile.TemporaryDirectory(prefix="t1edit-python-")
        self.addCleanup(folder.cleanup)
        self.room = folder.name

    def path(self, name):
        return os.path.join(self.room, name)

    def program(self, name, text):
        """A program of the shell that stands in the program's place."""
        path = self.path(name)
        with open(path, "w", encoding="utf-8") as file:
            file.write(f"#!/bin/sh\n{text}\n")
        os.chmod(path, 0o755)
        return path

    def listening(self):
        """A program that keeps what is written to its sessions, and the path of what it keeps."""
        kept = self.path("written")
        with open(kept, "wb"):
            pass
        words = f'[ "$1" = session ] || exec "{PROGRAM}" "$@"\ntee -a "{kept}" | "{PROGRAM}" "$@"'
        return self.program("listening", words), kept

    def refused(self, kind, call, *words, **more):
        """The exception of a call that must be refused."""
        with self.assertRaises(kind) as caught:
            call(*words, **more)
        return caught.exception
