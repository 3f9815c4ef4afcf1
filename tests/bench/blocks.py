# Measuring programs from outside, for the tests; no part of the product.
"""C programs of this folder, built by the system's compiler, and the heap blocks of a program."""

import collections
import os
import shutil
import struct
import subprocess

HERE = os.path.dirname(os.path.abspath(__file__))

# Heap blocks made, blocks grown or shrunk, bytes asked for, and peak memory in bytes.
Counted = collections.namedtuple("Counted", "blocks regrown bytes peak")


def compiled(name, room, *options):
    """A C file of this folder, compiled into a room; None without a compiler (CC, else cc)."""
    compiler, target = os.environ.get("CC", "cc"), os.path.join(room, name)
    if not shutil.which(compiler):
        return None
    words = [compiler, "-O2", *options, "-o", target, os.path.join(HERE, name + ".c")]
    return target if subprocess.run(words).returncode == 0 else None


class Counter:
    """Counts heap blocks of programs, where they use those of the C library."""

    def __init__(self, room):
        self.library = compiled("counter", room, "-shared", "-fPIC", "-fno-builtin")
        self.file = os.path.join(room, "counts")

    def of(self, watch, words, given=os.devnull):
        """What a run of a program on this input counts; None where it can't be counted."""
        if not self.library:
            return None
        with open(self.file, "wb"):
            pass
        watch.run(words, given, LD_PRELOAD=self.library, COUNTER_FILE=self.file)
        with open(self.file, "rb") as file:
            text = file.read()
        if len(text) != 32:
            return None
        blocks, regrown, size, peak = struct.unpack("4l", text)
        return Counted(blocks, regrown, size, peak * 1024)
