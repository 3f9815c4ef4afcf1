"""Runs of the program on one font."""

from __future__ import annotations

from typing import List, Optional

from .files import File, named
from .program import found, run, unreadable
from .refusals import Stopped


def assemble(source: File, *, pfa: bool = False, block: Optional[int] = None, program: Optional[str] = None) -> bytes:
    """The PFB file of a source, or its PFA file.

    source   a path, or the bytes of a source
    block    the greatest length of a segment of the PFB file, in bytes; without it each part is one segment

    Raises Refused at the first fault of a body; assemble runs no glyph, as check does.
    """
    if pfa and block is not None:
        raise ValueError("a PFA file has no segments")
    options = ["--pfa"] if pfa else [] if block is None else ["--block", str(block)]
    return on_font(["assemble", *options], source, None, program)


def measure(source: File, kern: Optional[File] = None, *, program: Optional[str] = None) -> bytes:
    """The AFM file of a source, with the pairs of a kerning file; both are paths or bytes. Lengths in it are whole numbers
    of character space units. Raises Refused at the first fault."""
    return on_font(["measure"], source, kern, program)


def check(source: File, kern: Optional[File] = None, *, program: Optional[str] = None) -> None:
    """Judges a source and a kerning file as measure does. Raises Refused at the first fault."""
    on_font(["check"], source, kern, program)


def explain(code: str, *, program: Optional[str] = None) -> str:
    """What a fault, a rule or a status means, and what to do: of 'F38', 'E4' or '3'."""
    return run(found(program), "explain", "--", code).decode("latin-1")


def on_font(words: List[str], source: File, kern: Optional[File], program: Optional[str]) -> bytes:
    """Runs a command on a font."""
    with named(source) as path, named(kern) as pairs:
        assert path is not None
        try:
            return run(found(program), *words, *([] if pairs is None else ["--kern", pairs]), path)
        except Stopped as stopped:
            raise unreadable(stopped, [path, pairs]) from None
