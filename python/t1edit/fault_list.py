"""Every fault of a source, each where it stands."""

from __future__ import annotations

import json
import subprocess
from dataclasses import dataclass
from typing import Any, Dict, List, Optional, Tuple

from . import library
from .files import File, named
from .program import FAULT, ending, found, titles, unreadable
from .refusals import Stopped


@dataclass(frozen=True)
class Fault:
    """A fault of a source or of its kerning file.

    code        'F38'; explain(code) tells more
    place       'glyph A', 'subr 7', 'line 5', or '' where there is none
    text        what the code means: 'division by zero'
    line        the line, from 1
    column      the column, in bytes, from 1
    word        what stands there, bytes that can't be seen as '\\xa0'; None where no word is at fault
    hint        what more is known: 'rlineto?', 'no Subr 9', '1 value, 2 wanted'; None where nothing is
    chains      of a fault in a Subr how each glyph came there: ('glyph H', 'subr 4', 'subr 9')
    composites  the composites on the glyphs that the fault is the first to name, and so has too: ('Aacute', 'Agrave')
    in_kern     whether it is the kerning file's
    """

    code: str
    place: str
    text: str
    line: int
    column: int
    word: Optional[str] = None
    hint: Optional[str] = None
    chains: Tuple[Tuple[str, ...], ...] = ()
    in_kern: bool = False
    composites: Tuple[str, ...] = ()

    def __str__(self) -> str:
        said = f"{self.line}:{self.column}: {self.code} {self.place}".rstrip() + f": {self.text}"
        return said + ("" if self.word is None else f": {self.word}") + (f" ({self.hint})" if self.hint else "")


def faults(source: File, kern: Optional[File] = None, *, program: Optional[str] = None) -> List[Fault]:
    """All faults of a source, and of a kerning file; both are paths or bytes. None where check passes. They are found by
    the library for C where one is named, as sessions are, or else by a run of the program."""
    with named(source) as path, named(kern) as pairs:
        assert path is not None
        shared = library.named(program)
        if shared:
            return by_library(shared, path, pairs)
        t1edit = found(program)
        words = [t1edit, "faults", "--json", *([] if pairs is None else ["--kern", pairs]), path]
        ran = subprocess.run(words, stdin=subprocess.DEVNULL, capture_output=True)
        if ran.returncode not in (0, FAULT) or ran.stderr:
            error = ending(t1edit, "t1edit", ran.returncode, ran.stderr.decode("latin-1"))
            raise unreadable(error, [path, pairs]) if isinstance(error, Stopped) else error
        meanings = titles(t1edit)
        return [fault_of_object(json.loads(line), meanings, path) for line in ran.stdout.decode().splitlines()]


def by_library(shared: str, source: str, kern: Optional[str]) -> List[Fault]:
    """The same by the library for C. What codes mean is the program's to say, where there is one."""
    given = library.contents(source), b"" if kern is None else library.contents(kern)
    rows = library.rows_of_faults(shared, *given)
    try:
        meanings = titles(found()) if rows else {}
    except FileNotFoundError:
        meanings = {}
    return [fault_of_row(row, meanings) for row in rows]


def fault_of_object(told: Dict[str, Any], meanings: Dict[str, str], source: str) -> Fault:
    """A fault by an object that the program wrote."""
    chains = tuple(tuple(calls) for calls in told["chain"])
    where = told["place"] or "", meanings.get(told["code"], ""), told["line"], told["column"]
    return Fault(told["code"], *where, told["word"] or None, told["hint"], chains, told["file"] != source, tuple(told["composites"]))


def fault_of_row(fields: List[str], meanings: Dict[str, str]) -> Fault:
    """A fault by the fields that the library told."""
    text, line, column, code, place, word, hint, composites, *chains = fields
    where = place, meanings.get(code, ""), int(line), int(column)
    calls = tuple(calls_of(chain) for chain in chains)
    return Fault(code, *where, word or None, hint or None, calls, text == "pairs", tuple(composites.split()))


def calls_of(chain: str) -> Tuple[str, ...]:
    """The calls of a chain, each of which is two words: 'glyph H subr 4' are ('glyph H', 'subr 4')."""
    words = chain.split(" ")
    return tuple(f"{kind} {name}" for kind, name in zip(words[::2], words[1::2]))
