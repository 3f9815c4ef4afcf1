"""What the program tells of a text, and the session that holds a font: by the program, or by the library where one is named."""

from __future__ import annotations

import functools
import json
import re
import subprocess
from typing import Dict, List, Mapping, NamedTuple, Optional

from .. import library
from ..entries import Glyph
from ..fault_list import Fault, fault_of_object, fault_of_row
from ..font import Font
from ..metrics import Metrics, metric_lines, metrics_of
from ..once import explain
from ..program import FAULT, ending, found, titles
from ..refusals import Error, Refused
from ..uses import Uses

STANDARD_INPUT = "-"
NOTE = re.compile(r"(?m)^-:(\d+):(\d+): note ([a-z-]+): (.*)$")
# A font of StandardEncoding, which a session shows.
STANDARD = b"""/Encoding StandardEncoding def
currentfile eexec
/CharStrings 1 dict dup begin
/.notdef {0 0 hsbw endchar} ND
end
mark currentfile closefile
"""


class Note(NamedTuple):
    """A note on a source; lines and columns count from 1."""

    line: int
    column: int
    kind: str
    text: str


def faults(source: bytes) -> List[Fault]:
    """All faults of a source, in the order of the program."""
    shared = library.named()
    if shared:
        rows = library.rows_of_faults(shared, source, b"")
        meanings = meanings_of_codes() if rows else {}
        return [fault_of_row(it, meanings) for it in rows]
    written = run(["faults", "--json", STANDARD_INPUT], source)
    meanings = meanings_of_codes() if written else {}
    return [fault_of_object(json.loads(it), meanings, STANDARD_INPUT) for it in written.decode().splitlines()]


def notes(source: bytes) -> List[Note]:
    """All notes on a source."""
    written = run(["notes", STANDARD_INPUT], source).decode("latin-1")
    return [Note(int(line), int(column), kind, text) for line, column, kind, text in NOTE.findall(written)]


def run(words: List[str], source: bytes) -> bytes:
    """What the program writes of a source. Raises Error where it ends otherwise than with or without a fault."""
    program = found()
    ran = subprocess.run([program, *words], input=source, capture_output=True)
    if ran.returncode not in (0, FAULT) or ran.stderr:
        raise ending(program, "t1edit", ran.returncode, ran.stderr.decode("latin-1"))
    return ran.stdout


def meanings_of_codes() -> Dict[str, str]:
    """What each code means; nothing where there is only the library."""
    try:
        return titles(found())
    except FileNotFoundError:
        return {}


@functools.lru_cache(maxsize=None)
def explained(code: str) -> str:
    """What a code means and what to do, or nothing where the program has no such code."""
    try:
        return explain(code)
    except (Error, OSError, ValueError):
        return ""


@functools.lru_cache(maxsize=None)
def standard_names() -> Mapping[int, str]:
    """The names of StandardEncoding by their codes, in which composites have their parts."""
    with Font(STANDARD) as font:
        return dict(font.encoding)


class Held:
    """A font in a session, which bodies are given to."""

    def __init__(self, source: bytes) -> None:
        """Raises Refused where the source has a fault."""
        self.font = Font(source)
        self._uses: Optional[Dict[str, Uses]] = None

    def close(self) -> None:
        self.font.close()

    def takes(self, bodies: Mapping[str, str]) -> bool:
        """Replaces the bodies of entries, by their places, where the font has no fault then. One that is refused stays as it was.
        Raises Error where the session has ended."""
        session = self.font.session
        try:
            if len(bodies) == 1:
                ((place, body),) = bodies.items()
                session.edit("replace", *place.split(" "), body=body)
            else:
                with session.batch():
                    for place, body in bodies.items():
                        session.edit("replace", *place.split(" "), body=body)
        except Refused:
            return False
        self._uses = None
        return True

    def uses(self) -> Dict[str, Uses]:
        """What each glyph uses, read once for each state of the font."""
        if self._uses is None:
            self._uses = {name: it.uses for name, it in self.font.glyphs.items()}
        return self._uses

    def glyph(self, name: str) -> Optional[Glyph]:
        return self.font.glyphs[name] if name in self.uses() else None

    def metrics_of(self, name: str) -> Optional[Metrics]:
        """The metrics of one glyph, for which nothing else is read; None where it isn't there."""
        try:
            return metrics_of(self.font.session.show("metrics", name).decode("latin-1").rstrip("\n"))
        except Refused:
            return None

    def metrics(self) -> Dict[str, Metrics]:
        """The line of each glyph in the AFM file."""
        return {name: metrics_of(line) for name, line in metric_lines(self.font.afm().decode("latin-1")).items()}
