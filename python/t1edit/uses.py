"""What a glyph stands on."""

from __future__ import annotations

from dataclasses import dataclass
from typing import Dict, Tuple


@dataclass(frozen=True)
class Uses:
    """The Subrs that a glyph's own charstring enters, ascending, and the two glyphs of a composite (seac), base and accent."""

    subrs: Tuple[int, ...] = ()
    parts: Tuple[str, ...] = ()


def uses_of(line: str) -> Uses:
    """What a glyph's line of the usage table says, as 'U Aacute ; P A ; P acute ;'."""
    entries = [entry.split(" ") for entry in line[: -len(" ;")].split(" ; ")[1:]]
    subrs = tuple(int(it) for kind, it in entries if kind == "S")
    return Uses(subrs, tuple(it for kind, it in entries if kind == "P"))


def use_lines(table: str) -> Dict[str, str]:
    """Each glyph's line of a usage table by the glyph's name, in the order of the source."""
    return {line.split(" ", 2)[1]: line for line in table.split("\n")[:-1]}
