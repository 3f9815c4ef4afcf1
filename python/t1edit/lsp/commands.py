"""What each command of a charstring takes and does, for hovers and completion.

This stands in for what the program doesn't explain yet; tests/lsp holds it equal to the table of docs/CHARSTRINGS.md.
"""

from __future__ import annotations

from typing import Dict, NamedTuple


class Command(NamedTuple):
    """What a command takes from the stack, from the lowest value to the top, and what it does."""

    takes: str
    rule: str


STEM = Command("2 values", "nothing more")
STEMS = Command("6 values", "nothing more")

COMMANDS: Dict[str, Command] = {
    "hsbw": Command("sbx wx", "side bearing (sbx, 0), width (wx, 0); the current point is (sbx, 0)"),
    "sbw": Command("sbx sby wx wy", "side bearing and current point (sbx, sby), width (wx, wy)"),
    "rmoveto": Command("dx dy", "the current point moves; nothing is drawn"),
    "hmoveto": Command("dx", "rmoveto dx 0"),
    "vmoveto": Command("dy", "rmoveto 0 dy"),
    "rlineto": Command("dx dy", "a line to the moved current point; no move is needed before"),
    "hlineto": Command("dx", "rlineto dx 0"),
    "vlineto": Command("dy", "rlineto 0 dy"),
    "rrcurveto": Command("dx1 dy1 dx2 dy2 dx3 dy3", "a curve; each point is given by its distance from the one before"),
    "vhcurveto": Command("dy1 dx2 dy2 dx3", "rrcurveto 0 dy1 dx2 dy2 dx3 0"),
    "hvcurveto": Command("dx1 dx2 dy2 dy3", "rrcurveto dx1 0 dx2 dy2 0 dy3"),
    "closepath": Command("", "nothing more: the current point stays where it is"),
    "hstem": STEM,
    "vstem": STEM,
    "hstem3": STEMS,
    "vstem3": STEMS,
    "dotsection": Command("", "nothing more"),
    "setcurrentpoint": Command("x y", "the current point is (x, y); a flex stays as it is"),
    "div": Command("a b", "the quotient replaces both"),
    "callsubr": Command("n", "F32 where n is negative or there is no Subr n; F33 where ten Subrs are active; else Subr n runs"),
    "return": Command(
        "", "F34 in the glyph's own body; else the caller goes on. The end of a Subr's body does the same and is no step"
    ),
    "callothersubr": Command("arguments, their count, number", "see below"),
    "pop": Command("", "F43 where there is no result; F31 where the stack is full; else the first result is pushed"),
    "endchar": Command("", "the run ends; later words aren't run"),
    "seac": Command("asb adx ady bchar achar", "the run ends as a composite, see below"),
}

# The two rules that refer to a section of that page.
OTHERSUBRS = "0 with height x y ends a flex, 1 starts one, 2 records its point, 3 replaces hints, 12 and 13 are counter hints"
PARTS = "the glyph is a composite: the base, and the accent moved by (sbx + adx - asb, ady), by their codes in StandardEncoding"


def usage(name: str) -> str:
    """A command with what it takes: 'dx dy rlineto'."""
    return f"{COMMANDS[name].takes} {name}".strip()


def rule(name: str) -> str:
    """What a command does, in a sentence that stands by itself."""
    return {"callothersubr": OTHERSUBRS, "seac": PARTS}.get(name, COMMANDS[name].rule)
