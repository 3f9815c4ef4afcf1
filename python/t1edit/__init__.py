"""Type 1 fonts that are edited, assembled and measured by the program t1edit.

    from t1edit import Font, Refused, assemble, check, measure

    with Font("font.t1") as font:
        font.glyphs["A"].body = "10 600 hsbw 300 hlineto 700 vlineto closepath endchar"
        font.save("font.pfb")

The program does the work; this package only talks to it. Lengths are in character space units, files are bytes.
"""

from .entries import Glyph, Glyphs, Subr, Subrs
from .fault_list import Fault, faults
from .font import Font
from .metrics import Box, Metrics
from .once import assemble, check, explain, measure
from .outlines import Pen
from .refusals import Error, Missing, NotSent, Refused, Stopped
from .session import Reply, Session
from .tables import Encoding, Kerning
from .uses import Uses

__all__ = [
    "Box",
    "Encoding",
    "Error",
    "Fault",
    "Font",
    "Glyph",
    "Glyphs",
    "Kerning",
    "Metrics",
    "Missing",
    "NotSent",
    "Pen",
    "Refused",
    "Reply",
    "Session",
    "Stopped",
    "Subr",
    "Subrs",
    "Uses",
    "assemble",
    "check",
    "explain",
    "faults",
    "measure",
]
