"""The boxes that FreeType finds in an assembled font, to compare with those of the AFM file."""

from __future__ import annotations

import io
from typing import Dict, Optional

from t1edit import Box, assemble

try:
    import freetype
except ImportError:
    freetype = None

# The steps of a pixel in which FreeType has coordinates; a pixel is a unit here.
STEPS = 64
# What FreeType wants, and some fonts lack.
MATRIX = b"/FontMatrix [0.001 0 0 0.001 0 0] readonly def\n"


class NotCompared(Exception):
    """FreeType isn't there, or can't read the font."""


def boxes(source: bytes) -> Dict[str, Optional[Box]]:
    """The box of each glyph in character space units, rounded outward, or None where FreeType can't load it. A font
    without a FontMatrix gets the usual one. Raises NotCompared."""
    if freetype is None:
        raise NotCompared("FreeType's module for Python isn't installed")
    if b"/FontMatrix" not in source:
        source = source.replace(b"currentfile eexec", MATRIX + b"currentfile eexec", 1)
    try:
        face = freetype.Face(io.BytesIO(assemble(source)))
    except freetype.FT_Exception as error:
        raise NotCompared(f"FreeType can't read the font: {error}") from None
    face.set_pixel_sizes(face.units_per_EM, face.units_per_EM)
    return {face.get_glyph_name(at).decode("latin-1"): box(face, at) for at in range(face.num_glyphs)}


def box(face: "freetype.Face", at: int) -> Optional[Box]:
    try:
        face.load_glyph(at, freetype.FT_LOAD_NO_HINTING)
    except freetype.FT_Exception:
        return None
    found = face.glyph.outline.get_bbox()
    return Box(found.xMin // STEPS, found.yMin // STEPS, -(-found.xMax // STEPS), -(-found.yMax // STEPS))
