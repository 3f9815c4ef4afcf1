#!/usr/bin/env python3
"""Gives a glyph another body, and shows each glyph whose metrics move by that: its width, and the box of what it draws.

usage: client.py SOURCE GLYPH BODY

It is an example of the package python/t1edit, by which Python edits a font:

    with Font("font.t1", kern="font.afm") as font:
        font.kern["A", "V"] = -92
        font.glyphs["A"].body = "10 600 hsbw 300 hlineto closepath endchar"
        pfb = font.pfb()

        with font.batch():
            del font.glyphs["Aacute"]
            del font.glyphs["acute"]

An edit that is refused raises Refused, and has changed nothing. The edits of a batch are judged together at its end; where
they are refused, or where an exception leaves the batch, all of them are dropped.
"""

import os
import sys

# (the package that stands beside this folder; an installed one needs no such line)
sys.path.insert(0, os.path.join(os.path.dirname(os.path.dirname(os.path.realpath(__file__))), "python"))

from t1edit import Font, NotSent, Refused, Session, Stopped  # noqa: E402, F401


def main(source, name, body):
    with Font(source) as font:
        before = {glyph.name: glyph.metrics for glyph in font.glyphs.values()}
        font.glyphs[name].body = body
        for glyph in font.glyphs.values():
            now = glyph.metrics
            if now != before[glyph.name]:
                print(f"{glyph.name}: width {now.width}, box", *now.box)


if __name__ == "__main__":
    if len(sys.argv) != 4:
        print("usage: client.py SOURCE GLYPH BODY", file=sys.stderr)
        sys.exit(2)
    try:
        main(*sys.argv[1:])
    except (Refused, Stopped, OSError) as error:
        sys.exit(f"client.py: {error}")
