#!/usr/bin/env python3
"""Changes one glyph in a loop, by a session, and shows the metrics that move.

usage: nudge.py SOURCE GLYPH BODY..

Each BODY is given to the glyph in turn. What is refused is reported, and changes nothing; after the others, the lines of
the AFM file that are new are shown.
"""

import sys

from client import Refused, Session, Stopped


def metrics(font):
    """The lines of the AFM file of the font as it stands."""
    return font.print("afm").decode("latin-1").splitlines()


def main(source, glyph, *bodies):
    with Session(source) as font:
        before = metrics(font)
        for body in bodies:
            print(f"{glyph}: {body}")
            try:
                font.edit("replace", "glyph", glyph, body=body)
            except Refused as refused:
                print(f"    refused {refused}")
                continue
            now = metrics(font)
            for line in now:
                if line not in before:
                    print(f"    {line}")
            before = now


if len(sys.argv) < 4:
    print("usage: nudge.py SOURCE GLYPH BODY..", file=sys.stderr)
    sys.exit(2)
try:
    main(*sys.argv[1:])
except (Refused, Stopped) as error:
    sys.exit(f"nudge.py: {error}")
