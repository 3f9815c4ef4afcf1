#!/usr/bin/env python3
"""Serves a page on which a font is edited: at each key stroke the outline is drawn anew.

usage: live.py [--port N] [--kern FILE] SOURCE

The page has all glyphs, one of them large with its body in a text field, and a line of text that is set with the kerning. What
is typed goes to a session of t1edit; what a session refuses is said, with the word that has the fault, and the last good
outline stays. 'Save' writes SOURCE in its printed form, and the kerning file. What a text editor writes to SOURCE meanwhile
is brought in beside the edits that aren't saved; where both changed the same glyph, the page asks. The page is served to this
machine alone, until Ctrl-C is typed or the process is told to end.
"""

import argparse
import contextlib
import signal
import sys

from pages.desk import Desk
from pages.server import Server
from t1edit import Error


def stop(*_):
    """Ends the server as Ctrl-C does, so that what it made for itself is removed."""
    raise KeyboardInterrupt


def main():
    parser = argparse.ArgumentParser(usage=__doc__.split("usage: ")[1].split("\n\n")[0])
    parser.add_argument("--port", type=int, default=0)
    parser.add_argument("--kern")
    parser.add_argument("source")
    given = parser.parse_args()
    signal.signal(signal.SIGTERM, stop)
    with contextlib.closing(Desk(given.source, given.kern)) as desk, Server(desk, given.port) as server:
        print(f"open {server.address} in a browser; Ctrl-C ends it", flush=True)
        with contextlib.suppress(KeyboardInterrupt):
            server.serve_forever()


try:
    main()
except (Error, OSError) as error:
    sys.exit(f"live.py: {error}")
