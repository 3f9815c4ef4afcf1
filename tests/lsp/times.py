"""Processor time from a change to its diagnostics: by the program and its pipes, and by the library in one process."""

import glob
import os
import re
import resource
import statistics
import subprocess
import time

from room import PROGRAM

from desk import Desk, chance  # noqa: E402

FONT = "/usr/share/fonts/type1/urw-base35/NimbusRoman-Regular.t1"
COPIES = 6
LIBRARY = "T1EDIT_LIBRARY"
STROKE = re.compile(r"\t-?\d+ [-0-9 ]+ (rlineto|rrcurveto|rmoveto)$")


def nimbus():
    return subprocess.run([PROGRAM, "disassemble", FONT], capture_output=True, check=True).stdout.decode("latin-1")


def copied(text):
    """A font with all glyphs several times, under other names."""
    head, mark, rest = text.partition("/CharStrings")
    first = rest.index("\n") + 1
    last = rest.index("\nend\n") + 1
    glyphs = rest[first:last]
    copies = [re.sub(r"(?m)^(/[^ ]+) \{", rf"\1.{n} {{", glyphs) for n in range(1, COPIES)]
    return head + mark + rest[:first] + glyphs + "".join(copies) + rest[last:]


def spent(desk):
    """The processor time of this process, of programs that have ended, and of the session's, in seconds."""
    children = resource.getrusage(resource.RUSAGE_CHILDREN)
    total = time.process_time() + children.ru_utime + children.ru_stime
    held = desk.document.held if desk else None
    if held is not None and held.font.session.pid != os.getpid():
        with open(f"/proc/{held.font.session.pid}/schedstat", encoding="ascii") as file:
            total += int(file.read().split()[0]) / 1e9
    return total


def stroke(desk, row, start, end, text, rows=0):
    """The processor time from a change to its diagnostics, in milliseconds."""
    span = {"start": {"line": row, "character": start}, "end": {"line": row + rows, "character": end}}
    begun = spent(desk)
    desk.change({"range": span, "text": text})
    desk.rest("judge")
    took = (spent(desk) - begun) * 1e3
    desk.diagnostics()
    return took


def opened(text):
    """A desk with a text, and the processor time of its faults, and with that of its session, in milliseconds."""
    begun = spent(None)
    desk = Desk.__new__(Desk)
    desk.begin(text)
    told = spent(desk)
    desk.rest("hold")
    return desk, (told - begun) * 1e3, (spent(desk) - begun) * 1e3


def strokes(text, count):
    """The medians of all kinds of strokes."""
    desk, told, held = opened(text)
    lines, pick = desk.document.lines, chance(7)
    first = next(row for row, it in enumerate(lines) if "/CharStrings" in it)
    rows = [row for row, it in enumerate(lines) if row > first and STROKE.match(it)]
    found = {"opened": told, "opened and held": held, "a digit": [], "a typo": [], "the typo taken back": [], "a line": []}
    for _ in range(count):
        row = pick.choice(rows)
        space, end = lines[row].index(" "), len(lines[row]) - 2
        found["a digit"] += [stroke(desk, row, space, space, "1"), stroke(desk, row, space, space + 1, "")]
        found["a typo"].append(stroke(desk, row, end, end, "x"))
        found["the typo taken back"].append(stroke(desk, row, end, end + 1, ""))
        found["a line"].append(stroke(desk, row, 0, 0, "\t0 0 rlineto\n"))
        stroke(desk, row, 0, 0, "", 1)
    assert desk.document.is_held and not desk.document.faults
    desk.close()
    return {name: statistics.median(it) if isinstance(it, list) else it for name, it in found.items()}


def main(count):
    if not glob.glob(FONT):
        print("skipped: times: its font isn't installed (package fonts-urw-base35)")
        return 0
    library = os.environ.pop(LIBRARY, None)
    text = nimbus()
    for name, source in (("NimbusRoman-Regular", text), (f"{COPIES} copies of each glyph", copied(text))):
        print(f"{name}: {source.count(chr(10)):,} lines")
        for way in ("program", "library"):
            if way == "library" and not library:
                continue
            if way == "library":
                os.environ[LIBRARY] = library
            found = strokes(source, count)
            os.environ.pop(LIBRARY, None)
            print(f"  by the {way}: " + "; ".join(f"{what} {took:.2f} ms" for what, took in found.items()), flush=True)
    return 0
