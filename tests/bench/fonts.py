# Measuring programs from outside, for the tests; no part of the product.
"""Fonts whose times are taken, the same in every run."""

import collections
import os
import subprocess
import sys

TESTS = os.path.join(os.path.dirname(os.path.abspath(__file__)), "..")
URW = "/usr/share/fonts/type1/urw-base35"

HEAD = """%%!PS-AdobeFont-1.0: Large 001.000
/FontInfo 5 dict dup begin
/version (001.000) readonly def
/FullName (Large Roman) readonly def
/Weight (Medium) readonly def
/ItalicAngle 0 def
/isFixedPitch false def
end readonly def
/FontName /Large def
/PaintType 0 def
/FontType 1 def
/FontMatrix [0.001 0 0 0.001 0 0] readonly def
/Encoding StandardEncoding def
/FontBBox{0 0 1000 1000}readonly def
currentdict end
currentfile eexec
dup /Private 8 dict dup begin
/RD {string currentfile exch readstring pop} executeonly def
/ND {noaccess def} executeonly def
/NP {noaccess put} executeonly def
/BlueValues [] def
/MinFeature {16 16} def
/password 5839 def
/Subrs 1 array
dup 0 {
	return
	} NP
ND
2 index /CharStrings %d dict dup begin
/.notdef {
	0 250 hsbw
	endchar
	} ND
"""
FOOT = """end
end
readonly put
noaccess put
dup /FontName get exch definefont pop
mark currentfile closefile
cleartomark
"""


class Numbers:
    """Numbers that look like those of outlines, the same in each run."""

    def __init__(self):
        self.state = 1

    def next(self, low, high):
        self.state = (self.state * 1103515245 + 12345) % 2**31
        return low + (self.state >> 8) % (high - low + 1)


def whole(number):
    return f"{number}"


def over(*denominators):
    """How numbers are written as `div` has them, each over one of these denominators; over 1 it stands alone."""

    def written(number):
        denominator = denominators[abs(number) % len(denominators)]
        return whole(number) if denominator == 1 else f"{number} {denominator} div"

    return written


# A kind of large fonts: glyphs of so many words, how a coordinate is written, and whether a curve goes on in one direction
# along each axis, as those of fonts whose extremes have points.
Kind = collections.namedtuple("Kind", "glyphs words written steady")

LONG_BODIES = Kind(2000, 200, whole, False)
SHORT_ENTRIES = Kind(14422, 40, whole, False)
# Kinds whose coordinates are fractions. In the last, whole numbers stand between them, and curves turn between their ends.
FRACTIONS = {
    "fifths": Kind(1000, 600, over(5), True),
    "sevenths": Kind(1000, 600, over(7), True),
    "hundredths": Kind(1000, 600, over(100), True),
    "1,024ths": Kind(1000, 600, over(1024), True),
    "mixed": Kind(1000, 600, over(1, 2, 1, 5, 10, 3, 1, 100, 4, 1, 7), False),
}

SMALL, LARGE = (-107, 107), (-400, 400)
# The commands that draw: their operands' axes and ranges.
SEGMENTS = [
    ("rlineto", "xy", [SMALL, LARGE]),
    ("rrcurveto", "xyxyxy", [SMALL, SMALL, SMALL, SMALL, SMALL, LARGE]),
    ("hlineto", "x", [LARGE]),
    ("hvcurveto", "xxyy", [SMALL, SMALL, SMALL, SMALL]),
    ("vlineto", "y", [SMALL]),
    ("vhcurveto", "yxyx", [SMALL, SMALL, SMALL, SMALL]),
]


def segment(numbers, choice, kind):
    name, axes, ranges = SEGMENTS[choice]
    values = [numbers.next(low, high) for low, high in ranges]
    if kind.steady:
        forth = {axis: values[axes.index(axis)] >= 0 for axis in axes}
        values = [abs(value) if forth[axis] else -abs(value) for axis, value in zip(axes, values)]
    return " ".join([*map(kind.written, values), name])


def body(numbers, kind):
    """The lines of a glyph whose body has so many words: closed outlines of lines and curves."""
    lines = [f"{numbers.next(0, 99)} {numbers.next(400, 999)} hsbw"]
    left = kind.words - 3 - 1
    while left >= 11:
        move = f"{kind.written(numbers.next(-99, 99))} {kind.written(numbers.next(-99, 99))} rmoveto"
        lines.append(move)
        left -= len(move.split())
        for choice in range(numbers.next(3, 6)):
            line = segment(numbers, choice, kind)
            if len(line.split()) > left - 1:
                break
            lines.append(line)
            left -= len(line.split())
        lines.append("closepath")
        left -= 1
    return lines + ["closepath"] * left + ["endchar"]


def glyph(numbers, index, kind=LONG_BODIES):
    text = "".join(f"\t{line}\n" for line in body(numbers, kind))
    return f"/g{index:04} {{\n{text}\t}} ND\n"


def write_font(path, kind, glyphs=None):
    """Writes a font of so many glyphs of a kind, or of as many as it has."""
    numbers, count = Numbers(), glyphs or kind.glyphs
    with open(path, "w", newline="\n") as file:
        file.write(HEAD % (count + 1))
        for index in range(count):
            file.write(glyph(numbers, index, kind))
        file.write(FOOT)


def urw_sources(room):
    """The sources of the URW fonts in a room: by t1disasm, or by tests/reference where it doesn't find a font's end."""
    sys.path.insert(0, os.path.join(TESTS, "reference"))
    from disassemble import disassembled

    paths = []
    for name in sorted(os.listdir(URW)) if os.path.isdir(URW) else []:
        if name.endswith(".t1"):
            path = os.path.join(room, name)
            text = subprocess.run(["t1disasm", os.path.join(URW, name)], capture_output=True).stdout
            if b"mark currentfile closefile" not in text:
                with open(os.path.join(URW, name), "rb") as file:
                    text = disassembled(file.read())
            with open(path, "wb") as file:
                file.write(text)
            paths.append(path)
    return paths
