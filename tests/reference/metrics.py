# Independent implementation that computes the tests' expected values; no part of the product.
"""Boxes, the AFM and the usage table."""

import functools
import math
from fractions import Fraction

from charstrings import STANDARD

PIECES = 64
ZERO = (0, 0, 0, 0)


WEIGHTS = [
    ((PIECES - step) ** 3, 3 * (PIECES - step) ** 2 * step, 3 * (PIECES - step) * step**2, step**3)
    for step in range(PIECES + 1)
]


@functools.lru_cache(maxsize=100000)
def reach(values):
    """The least and the greatest coordinate, times PIECES ** 3, of both ends of a line or of the 65 points of a curve."""
    scale = math.lcm(*(value.denominator for value in values))
    values = [value.numerator * (scale // value.denominator) for value in values]
    if len(values) == 2:
        values = [value * PIECES**3 for value in values]
    else:
        values = [sum(weight * value for weight, value in zip(weights, values)) for weights in WEIGHTS]
    return Fraction(min(values), scale), Fraction(max(values), scale)


def box(segments):
    if not segments:
        return ZERO
    found = [[reach(tuple(point[axis] for point in segment)) for segment in segments] for axis in (0, 1)]
    low = [math.floor(min(least for least, _ in reached) / PIECES**3) for reached in found]
    high = [math.ceil(max(most for _, most in reached) / PIECES**3) for reached in found]
    return (*low, *high)


def joined_box(boxes):
    """The box round the boxes of glyphs that draw."""
    if not boxes:
        return ZERO
    sides = list(zip(*boxes))
    return (min(sides[0]), min(sides[1]), max(sides[2]), max(sides[3]))


def nearest(value):
    """Halves upward."""
    return math.floor(value + Fraction(1, 2))


def names(source):
    """The name of each code that has one, by code."""
    array = source.encoding()
    found = STANDARD if array is None else dict(slot for _, slot in sorted(array.slots.items()))
    return dict(sorted(found.items()))


def codes(source):
    """Each name's lowest code."""
    found = {name: code for code, name in reversed(names(source).items())}
    found.pop(b".notdef", None)
    return found


def numbers(values):
    return b" ".join(b"%d" % it for it in values)


HEIGHTS = ((b"CapHeight", b"H", 3), (b"XHeight", b"x", 3), (b"Ascender", b"d", 3), (b"Descender", b"p", 1))


def header_lines(source, keys):
    found = []
    for key in keys:
        value = source.header(key)
        if value is not None:
            found.append(key[:1].upper().encode() + key[1:].encode() + b" " + value)
    return found


def afm(source, pairs, font):
    outlines = {name: font.outline(name) for name in font.glyphs}
    boxes = {name: box(outline) for name, outline in outlines.items()}
    found = [b"StartFontMetrics 4.1"]
    found += header_lines(source, ("FontName", "FullName", "FamilyName", "Weight", "ItalicAngle", "isFixedPitch"))
    found.append(b"FontBBox " + numbers(joined_box([boxes[name] for name in boxes if outlines[name]])))
    found += header_lines(source, ("UnderlinePosition", "UnderlineThickness", "version", "Notice"))
    scheme = b"AdobeStandardEncoding" if source.encoding() is None else b"FontSpecific"
    found.append(b"EncodingScheme " + scheme)
    for key, name, side in HEIGHTS:
        if name in boxes:
            found.append(key + b" %d" % boxes[name][side])
    found += char_lines(codes(source), boxes, font)
    found += kern_lines(pairs, boxes)
    found += composite_lines(font)
    found.append(b"EndFontMetrics")
    return b"".join(line + b"\n" for line in found)


def char_lines(code_of, boxes, font):
    coded = sorted((name for name in boxes if name in code_of), key=code_of.get)
    found = [b"StartCharMetrics %d" % len(boxes)]
    for name in coded + [name for name in boxes if name not in code_of]:
        x, y = (nearest(it) for it in font.own(name).width)
        width = b"W %d %d" % (x, y) if y else b"WX %d" % x
        found.append(b"C %d ; %s ; N %s ; B %s ;" % (code_of.get(name, -1), width, name, numbers(boxes[name])))
    return found + [b"EndCharMetrics"]


def kern_lines(pairs, boxes):
    found = [b"KPX %s %s %d" % (*key, pairs[key]) for key in sorted(pairs) if key[0] in boxes and key[1] in boxes]
    if not found:
        return []
    return [b"StartKernData", b"StartKernPairs %d" % len(found), *found, b"EndKernPairs", b"EndKernData"]


def composite_lines(font):
    found = []
    for name in font.glyphs:
        parts = font.own(name).composite
        if parts:
            move = numbers(nearest(it) for it in font.offset(name))
            found.append(b"CC %s 2 ; PCC %s 0 0 ; PCC %s %s ;" % (name, parts.base, parts.accent, move))
    return [b"StartComposites %d" % len(found), *found, b"EndComposites"] if found else []


def uses(font):
    found = b""
    for name in font.glyphs:
        run = font.own(name)
        found += b"U " + name + b" ;" + b"".join(b" S %d ;" % number for number in sorted(run.entered))
        if run.composite:
            found += b" P " + run.composite.base + b" ; P " + run.composite.accent + b" ;"
        found += b"\n"
    return found
