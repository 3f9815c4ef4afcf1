# Independent implementation that computes the tests' expected values; no part of the product.
"""Notes that stand on runs of the glyphs, each as (line, column, name), and all notes."""

from faults import Fault
from metrics import afm, box
from notes import cut, glyphs_front, is_glyphs_line, is_subrs_line, notes, on, opens_glyph, opens_subr, outside, subr_number
from session import judged
from source import is_number_word, lines, read_source, tokens

# Subrs that fonts have for flex and hint replacement.
KEPT = range(5)
# Old interpreters may not take coordinates past it.
WIDEST = 16000


def measured_notes(text):
    """The notes on a source without a fault, in the order of their places."""
    try:
        source = read_source(text)
        font = judged(source)
    except Fault:
        return []
    front = glyphs_front(list(enumerate(lines(text), 1)))
    sides = next(line for line in afm(source, {}, font).splitlines() if line.startswith(b"FontBBox ")).split()[1:]
    found = [on(line, "font-box") for line in front if tells_other_box(tokens(line[1]), sides)]
    return sorted(found + unused(font, outside(cut(front, is_subrs_line)[2], opens_subr))) + wide(font, glyph_lines(list(enumerate(lines(text), 1))))


def unused(font, heads):
    """The first of the Subrs that follow one another and that no glyph's run enters."""
    entered = {number for name in font.glyphs for number in font.own(name).entered}
    used = [number is None or number in entered or number in KEPT for number in (subr_number(line) for _, line in heads)]
    return [on(line, "unused-subr") for line, is_used, before in zip(heads, used, [True, *used]) if before and not is_used]


def glyph_lines(all_lines):
    """The lines of the section of the glyphs, also those past its end, that stand inside no glyph."""
    return outside(cut(all_lines, is_glyphs_line)[2], opens_glyph)


def wide(font, heads):
    """The glyphs with a side of their box past 16,000, on the lines that open them."""
    reached = {name for name in font.glyphs if max(map(abs, box(font.outline(name)))) > WIDEST}
    return [on(line, "wide-glyph") for line in heads if (opens_glyph(line[1]) or b"/")[1:] in reached]


def all_notes(text):
    return sorted(notes(text) + measured_notes(text), key=lambda note: note[:2])


def tells_other_box(these, sides):
    told = these[2:6]
    return these[:1] == [b"/FontBBox"] and len(told) == 4 and all(map(is_number_word, told)) and told not in ([b"0"] * 4, sides)
