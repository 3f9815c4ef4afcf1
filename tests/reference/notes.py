# Independent implementation that computes the tests' expected values; no part of the product.
"""Notes: what is no fault and is most likely a mistake, each as (line, column, name)."""

import re

from source import DECIMAL, is_name, is_number_word, lines, slot, token_places, tokens
from faults import Fault

TEXTS = {
    "byte-order-mark": "a byte order mark, at which programs refuse the font",
    "first-line": "the text begins with neither %!PS-AdobeFont nor %!FontType1",
    "encoded-name": "the encoding names a glyph that isn't there",
    "count": "the count is higher than the entries need",
    "plain-entry": "a line that looks like an entry and opens none",
    "no-notdef": "no glyph is called .notdef",
    "no-entry": "a line that belongs to no glyph; a glyph begins with /NAME { on one line",
    "after-end": "a glyph after the end of the glyphs, where no program looks for it",
    "values-left": "a command has more values in front of it than it takes",
    "wide-coordinate": "a command has a value past 16000, which old interpreters may not take",
    "negative-width": "the width is below 0",
    "open-path": "a path isn't closed before a move or the end of the glyph",
    "no-such-glyph": "a pair names a glyph that isn't there",
    "unused-subr": "no glyph's run enters the Subr",
    "font-box": "FontBBox isn't the box around the glyphs",
    "wide-glyph": "the glyph reaches past 16000, which old interpreters may not take",
}
BRACE = re.compile(rb"[{}%]")
# Commands that leave no value on the stack, by how many they take.
TAKEN = {
    0: "endchar closepath dotsection",
    1: "hlineto vlineto hmoveto vmoveto",
    2: "rlineto rmoveto hsbw hstem vstem setcurrentpoint",
    4: "hvcurveto vhcurveto sbw",
    5: "seac",
    6: "rrcurveto hstem3 vstem3",
}
TAKES = {word.encode(): count for count, these in TAKEN.items() for word in these.split()}
DRAWS = set(b"rlineto hlineto vlineto rrcurveto hvcurveto vhcurveto".split())
LEAVES = set(b"rmoveto hmoveto vmoveto endchar".split())
BREAKS = set(b"closepath callsubr callothersubr return { }".split())


def notes(text):
    """All notes, in the order of their places; at one place those on lines come first."""
    all_lines = list(enumerate(lines(text), 1))
    front, later = glyphs_front(all_lines), cut(all_lines, is_glyphs_line)[2]
    found = opening(text) + of_lines(all_lines) + bodies(cut(front, is_subrs_line)[2]) + bodies(later)
    return sorted(found, key=lambda note: note[:2])


def pair_notes(text, pairs):
    """The notes on a kerning file, whose pairs are to be of the source's glyphs; a source without their section has none."""
    section, glyphs, _ = glyph_section(list(enumerate(lines(text), 1)))
    if section is None:
        return []
    names, found = names_of(glyphs), []
    for number, line in enumerate(lines(pairs), 1):
        these = [(start, line[start:end]) for start, end in token_places(line)]
        if len(these) >= 3 and these[0][1] == b"KPX":
            found += [(number, start + 1, "no-such-glyph") for start, name in these[1:3] if name not in names]
    return found


def shown(name, found):
    """What `t1edit notes` writes of a file of this name, with these notes."""
    return "".join(f"{name}:{line}:{column}: note {kind}: {TEXTS[kind]}\n" for line, column, kind in found)


def opening(text):
    if text.startswith((b"%!PS-AdobeFont", b"%!FontType1")):
        return []
    return [(1, 1, "byte-order-mark" if text.startswith(b"\xef\xbb\xbf") else "first-line")]


def is_glyphs_line(line):
    return count_in(line, b"/CharStrings", b"dict")


def is_subrs_line(line):
    return count_in(line, b"/Subrs", b"array")


def glyphs_front(all_lines):
    """The lines before the section of the glyphs."""
    return cut(all_lines, is_glyphs_line)[0]


def glyph_section(all_lines):
    """The line of the glyphs' section, its lines outside glyphs through the one that ends them, and those after that."""
    _, section, later = cut(all_lines, is_glyphs_line)
    glyphs, end, rest = cut(outside(later, opens_glyph), lambda line: tokens(line)[:1] == [b"end"])
    return section, glyphs, rest


def names_of(glyphs):
    opened = [opens_glyph(line) for _, line in glyphs]
    return {token[1:] for token in opened if token and is_name(token[1:])}


def of_lines(all_lines):
    section, glyphs, rest = glyph_section(all_lines)
    if section is None:
        return []
    front, names = glyphs_front(all_lines), names_of(glyphs)
    found = [on(line, "encoded-name") for line in array(front) if is_lost(line[1], names)]
    found += subrs(front)
    if b".notdef" not in names:
        found.append(on(section, "no-notdef"))
    opened = sum(1 for _, line in glyphs if opens_glyph(line))
    found += too_high(section, is_glyphs_line(section[1]), opened)
    found += strays(glyphs)
    return found + [on(line, "after-end") for line in rest if opens_glyph(line[1])]


def cut(numbered, test):
    """The lines before the first that passes the test, it, and those after it."""
    for place, (_, line) in enumerate(numbered):
        if test(line):
            return numbered[:place], numbered[place], numbered[place + 1 :]
    return numbered, None, []


def on(numbered, kind):
    number, line = numbered
    return number, len(line) - len(line.lstrip(b"\0\t\x0c ")) + 1, kind


def count_in(line, key, word):
    """The count between a key and a word, as (column, count)."""
    places = token_places(line)
    for first, count, last in zip(places, places[1:], places[2:]):
        digits = line[slice(*count)]
        if line[slice(*first)] == key and re.fullmatch(rb"[0-9]{1,9}", digits) and line[slice(*last)] == word:
            return count[0] + 1, int(digits)
    return None


def too_high(section, found, need):
    column, count = found
    return [(section[0], column, "count")] if count > need else []


def opens_glyph(line):
    these = tokens(line)
    return these[0] if len(these) >= 2 and these[0][:1] == b"/" and these[1] == b"{" else None


def opens_subr(line):
    these = tokens(line)
    return these[1] if len(these) >= 3 and these[0] == b"dup" and these[2] == b"{" else None


def subr_number(line):
    """The number of the Subr that a line opens."""
    token = opens_subr(line)
    return int(token) if token and DECIMAL.fullmatch(token) and int(token) <= 32000 else None


def first_brace(text):
    found = BRACE.search(text)
    return found[0] if found else b""


def has_open(line):
    return b"{" in line.split(b"%")[0]


def outside(numbered, opens):
    """The lines that don't stand inside an entry, one that the nearest line with a brace has opened; one with { stands in none."""
    found, is_open = [], False
    for number, line in numbered:
        if not is_open or has_open(line):
            found.append((number, line))
        if first_brace(line) in (b"{", b"}"):
            is_open = goes_on(line, opens)
    return found


def goes_on(line, opens):
    """Whether a line opens an entry, and has no brace behind the {."""
    return bool(opens(line)) and first_brace(line.split(b"{", 1)[1]) in (b"", b"%")


def array(front):
    _, opening_line, later = cut(front, lambda line: count_in(line, b"/Encoding", b"array"))
    return cut(later, lambda line: tokens(line)[-1:] == [b"def"])[0]


def is_lost(line, names):
    try:
        these = tokens(line)
        found = slot(these, 0) if these[:1] == [b"dup"] else None
    except Fault:
        return False
    return found is not None and found[1] != b".notdef" and found[1] not in names


def subrs(front):
    early, section, later = cut(front, is_subrs_line)
    if section is None:
        return [on(line, "plain-entry") for line in early if goes_on(line[1], opens_subr)]
    heads = outside(later, opens_subr)
    numbers = [subr_number(line) for _, line in heads]
    need = max((number + 1 for number in numbers if number is not None), default=0)
    found = [on(section, "plain-entry")] if tokens(section[1])[-1:] == [b"{"] else []
    found += too_high(section, is_subrs_line(section[1]), need)
    return found + [on(line, "plain-entry") for line in heads if is_plain_entry(line[1])]


def is_plain_entry(line):
    return not opens_subr(line) and (tokens(line)[:1] == [b"dup"] or has_open(line))


def strays(glyphs):
    """The first of the lines that belong to no glyph and follow one another."""
    found, goes_on = [], False
    for line in glyphs:
        if opens_glyph(line[1]):
            goes_on = False
        elif not goes_on and tokens(line[1]):
            found.append(on(line, "no-entry"))
            goes_on = True
    return found


def bodies(numbered):
    """What the words of bodies leave: values in front of a command that takes fewer, and paths that aren't closed."""
    placed = [(number, start + 1, line[start:end]) for number, line in numbered for start, end in token_places(line)]
    words = [word for _, _, word in placed]
    found, first, path = [], 0, 0
    for at, (line, column, word) in enumerate(placed):
        if is_number_word(word):
            continue
        values = [int(value) for value in words[first:at]]
        if len(values) > TAKES.get(word, len(values)):
            found.append((line, column, "values-left"))
        if word in TAKES and any(abs(value) > 16000 for value in values):
            found.append((line, column, "wide-coordinate"))
        if word == b"hsbw" and values and values[-1] < 0:
            found.append((line, column, "negative-width"))
        if word in LEAVES and DRAWS & set(words[path:at]):
            found.append((line, column, "open-path"))
        first = at + 1
        if word in LEAVES | BREAKS:
            path = at + 1
    return found
