# Generators of random inputs for the tests; no part of the product.
"""Private texts laid out otherwise: what an interpreter executes stays, or is said in a way that no program writes."""

import re
from dataclasses import replace

from charstrings import CHARSTRING_KEY, cipher, code, compiled
from entries import entries

GAP = rb"[\0\t\n\x0c\r ]+"
HEAD = re.compile(rb"/(Subrs|CharStrings)(" + GAP + rb")([^\0\t\n\x0c\r ]+)(" + GAP + rb")(?:array|dict)")
DEFINITION = re.compile(
    rb"/([^\0\t\n\x0c\r ()<>\[\]{}/%]+)(\s*)\{(\s*)string(\s+)currentfile(\s+)exch(\s+)readstring(\s+)pop(\s*)\}"
)
WHOLE_DEFINITION = re.compile(DEFINITION.pattern + rb"[^\r\n]*(?:\r\n|\r|\n)")
CLOSEFILE = re.compile(rb"mark(" + GAP + rb")currentfile(" + GAP + rb")closefile")
SPACES = re.compile(rb"[ \t]+")
LINE_END = re.compile(rb"\r\n|\r|\n")
READING = b"{string currentfile exch readstring pop}"

# Made fonts
CLEAR = b"""%!PS-AdobeFont-1.0: Made
/FontName /Made def
/Encoding StandardEncoding def
/FontBBox{0 0 0 0}readonly def
currentfile eexec
"""
TAIL = (b"0" * 64 + b"\n") * 8 + b"cleartomark\n"
# The operator, and what closes a Subr and a glyph.
WORDS = [(b"RD", b"NP", b"ND"), (b"-|", b"|", b"|-"), (b"RD", b"noaccess put", b"noaccess def")]
BODIES = b"0 250 hsbw endchar|10 600 hsbw 300 hlineto 700 vlineto closepath endchar|0 0 hsbw 5 callsubr -2000 hmoveto endchar"
BODIES = [code(compiled(body.split())) for body in BODIES.split(b"|")]
SUBRS = [code(compiled(body.split())) for body in (b"return", b"100 -200 rlineto return", b"3 0 callothersubr pop pop return")]
NAMES = [b"/.notdef", b"/A", b"/B", b"/space", b"/C"]


def listed(text):
    """What stands between bars and line ends; ^ is a line end."""
    return [it.replace(b"^", b"\n") for it in text.strip(b"\n").replace(b"\n", b"|").split(b"|")]


# What may stand between tokens.
BETWEEN = listed(b"^|^|\r|\r^|  |\t|^^| ^\t^ | % a comment^|%\r|^% /Subrs 3 array^|\0|\x0c")
AFTER_OPERATOR = [b"\n", b"\t", b"\r", b"\0"]
# Spellings of numbers, and other numbers.
COUNTS = listed(b"0%d|0000000000%d|8#%o|16#%x|+%d|10#%d|%d.0|%d1|2147483648|99999999999|0|1|-1")
LENGTHS = listed(b"0%d|000000%d|0000000000%d|8#%o|16#%X|08#%o|2#0%o|+%d|%d.0|10#00%d") + [b"0" * 60 + b"%d"]
OTHER_LENGTHS = listed(b"1000000000|999999999|4294967296|18446744073709551615|18446744073709551625|-1") + [b"9" * 30]
SUBR_NUMBERS = listed(b"05|0|1|8#5|+5|32000|32001|4294967296|18446744073709551617|-1|1.0")
GLYPH_NAMES = listed(b"/A;b|/|/\xe9|/A|/B|/\x01|/dup|/Subrs|/CharStrings|/lenIV") + [b"/" + b"x" * 127, b"/" + b"x" * 128]
OPERATORS = [b"-|", b"|", *listed(b"rd|readit|-!|R.D|RD1|\xe9|R;D|def"), b"x" * 127, b"x" * 128]
READINGS = listed(
    b"{currentfile exch string readstring pop}|{string currentfile exch readstring pop} bind"
    b"|{string dup currentfile exch readstring pop exch pop}"
)
LEADS = listed(b"/lenIV %d def|/lenIV^%d def|/lenIV %% c^%d def|/lenIV 0%d def|/lenIV 8#%o def|/lenIV  %d  def|4 /lenIV %d def pop")
# Lines that look like something else.
SOURCE_ENTRIES = listed(
    b"""
dup 5 {return} NP|dup 0 {return} NP|dup 05 { } NP|/B {0 9 hsbw endchar} ND|/B { 0 9 hsbw endchar } ND|/B {def} executeonly def
/B{}def|/D {^0 9 hsbw^endchar^} ND|dup 7 {^return^} NP|/E {^} bind def|dup 6 {^} pop|/;{} def|dup 5 {return^} NP|/F % c^{endchar} ND
 /G {pop} bind def
"""
)
FONT_ENTRIES = listed(
    b"""
% /A 9 RD x|% dup 5 9 RD |/A 9 def|dup 5 9 put|/A 9 RDx |/RD|/A 9|dup 5 9|/A 9 -- x|dup 5 4 -- x
"""
)
HEADS = listed(
    b"""
% /Subrs 1 array|/Subrs 0 array|{/Subrs 1 array}|(/CharStrings 1 dict)|/CharStrings 0 dict dup begin|/Subrs|/CharStrings|/Subrs 5
/Subrs[]|/Subrs 1 index|dup /CharStrings known|/Subrs 5 % array|//CharStrings|/Subrs 1 array pop|array|1 array|dict|5 array|dup 0
"""
)
STRINGS = listed(b"(a) pop |{pop} pop |<25> pop |{ (b) } pop |(a/b(c)) pop ")
CLOSINGS = listed(b"^ND^| ND % a comment^|^| ND def^| {} pop ND^| ND^^|ND^| noaccess def | % /Z 9 RD ^| /Subrs 2 array^| ND mark^")
LOOKS = listed(
    b"^/B 3 RD abc ND^|^dup 5 {return} NP^|^/Subrs 5 array^|\rmark currentfile closefile\r|^2 index /CharStrings 9 dict dup begin^"
)


def replaced(text, edits):
    """The text with other bytes at some places, each (start, end, bytes)."""
    for start, end, put in sorted(edits, reverse=True):
        text = text[:start] + put + text[end:]
    return text


def some(chance, given):
    """One or a few of a list, in its order."""
    given = list(given)
    count = min(len(given), chance.choice([1, 1, 2, len(given)]))
    return [given[at] for at in sorted(chance.sample(range(len(given)), count))]


def gaps(text):
    """What stands between entries."""
    at = 0
    for entry in entries(text):
        yield at, max(at, entry.tokens[0][0])
        at = entry.end
    yield at, len(text)


def line_starts(text):
    return [match.end() for start, end in gaps(text) for match in LINE_END.finditer(text, start, end)]


def with_line(chance, text, line):
    """The text with a line put in, anywhere but in an entry."""
    places = line_starts(text)
    place = chance.choice(places) if places else 0
    return replaced(text, [(place, place, line + b"\n")])


def one_head(chance, text):
    found = list(HEAD.finditer(text))
    return chance.choice(found) if found else None


# The heads of sections

def head_over_lines(chance, text):
    match = one_head(chance, text)
    if match is None:
        return text
    return replaced(text, [(*match.span(at), chance.choice(BETWEEN)) for at in some(chance, [2, 4])])


def count_spelled(chance, text):
    match = one_head(chance, text)
    if match is None or not match[3].isdigit():
        return text
    spelled = chance.choice(COUNTS)
    return replaced(text, [(*match.span(3), spelled % int(match[3]) if b"%" in spelled else spelled)])


def entry_behind_head(chance, text):
    match = one_head(chance, text)
    first = next((it for it in entries(text) if match and it.tokens[0][0] > match.end()), None)
    if first is None or b"%" in text[match.end() : first.tokens[0][0]]:
        return text
    ends = LINE_END.finditer(text, match.end(), first.tokens[0][0])
    return replaced(text, [(*it.span(), b" ") for it in ends])


def words_before_head(chance, text):
    """What stands before a head is on its line, or the last lines of it are."""
    match = one_head(chance, text)
    if match is None:
        return text
    start = max(at for at, _ in gaps(text) if at <= match.start())
    start = max(start, text.rfind(b"%", start, match.start()) + 1)
    ends = [it.span() for it in LINE_END.finditer(text, start, match.start())]
    return replaced(text, [(*it, b" ") for it in ends[-chance.choice([1, 2, 3, len(text)]) :]])


def cut_lines(chance, text):
    """A blank anywhere but in entries is a line end."""
    blanks = [match.span() for start, end in gaps(text) for match in SPACES.finditer(text, start, end)]
    return replaced(text, [(*it, chance.choice(BETWEEN)) for it in some(chance, blanks)[:20]]) if blanks else text


def line_like_head(chance, text):
    return with_line(chance, text, chance.choice(HEADS))


# The reading operator and lenIV

def definition_spelled(chance, text):
    match = DEFINITION.search(text)
    if match is None:
        return text
    return replaced(text, [(*match.span(at), chance.choice(BETWEEN)) for at in some(chance, range(2, 9))])


def other_definition(chance, text):
    match = DEFINITION.search(text)
    return text if match is None else replaced(text, [(match.end(1), match.end(), chance.choice(READINGS))])


def operator_renamed(chance, text):
    """All entries, or one, with another operator, which is defined beside the first one or in its place."""
    name, found, match = chance.choice(OPERATORS), entries(text), DEFINITION.search(text)
    edits = [(*it.tokens[-1], name) for it in (found if chance.randrange(3) else some(chance, found) if found else [])]
    way = chance.choice(["in place", "in place", "beside", "alias", "undefined"])
    if match is not None and way == "in place":
        edits.append((*match.span(1), name))
    elif match is not None and way == "beside":
        edits.append((match.start(), match.start(), b"/" + name + b" " + READING + b" def\n"))
    elif match is not None and way == "alias":
        end = text.find(b"\n", match.end()) + 1
        edits.append((end, end, b"/" + name + b" /" + match[1] + b" load def\n"))
    return replaced(text, edits)


def definition_moved(chance, text):
    match = WHOLE_DEFINITION.search(text)
    return text if match is None else with_line(chance, replaced(text, [(*match.span(), b"")]), match[0])


def definition_left_out(chance, text):
    match = WHOLE_DEFINITION.search(text)
    return text if match is None else replaced(text, [(*match.span(), b"")])


def sealed_by(text, lead):
    """The text with its charstrings behind so many bytes."""
    edits = []
    for it in entries(text):
        coded = cipher(CHARSTRING_KEY, bytes(lead) + it.plain())
        edits.append((it.start, it.end, coded))
        edits.append((*it.tokens[-2], b"%d" % len(coded)))
    return replaced(text, edits)


def lead_said(chance, text):
    """lenIV is another, or is said in another place."""
    lead = chance.choice([0, 1, 4, 4, 5, 9])
    text = sealed_by(text, lead).replace(b"/lenIV", b"/BlueFuzz")
    line, head = chance.choice(LEADS) % lead, one_head(chance, text)
    if head is None or chance.randrange(2):
        return with_line(chance, text, line)
    place = chance.choice([head.start(), head.end()])
    return replaced(text, [(place, place, chance.choice([b" ", b" ", b"\n"]) + line + chance.choice([b" ", b"\n"]))])


# Entries

def one_entry(chance, text):
    found = entries(text)
    return chance.choice(found) if found else None


def entry_over_lines(chance, text):
    entry = one_entry(chance, text)
    if entry is None:
        return text
    between = [(left[1], right[0]) for left, right in zip(entry.tokens, entry.tokens[1:])]
    return replaced(text, [(*it, chance.choice(BETWEEN)) for it in some(chance, between)])


def length_spelled(chance, text):
    spelled = chance.choice(LENGTHS)
    found = entries(text)
    return replaced(text, [(*it.tokens[-2], spelled % len(it.coded)) for it in some(chance, found)]) if found else text


def length_wrong(chance, text):
    entry = one_entry(chance, text)
    if entry is None:
        return text
    count = len(entry.coded)
    near = [b"%d" % it for it in (count + 1, count + (1 << 32), count + (1 << 64))]
    return replaced(text, [(*entry.tokens[-2], chance.choice(OTHER_LENGTHS + near))])


def entry_moved(chance, text):
    """An entry with what closes it, or only the entry, in another place."""
    entry = one_entry(chance, text)
    if entry is None:
        return text
    stop = LINE_END.search(text, entry.end)
    end = stop.end() if stop and chance.randrange(4) else entry.end
    moved = text[entry.tokens[0][0] : end]
    return with_line(chance, replaced(text, [(entry.tokens[0][0], end, b"")]), moved)


def entry_added(chance, text):
    """An entry that is there once more, under another name or number or the same one, anywhere."""
    entry = one_entry(chance, text)
    if entry is None:
        return text
    head = chance.choice([b"/Z", b"dup 3", b"dup 9", entry.head])
    line = b"%s %d %s %s" % (head, len(entry.coded), text[slice(*entry.tokens[-1])], entry.coded)
    return with_line(chance, text, line + chance.choice([b" NP", b" ND", b""]))


def sections_swapped(chance, text):
    """The Subrs behind the glyphs."""
    heads = {match[1]: match for match in HEAD.finditer(text)}
    if len(heads) != 2 or heads[b"Subrs"].start() > heads[b"CharStrings"].start():
        return text
    start, end = (text.rfind(b"\n", 0, heads[it].start()) + 1 for it in (b"Subrs", b"CharStrings"))
    last = entries(text)[-1:]
    stop = LINE_END.search(text, last[0].end) if last else None
    if stop is None or not 0 < start < end < stop.end():
        return text
    return replaced(text, [(stop.end(), stop.end(), text[start:end]), (start, end, b"")])


def named_otherwise(chance, text):
    entry = one_entry(chance, text)
    if entry is None:
        return text
    if entry.head[:1] == b"/":
        return replaced(text, [(*entry.tokens[0], chance.choice(GLYPH_NAMES))])
    return replaced(text, [(*entry.tokens[1], chance.choice(SUBR_NUMBERS))])


def closed_otherwise(chance, text):
    entry = one_entry(chance, text)
    stop = LINE_END.search(text, entry.end) if entry else None
    return text if stop is None else replaced(text, [(entry.end, stop.end(), chance.choice(CLOSINGS))])


def byte_after_operator(chance, text):
    entry = one_entry(chance, text)
    return text if entry is None else replaced(text, [(entry.start - 1, entry.start, chance.choice(AFTER_OPERATOR))])


def entries_on_a_line(chance, text):
    found = entries(text)
    ends = []
    for entry in found:
        match = re.search(rb"(?:\r\n|\r|\n)[\0\t ]*\Z", text[max(0, entry.tokens[0][0] - 9) : entry.tokens[0][0]])
        if match:
            start = max(0, entry.tokens[0][0] - 9)
            ends.append((start + match.start(), start + match.end(), chance.choice([b" ", b"", b" def "])))
    return replaced(text, some(chance, ends)) if ends else text


def bytes_that_look(chance, text):
    """A charstring whose bytes in the file look like lines, entries or heads."""
    entry = one_entry(chance, text)
    if entry is None:
        return text
    for _ in range(200):
        coded = chance.randbytes(entry.lead) + chance.choice(LOOKS) + chance.randbytes(6)
        plain = replace(entry, coded=coded).plain()
        if all(byte >= 32 for byte in plain[:-5]) and min(plain[-5:]) >= 32:
            return replaced(text, [(entry.start, entry.end, coded), (*entry.tokens[-2], b"%d" % len(coded))])
    return text


def string_before_entry(chance, text):
    """A string on the line of an entry, before it."""
    entry = one_entry(chance, text)
    return text if entry is None else replaced(text, [(entry.tokens[0][0], entry.tokens[0][0], chance.choice(STRINGS))])


def line_like_source_entry(chance, text):
    return with_line(chance, text, chance.choice(SOURCE_ENTRIES))


def line_like_font_entry(chance, text):
    return with_line(chance, text, chance.choice(FONT_ENTRIES))


# The rest

def closefile_over_lines(chance, text):
    match = CLOSEFILE.search(text)
    return text if match is None else replaced(text, [(*match.span(at), chance.choice(BETWEEN)) for at in some(chance, [1, 2])])


def other_line_ends(chance, text):
    end = chance.choice([b"\r", b"\r\n", b"\n"])
    return replaced(text, [(*match.span(), end) for start, stop in gaps(text) for match in LINE_END.finditer(text, start, stop)])


OF_HEADS = [head_over_lines, head_over_lines, count_spelled, entry_behind_head, words_before_head, cut_lines]
OF_WORDS = [definition_spelled, other_definition, operator_renamed, operator_renamed, definition_moved, definition_left_out]
OF_ENTRIES = [entry_over_lines, entry_over_lines, length_spelled, length_wrong, entry_moved, entry_moved, entry_added]
OF_ENTRIES += [sections_swapped, named_otherwise, closed_otherwise, byte_after_operator, entries_on_a_line, bytes_that_look]
OF_LINES = [line_like_head, line_like_source_entry, line_like_source_entry, line_like_font_entry]
OTHERS = [lead_said, string_before_entry, closefile_over_lines, other_line_ends]
WAYS = OF_HEADS + OF_WORDS + OF_ENTRIES + OF_LINES + OTHERS


def laid_out(chance, text):
    """A private text laid out otherwise in a few ways, and their names."""
    names = []
    for _ in range(chance.choice([1, 1, 2, 2, 3, 4])):
        way = chance.choice(WAYS)
        names.append(way.__name__)
        text = way(chance, text)
    return text, names


def made_font(chance):
    """A small font that is made: its clear text, its private text with the leading bytes, and its tail."""
    return CLEAR, bytes(4) + made_private(chance), TAIL


def made_private(chance):
    operator, put, define = chance.choice(WORDS)
    lead = chance.choice([4, 4, 4, 0, 1])

    def entry(head, plain, closing):
        coded = cipher(CHARSTRING_KEY, bytes(lead) + plain)
        return b"%s %d %s %s %s\n" % (head, len(coded), operator, coded, closing)

    subrs = [entry(b"dup %d" % at, chance.choice(SUBRS), put) for at in range(chance.randrange(4))]
    glyphs = [entry(name, chance.choice(BODIES), define) for name in NAMES[: chance.choice([1, 2, 2, 3, 5])]]
    said = [b"/%s %s executeonly def\n" % (operator, READING)] + ([b"/lenIV %d def\n" % lead] if lead != 4 else [])
    chance.shuffle(said)
    head = [b"dup /Private %d dict dup begin\n" % (len(said) + 3), *said, b"/BlueValues[]def\n"]
    section = [b"/Subrs %d array\n" % len(subrs), *subrs, b"ND\n"] if subrs or chance.randrange(2) else []
    begin = [b"2 index /CharStrings %d dict dup begin\n" % len(glyphs)]
    return b"".join([*head, *section, *begin, *glyphs, b"end\nend\nreadonly put\nput\nmark currentfile closefile\n"])
