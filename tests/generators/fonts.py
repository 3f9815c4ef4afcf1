# Generators of random inputs for the tests; no part of the product.
"""Fonts of random bodies, and kerning files."""

import charstrings

FONT_NAMES = b".notdef space A V H x d p acute grave dieresis Aacute B.alt a b".split()
CODE_OF = {name: code for code, name in charstrings.STANDARD.items()}
EDGES = b"32000 -32000 32001 1048576 1048577 2147483647 -2147483648".split()
DIVISORS = (1, 2, 3, 4, 7, 64, 1000, 1023, 1024)
SHAPES = b"""
hlineto N|vlineto N|rlineto N N|rrcurveto N N N N N N|vhcurveto N N N N|hvcurveto N N N N|rmoveto N N|hmoveto N
vmoveto N|closepath|hstem N N|vstem3 N N N N N N|dotsection|setcurrentpoint N N
""".strip().replace(b"\n", b"|").split(b"|")
CALLS = b"3 callsubr|4 callsubr|5 callsubr|6 callsubr|10 2 div callsubr|4 1 3 callothersubr pop callsubr|7 callsubr"
CALLS = CALLS.split(b"|") + [b"1 2 3 3 12 callothersubr", b"5 1 3 callothersubr pop hlineto"]
RARE = b"""
pop|return|0 1 callothersubr|0 2 callothersubr|1 0 div|1 2000000 div hmoveto|8 callsubr|0 7 callothersubr|0 5 hsbw
moveto|2147483648|endchar
""".strip().replace(b"\n", b"|").split(b"|") + [b"0 " * 23, b"7 callsubr " * 60, b"32000 hmoveto " * 33]
HEADER = b"""
/FontName /Demo def|/FontName (Demo) def|/FullName (Demo (Roman\\) readonly) def|/FullName ( a ) def
/FamilyName (Demo) def|/FamilyName () def|/Weight (Bold|/Weight(Medium)readonly def|/ItalicAngle -12.5 def
/ItalicAngle % 5|/isFixedPitch true def|/isFixedPitch|/UnderlinePosition -100 def|/UnderlinePosition{-100}def
/UnderlineThickness 50def|/version (001.001) def|/Version (2) def|/Notice ( (c) \t) readonly def|\t/Notice (n\\
/FontBBox{0 0 9 9}readonly def|/FontInfo 9 dict dup begin
""".strip().replace(b"\n", b"|").split(b"|")
OTHER_PAIRS = b"""
KPX A V -0|KPX A a 007|KPX V V 32000|KPX . A 1|StartKernPairs 3|Comment KPX|EndKernPairs|C 32 ; WX 250 ; N space ;|
""".strip().split(b"|")
BAD_PAIRS = b"""
KPX A V|KPX A V 1.5|KPX A V 32001|KPX A V 1 ;|KPX A; V 1|KP A V 1 2|KPH <41> <56> 1 2|KPY A V 1|StartKernPairs1 2
""".strip().split(b"|")


def number(chance):
    kind = chance.randrange(1000)
    if kind == 0:
        return chance.choice(EDGES)
    if kind < 100:
        return b"%d %d div" % (chance.randint(-2000, 2000), chance.choice(DIVISORS))
    return b"%d" % chance.randint(-700, 700)


def numbers(chance, count):
    return b" ".join(number(chance) for _ in range(count))


def part(chance, calls):
    """Some words of a body; few are refused."""
    kind = chance.randrange(100)
    if kind == 0:
        return chance.choice(RARE)
    if kind == 1:
        return numbers(chance, chance.randrange(7)) + b" " + chance.choice(list(charstrings.COMMANDS))
    if kind < 12 and calls:
        return chance.choice(calls)
    if kind < 17 and calls:
        points = b"".join(numbers(chance, 2) + b" rmoveto 2 callsubr\n" for _ in range(7))
        return b"1 callsubr\n" + points + b"50 " + numbers(chance, 2) + b" 0 callsubr"
    name, *operands = chance.choice(SHAPES).split()
    return b" ".join([number(chance) for _ in operands] + [name])


def parts(chance, calls=CALLS):
    return [part(chance, calls) for _ in range(chance.choice((0, 1, 2, 5, 9)))]


def glyph_body(chance, names, calls=CALLS):
    """A body; a composite's parts are among the names, its calls among these."""
    start = numbers(chance, 2) + b" hsbw" if chance.randrange(5) else numbers(chance, 4) + b" sbw"
    start = [*parts(chance, calls), start] if chance.randrange(200) == 0 else [start]
    codes = [CODE_OF[name] for name in names if name in CODE_OF]
    if chance.randrange(20) == 0:
        codes += [1, 66]
    if codes and chance.randrange(3) == 0:
        own = parts(chance, calls) if chance.randrange(4) == 0 else []
        seac = b"%s %d %d seac" % (numbers(chance, 3), chance.choice(codes), chance.choice(codes))
        return [*start, *own, seac]
    return [*start, *parts(chance, calls), chance.choice([b"endchar"] * 200 + [b"closepath"])]


def entry(head, lines, end):
    return [head + b" {", *(b"\t" + line for line in lines), b"\t} " + end]


def random_encoding(chance, names):
    if chance.randrange(3):
        return [b"/Encoding StandardEncoding def"]
    slots = []
    for _ in range(chance.randrange(12)):
        code = chance.choice((b"%d", b"8#%o")) % chance.choice((0, 32, 65, 66, 67, 255))
        slots.append(b"dup %s/%s put" % (code, chance.choice([*names, b"nosuch"])))
    return [b"/Encoding 256 array", b"0 1 255 {1 index exch /.notdef put} for", *slots, b"readonly def"]


def random_font(chance):
    """A font whose first five Subrs are those of the demo font."""
    names = chance.sample(FONT_NAMES, chance.randrange(1, len(FONT_NAMES)))
    glyphs = {}
    for name in names:
        reach = names if chance.randrange(50) == 0 else list(glyphs)
        glyphs[name] = entry(b"/" + name, glyph_body(chance, reach), b"ND")
    chance.shuffle(names)
    flex = [b"3 0 callothersubr pop pop setcurrentpoint", b"0 1 callothersubr", b"0 2 callothersubr"]
    subrs = [[line, b"return"] for line in flex]
    subrs += [[b"return"], [b"9 7 rlineto", b"return"], [*parts(chance), b"4 callsubr"], [*parts(chance), b"return"]]
    subrs.append([b"6 callsubr", b"5 callsubr", b"return"])
    header = chance.sample(HEADER, chance.randrange(len(HEADER)))
    text = [b"%!", *header, *random_encoding(chance, names), b"currentfile eexec", b"/Subrs 8 array"]
    for index, lines in enumerate(subrs):
        text += entry(b"dup %d" % index, lines, b"NP")
    text.append(b"/CharStrings 0 dict dup begin")
    for name in names:
        text += glyphs[name]
    return b"\n".join([*text, b"end", b"mark currentfile closefile", b""])


def random_pairs(chance):
    """A kerning file, or None."""
    if chance.randrange(3):
        return None
    lines = []
    for _ in range(chance.randrange(20)):
        left, right = chance.choice(FONT_NAMES), chance.choice(FONT_NAMES)
        lines.append(b"KPX %s %s %d" % (left, right, chance.randint(-200, 200)))
        if chance.randrange(4) == 0:
            lines.append(chance.choice(BAD_PAIRS if chance.randrange(20) == 0 else OTHER_PAIRS))
    return b"".join(line + chance.choice((b"\n", b"\r\n", b" \r")) for line in lines)
