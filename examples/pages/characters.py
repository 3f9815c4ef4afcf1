"""Which glyph a character is set with, by the names of glyphs: the one table of both pages."""

from __future__ import annotations

import itertools
import re
import unicodedata
from typing import Collection, Dict, Iterator, List, Mapping, Sequence, Tuple

# Names in the order of Unicode, by the first character of each row; - is none.
ROWS = {
    0x20: """space exclam quotedbl numbersign dollar percent ampersand quotesingle parenleft parenright asterisk plus comma hyphen
        period slash zero one two three four five six seven eight nine colon semicolon less equal greater question at""",
    0x5B: "bracketleft backslash bracketright asciicircum underscore grave",
    0x7B: "braceleft bar braceright asciitilde",
    0xA0: """space exclamdown cent sterling currency yen brokenbar section dieresis copyright ordfeminine guillemotleft logicalnot
        - registered macron degree plusminus twosuperior threesuperior acute mu paragraph periodcentered cedilla onesuperior
        ordmasculine guillemotright onequarter onehalf threequarters questiondown""",
    0x2C6: "circumflex caron - macron",
    0x2D8: "breve dotaccent ring ogonek tilde hungarumlaut",
    0x384: "tonos dieresistonos",
    0x391: """Alpha Beta Gamma Delta Epsilon Zeta Eta Theta Iota Kappa Lambda Mu Nu Xi Omicron Pi Rho - Sigma Tau Upsilon Phi Chi
        Psi Omega""",
    0x3B1: """alpha beta gamma delta epsilon zeta eta theta iota kappa lambda mu nu xi omicron pi rho sigma1 sigma tau upsilon phi
        chi psi omega""",
    0x3D1: "theta1 Upsilon1 - - phi1 omega1",
    0x2010: "hyphen - figuredash endash emdash afii00208 - underscoredbl quoteleft quoteright quotesinglbase quotereversed",
    0x201C: "quotedblleft quotedblright quotedblbase - dagger daggerdbl bullet - onedotenleader twodotenleader ellipsis",
    0x2030: "perthousand - minute second",
    0x2039: "guilsinglleft guilsinglright - exclamdbl",
    0x2070: """zerosuperior - - - foursuperior fivesuperior sixsuperior sevensuperior eightsuperior ninesuperior plussuperior -
        equalsuperior parenleftsuperior parenrightsuperior nsuperior zeroinferior oneinferior twoinferior threeinferior
        fourinferior fiveinferior sixinferior seveninferior eightinferior nineinferior""",
    0x2153: "onethird twothirds",
    0x215B: "oneeighth threeeighths fiveeighths seveneighths",
    0x2190: "arrowleft arrowup arrowright arrowdown arrowboth arrowupdn",
    0x21D0: "arrowdblleft arrowdblup arrowdblright arrowdbldown arrowdblboth",
    0x2200: "universal - partialdiff existential - emptyset increment gradient element notelement - suchthat",
    0x220F: "product - summation minus - - - - asteriskmath - - radical - - proportional infinity orthogonal angle",
    0x2227: "logicaland logicalor intersection union integral",
    0x2260: "notequal equivalence - - lessequal greaterequal - - - - muchless muchgreater - - notless notgreater",
    0x2276: "lessorgreater greaterorless - - precedes succeeds - - - - notprecedes notsucceeds",
    0x2282: "propersubset propersuperset notsubset - reflexsubset reflexsuperset",
    0x2550: """SF430000 SF240000 SF510000 SF520000 SF390000 SF220000 SF210000 SF250000 SF500000 SF490000 SF380000 SF280000 SF270000
        SF260000 SF360000 SF370000 SF420000 SF190000 SF200000 SF230000 SF470000 SF480000 SF410000 SF450000 SF460000 SF400000
        SF540000 SF530000 SF440000""",
    0x2590: "rtblock ltshade shade dkshade",
    0xFB00: "ff fi fl ffi ffl",
}
# Characters with other names than those of the rows, or with further ones, which stand behind these.
OTHERS = {
    "'": "quoteright", "\u00b7": "middot", "\u00af": "overscore", "µ": "mu1 uni00B5", "μ": "mu uni03BC",
    "Δ": "increment uni0394", "Ω": "Omega uni03A9 Ohm", "\u2126": "Omega Ohm", "\u2206": "Delta", "Æ": "AE", "æ": "ae",
    "Ø": "Oslash", "ø": "oslash", "Œ": "OE", "œ": "oe", "Ð": "Eth", "ð": "eth", "Þ": "Thorn", "þ": "thorn",
    "Đ": "Dcroat Dslash", "đ": "dcroat dslash dmacron", "Ħ": "Hbar", "ħ": "hbar", "Ł": "Lslash", "ł": "lslash",
    "Ŀ": "Ldot Ldotaccent", "ŀ": "ldot ldotaccent", "Ŋ": "Eng", "ŋ": "eng", "Ŧ": "Tbar", "ŧ": "tbar", "Ĳ": "IJ", "ĳ": "ij",
    "ı": "dotlessi", "ȷ": "dotlessj uni0237", "ĸ": "kgreenlandic", "ŉ": "napostrophe", "ſ": "longs", "ß": "germandbls",
    "ẞ": "Germandbls", "ƒ": "florin", "×": "multiply", "÷": "divide", "⁄": "fraction", "Ǽ": "AEacute", "ǽ": "aeacute",
    "Ǿ": "Oslashacute Ostrokeacute", "ǿ": "oslashacute ostrokeacute", "Ǝ": "Ereversed", "ǝ": "eturned", "ɘ": "ereversed",
    "ə": "schwa afii10846", "ә": "afii10846", "Ǉ": "LJ", "ǈ": "Lj", "ǉ": "lj", "Ǌ": "NJ", "ǋ": "Nj", "ǌ": "nj",
    "ʾ": "ringhalfright", "ʿ": "ringhalfleft", "\u0387": "anoteleia periodcentered", "\u00ad": "sfthyphen softhyphen",
    "\u0300": "gravecomb", "\u0301": "acutecomb", "\u0303": "tildecomb", "\u0309": "hookabovecomb", "\u0323": "dotbelowcomb",
    "℃": "centigrade", "İ": "Idotaccent Idot", "ς": "sigmafinal", "―": "horizontalbar", "‖": "bardbl dblverticalbar",
    "‱": "permyriad", "※": "referencemark", "‽": "interrobang", "€": "Euro euro", "₡": "colonmonetary", "₣": "franc",
    "₤": "lira", "₦": "naira", "₧": "peseta", "₩": "won", "₫": "dong", "₱": "peso", "℅": "afii61248 careof",
    "ℓ": "afii61289 lsquare", "№": "afii61352 numero", "℗": "published", "℘": "weierstrass", "℞": "prescription recipe",
    "℠": "servicemark", "™": "trademark", "℧": "mho", "℮": "estimated", "ℑ": "Ifraktur", "ℜ": "Rfraktur", "ℵ": "aleph",
    "ℶ": "beth", "ℷ": "gimel", "ℸ": "daleth", "↵": "carriagereturn", "∕": "divisionslash fraction", "∙": "periodcentered",
    "∴": "therefore", "∼": "similar", "≅": "congruent", "≈": "approxequal", "⊕": "circleplus", "⊗": "circlemultiply",
    "⊥": "perpendicular", "⋅": "dotmath", "∇": "nabla", "∓": "minusplus", "∦": "notparallel", "∵": "because",
    "↨": "arrowupdnbse", "⇒": "dblarrowright", "⇔": "dblarrowleft", "⌐": "revlogicalnot", "⌠": "integraltp", "⌡": "integralbt",
    "\u2329": "angleleft", "\u232a": "angleright", "─": "SF100000", "│": "SF110000", "┌": "SF010000", "┐": "SF030000",
    "└": "SF020000", "┘": "SF040000", "├": "SF080000", "┤": "SF090000", "┬": "SF060000", "┴": "SF070000", "┼": "SF050000",
    "▀": "upblock", "▄": "dnblock", "█": "block", "▌": "lfblock", "▪": "H18543", "▫": "H18551", "▬": "filledrect",
    "●": "H18533", "◘": "invbullet", "◙": "invcircle", "☻": "invsmileface", "♫": "musicalnotedbl", "⌂": "house", "◊": "lozenge",
    "■": "filledbox", "□": "H22073", "▲": "triagup", "►": "triagrt", "▼": "triagdn", "◄": "triaglf", "○": "circle",
    "◦": "openbullet", "☺": "smileface", "☼": "sun", "♀": "female", "♂": "male", "♠": "spade", "♣": "club", "♥": "heart",
    "♦": "diamond", "♪": "musicalnote", "␣": "visiblespace blank", "〈": "angleleft", "〉": "angleright",
    "⟨": "angbracketleft angleleft", "⟩": "angbracketright angleright", "ﬀ": "f_f", "ﬁ": "f_i", "ﬂ": "f_l", "ﬃ": "f_f_i",
    "ﬄ": "f_f_l",
}  # fmt: skip
# Adobe's numbers of the letters of other scripts, from a character on.
NUMBERED = [
    (0x402, 10051, 11), (0x40E, 10062, 1), (0x40F, 10145, 1), (0x401, 10023, 1), (0x410, 10017, 6), (0x416, 10024, 26), (0x430, 10065, 6),
    (0x436, 10072, 26), (0x451, 10071, 1), (0x452, 10099, 11), (0x45E, 10110, 1), (0x45F, 10193, 1), (0x462, 10146, 1), (0x463, 10194, 1),
    (0x472, 10147, 1), (0x473, 10195, 1), (0x474, 10148, 1), (0x475, 10196, 1), (0x490, 10050, 1), (0x491, 10098, 1), (0x5D0, 57664, 27),
]  # fmt: skip
# What accents are called behind their letter. An acute of Greek is a tonos.
ACCENTS = {
    0x300: "grave",
    0x301: "acute",
    0x302: "circumflex",
    0x303: "tilde",
    0x304: "macron",
    0x306: "breve",
    0x307: "dotaccent dot",
    0x308: "dieresis",
    0x309: "hookabove",
    0x30A: "ring",
    0x30B: "hungarumlaut",
    0x30C: "caron",
    0x30F: "dblgrave",
    0x311: "invertedbreve",
    0x31B: "horn",
    0x323: "dotbelow",
    0x326: "commaaccent",
    0x327: "cedilla commaaccent",
    0x328: "ogonek",
    0x32E: "brevebelow",
    0x331: "linebelow",
}
OF_GREEK = {**ACCENTS, 0x301: "tonos"}
# Where letters with accents stand.
ACCENTED = [range(0xC0, 0x250), range(0x386, 0x3CF), range(0x1E00, 0x1F00)]


def table() -> Dict[str, List[str]]:
    """What glyphs are called with which a character may be set, the better name first."""
    found: Dict[str, List[str]] = {}
    for character, names in known():
        found.setdefault(character, []).extend(it for it in names if it not in found.get(character, []))
    return found


def known() -> Iterator[Tuple[str, Sequence[str]]]:
    for first, row in ROWS.items():
        for at, name in enumerate(row.split()):
            if name != "-":
                yield chr(first + at), [name]
    for letter in map(chr, itertools.chain(range(0x41, 0x5B), range(0x61, 0x7B))):
        yield letter, [letter]
    for character, names in OTHERS.items():
        yield character, names.split()
    for first, number, count in NUMBERED:
        for at in range(count):
            yield chr(first + at), [f"afii{number + at}"]
    bases = {chr(first + at): name for first in (0x391, 0x3B1) for at, name in enumerate(ROWS[first].split())}
    for character in map(chr, itertools.chain(*ACCENTED)):
        base, *marks = unicodedata.normalize("NFD", character)
        accents = OF_GREEK if base in bases else ACCENTS
        if marks and (base in bases or base.isascii() and base.isalpha()) and all(ord(it) in accents for it in marks):
            yield character, list(accented(bases.get(base, base), [accents[ord(it)].split() for it in marks]))


def accented(base: str, marks: List[List[str]]) -> Iterator[str]:
    """The names of a letter with accents, each of which may have several; a dot below is called last too."""
    for order in (marks, marks[::-1]) if marks[0] == ["dotbelow"] else (marks,):
        for names in itertools.product(*order):
            yield base + "".join(names)


TABLE = table()
# A name by a character's number.
NUMBER = re.compile("uni([0-9A-F]{4})|u([0-9A-F]{4,5}|10[0-9A-F]{4})")


def characters(names: Collection[str], codes: Mapping[int, str]) -> Dict[str, str]:
    """Of the characters that are typed as text, those for which there is a glyph, and its name: one that the table has, or a
    name like uni2116 or u1F600, or of ASCII the name that the code has."""
    found = {chr(code): name for code, name in codes.items() if 0x20 < code < 0x7F and name in names}
    for name in names:
        numbered = NUMBER.fullmatch(name)
        if numbered:
            found[chr(int(numbered[1] or numbered[2], 16))] = name
    for character, known in TABLE.items():
        for name in reversed(known):
            if name in names:
                found[character] = name
    return found
