# Independent implementation that computes the tests' expected values; no part of the product.
"""Words to commands to bytes, the cipher, and the standard encoding."""

import functools

from faults import Fault
from source import is_number_word

# name: (its code, how many operands it takes)
COMMANDS = {
    b"hstem": (b"\1", 2),
    b"vstem": (b"\3", 2),
    b"vmoveto": (b"\4", 1),
    b"rlineto": (b"\5", 2),
    b"hlineto": (b"\6", 1),
    b"vlineto": (b"\7", 1),
    b"rrcurveto": (b"\x08", 6),
    b"closepath": (b"\x09", 0),
    b"callsubr": (b"\x0a", 1),
    b"return": (b"\x0b", 0),
    b"hsbw": (b"\x0d", 2),
    b"endchar": (b"\x0e", 0),
    b"rmoveto": (b"\x15", 2),
    b"hmoveto": (b"\x16", 1),
    b"vhcurveto": (b"\x1e", 4),
    b"hvcurveto": (b"\x1f", 4),
    b"dotsection": (b"\x0c\x00", 0),
    b"vstem3": (b"\x0c\x01", 6),
    b"hstem3": (b"\x0c\x02", 6),
    b"seac": (b"\x0c\x06", 5),
    b"sbw": (b"\x0c\x07", 4),
    b"div": (b"\x0c\x0c", 2),
    b"callothersubr": (b"\x0c\x10", 2),
    b"pop": (b"\x0c\x11", 0),
    b"setcurrentpoint": (b"\x0c\x21", 2),
}

LONGEST_BODY = 65535


def compiled(words):
    """Numbers as int, commands by name."""
    if len(words) > LONGEST_BODY:
        raise Fault("F22")
    return [command(word) for word in words]


@functools.lru_cache(maxsize=100000)
def command(word):
    if is_number_word(word):
        value = int(word)
        if not -(2**31) <= value < 2**31:
            raise Fault("F21")
        return value
    if word not in COMMANDS:
        raise Fault("F20")
    return word


def code(commands):
    """The plain charstring."""
    return b"".join(number(it) if isinstance(it, int) else COMMANDS[it][0] for it in commands)


def number(value):
    """The shortest form."""
    if -107 <= value <= 107:
        return bytes([value + 139])
    if 108 <= value <= 1131:
        return bytes([247 + (value - 108) // 256, (value - 108) % 256])
    if -1131 <= value <= -108:
        return bytes([251 + (-value - 108) // 256, (-value - 108) % 256])
    return b"\xff" + value.to_bytes(4, "big", signed=True)


CHARSTRING_KEY = 4330
EEXEC_KEY = 55665


@functools.lru_cache(maxsize=2000)
def cipher(key, plain):
    found = bytearray()
    for byte in plain:
        byte ^= key // 256
        found.append(byte)
        key = ((byte + key) * 52845 + 22719) % 65536
    return bytes(found)


def encrypted(lead, plain):
    return cipher(CHARSTRING_KEY, bytes(lead) + plain)


UPPER = [bytes([it]) for it in range(65, 91)]
LOWER = [bytes([it]) for it in range(97, 123)]
LOW_NAMES = (
    b"space exclam quotedbl numbersign dollar percent ampersand quoteright parenleft parenright asterisk plus comma"
    b" hyphen period slash zero one two three four five six seven eight nine colon semicolon less equal greater"
    b" question at"
).split()
STANDARD = dict(zip(range(32, 65), LOW_NAMES))
STANDARD.update(zip(range(65, 91), UPPER))
STANDARD.update(zip(range(91, 97), b"bracketleft backslash bracketright asciicircum underscore quoteleft".split()))
STANDARD.update(zip(range(97, 123), LOWER))
STANDARD.update(zip(range(123, 127), b"braceleft bar braceright asciitilde".split()))
for _line in """
161 exclamdown 162 cent 163 sterling 164 fraction 165 yen 166 florin 167 section 168 currency 169 quotesingle
170 quotedblleft 171 guillemotleft 172 guilsinglleft 173 guilsinglright 174 fi 175 fl 177 endash 178 dagger
179 daggerdbl 180 periodcentered 182 paragraph 183 bullet 184 quotesinglbase 185 quotedblbase 186 quotedblright
187 guillemotright 188 ellipsis 189 perthousand 191 questiondown 193 grave 194 acute 195 circumflex 196 tilde
197 macron 198 breve 199 dotaccent 200 dieresis 202 ring 203 cedilla 205 hungarumlaut 206 ogonek 207 caron
208 emdash 225 AE 227 ordfeminine 232 Lslash 233 Oslash 234 OE 235 ordmasculine 241 ae 245 dotlessi 248 lslash
249 oslash 250 oe 251 germandbls
""".strip().splitlines():
    _words = _line.split()
    STANDARD.update((int(code), name.encode()) for code, name in zip(_words[::2], _words[1::2]))
assert len(STANDARD) == len(set(STANDARD.values())) == 149
