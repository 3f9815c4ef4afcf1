# Independent implementation for the tests; no part of the product.
"""A font's file read back into its source, or the first fault of the file, as docs/DISASSEMBLE.md says it.

usage: disassemble.py FONT > SOURCE
"""

import functools
import itertools
import re
import sys
from dataclasses import dataclass, field

from charstrings import CHARSTRING_KEY, COMMANDS, EEXEC_KEY
from lost_entries import BLANKS, is_closefile, lost_entry, section_lines
from source import DECIMAL, is_name, lines, token_places, tokens

NAMES = {code: name for name, (code, _) in COMMANDS.items()}
DIGITS = frozenset(b"0123456789abcdefABCDEF")
LINE_END = re.compile(rb"\r\n|\r|\n")
SECTIONS = {b"/Subrs": b"array", b"/CharStrings": b"dict"}
LONGEST_COUNT = 9


class FontFault(Exception):
    """What is told of a file that isn't read, as `D7 glyph A`."""

    def __init__(self, code, place=b""):
        super().__init__(code, place)
        self.told = code + (b" " + place if place else b"")

    def text(self):
        return self.told


@dataclass
class Parts:
    clear: bytes = b""
    coded: bytes = b""
    tail: bytes = b""
    # where the bytes of the clear text and of the encrypted part stand in the file
    clear_stands: list[range] = field(default_factory=list)
    coded_stands: list[range] = field(default_factory=list)

    def place(self, at):
        """Where the byte stands in the file that has so many before it in the clear text and the encrypted part."""
        for stands in self.clear_stands + self.coded_stands:
            if at < len(stands):
                return b"byte %d" % stands[at]
            at -= len(stands)
        raise IndexError(at)


# The file

def segments(file):
    """The segments, each with its type and where its bytes stand, up to the end that is said or that of the file."""
    at = 0
    while at < len(file):
        fault = FontFault(b"D2", b"byte %d" % at)
        if file[at] != 128 or at + 1 == len(file):
            raise fault
        kind = file[at + 1]
        if kind == 3:
            return
        start = at + 6
        end = start + int.from_bytes(file[at + 2 : start], "little")
        if kind not in (1, 2) or start > len(file) or end > len(file):
            raise fault
        yield kind, file[start:end], range(start, end)
        at = end


def parts(file):
    """The clear text, the encrypted bytes and the text after them of a file with segments; of any other all is clear text."""
    if file[:1] != b"\x80":
        return Parts(file, clear_stands=[range(len(file))])
    found = Parts()
    for kind, part, stands in segments(file):
        if kind == 2:
            found.coded += part
            found.coded_stands.append(stands)
        elif found.coded:
            found.tail += part
        else:
            found.clear += part
            found.clear_stands.append(stands)
    return found


def line_starts(text):
    """Where each line begins, where it ends, and where its end ends."""
    at = 0
    while at < len(text):
        stop = LINE_END.search(text, at)
        end, after = stop.span() if stop else (len(text), len(text))
        yield at, end, after
        at = after


def eexec_end(text):
    """Where the clear text ends."""
    words = b"currentfile eexec"
    for start, end, after in line_starts(text):
        if text[start:end].strip(BLANKS).endswith(words):
            return after
    found = text.find(words + b" ")
    return None if found < 0 else found + len(words)


def judge_kind(found, clear):
    for words, code in (b"/WeightVector", b"D12"), (b"/CIDFontName", b"D13"):
        if words in clear:
            raise FontFault(code, found.place(clear.index(words)))


def is_hexadecimal(coded):
    return len(coded) >= 4 and DIGITS.issuperset(coded[:4])


def digits_end(coded):
    """How many bytes stand before the first that is neither a digit nor a blank."""
    return next((at for at, byte in enumerate(coded) if byte not in DIGITS and byte not in BLANKS), len(coded))


def bytes_of_digits(coded):
    digits = bytes(byte for byte in coded[: digits_end(coded)] if byte in DIGITS)
    return bytes.fromhex(digits[: len(digits) // 2 * 2].decode())


@functools.lru_cache(maxsize=20000)
def decrypted(key, lead, bytes_):
    plain = bytearray()
    for byte in bytes_:
        plain.append(byte ^ (key >> 8))
        key = ((byte + key) * 52845 + 22719) & 0xFFFF
    return bytes(plain[lead:])


def private_bytes(coded):
    return decrypted(EEXEC_KEY, 4, bytes_of_digits(coded) if is_hexadecimal(coded) else coded)


def after_digits(coded, count):
    """What stands after so many digits and the end of the line of the last."""
    at = 0
    while count and at < len(coded):
        count -= coded[at] in DIGITS
        at += 1
    stop = LINE_END.search(coded, at)
    return coded[stop.end() :] if stop else b""


# The private text

def is_number(token):
    return bool(DECIMAL.fullmatch(token))


def begins_section(line):
    """Whether a line ends in a section's name, or in that and digits."""
    line = line.strip(BLANKS)
    return line.endswith(tuple(SECTIONS)) or line.rstrip(b"0123456789").strip(BLANKS).endswith(tuple(SECTIONS))


def before_section(line):
    """What stands on a line before the first section's name."""
    return line[: next((start for start, end in token_places(line) if line[start:end] in SECTIONS), len(line))]


def lines_before_sections(plain):
    """The lines before the first on which a section begins, and what stands on that before the section's name."""
    for line in lines(plain):
        if section_lines(line) or begins_section(line.split(b"%")[0]):
            yield before_section(line)
            return
        yield line


def reading_operator(plain):
    """The name that is defined in front of the first `string currentfile`."""
    for line in lines_before_sections(plain):
        place = line.find(b"string currentfile")
        if place >= 0:
            names = [line[start + 1 : end] for start, end in token_places(line) if end <= place and line[start : start + 1] == b"/"]
            names = [name for name in names if is_name(name)]
            return names[-1] if names else b"RD"
    return b"RD"


def leading_bytes(plain):
    for line in lines_before_sections(plain):
        found = tokens(line)
        if b"/lenIV" not in found:
            continue
        said = found[found.index(b"/lenIV") + 1 :][:1]
        if said == [b"-1"]:
            raise FontFault(b"D10")
        if not said or not DECIMAL.fullmatch(said[0]) or int(said[0]) > 64:
            raise FontFault(b"D9")
        return int(said[0])
    return 4


@dataclass(frozen=True)
class Opening:
    """An entry: where it begins on its line, its head, the length of its charstring, and where the reading operator ends."""

    at: int
    name: bytes
    count: int
    end: int

    def place(self):
        return b"glyph " + self.name[1:] if self.name[:1] == b"/" else b"subr " + self.name[len(b"dup ") :]


def first_opening(operator, line):
    places = token_places(line)
    words = [line[start:end] for start, end in places]
    for at, word in enumerate(words):
        if word[:1] == b"/" and words[at + 2 : at + 3] == [operator] and is_number(words[at + 1]):
            return Opening(places[at][0], word, int(words[at + 1]), places[at + 2][1])
        if word == b"dup" and words[at + 3 : at + 4] == [operator] and all(map(is_number, words[at + 1 : at + 3])):
            return Opening(places[at][0], b"dup " + words[at + 1], int(words[at + 2]), places[at + 3][1])
    return None


def number(code, at):
    """A number and where it ends."""
    first = code[at]
    size = 5 if first == 255 else 2 if first >= 247 else 1
    if at + size > len(code):
        raise FontFault(b"D8")
    if first == 255:
        return int.from_bytes(code[at + 1 : at + 5], "big", signed=True), at + 5
    if first >= 251:
        return -(first - 251) * 256 - code[at + 1] - 108, at + 2
    if first >= 247:
        return (first - 247) * 256 + code[at + 1] + 108, at + 2
    return first - 139, at + 1


def body(code):
    """The lines of a charstring, each up to its command."""
    found, words, at = [], [], 0
    while at < len(code):
        if code[at] >= 32:
            value, at = number(code, at)
            words.append(b"%d" % value)
            continue
        size = 2 if code[at] == 12 else 1
        if code[at : at + size] not in NAMES:
            raise FontFault(b"D7")
        words.append(NAMES[code[at : at + size]])
        at += size
        found.append(b"\t" + b" ".join(words) + b"\n")
        words = []
    if words:
        found.append(b"\t" + b" ".join(words) + b"\n")
    return b"".join(found)


def charstring_lines(lead, opening, code):
    try:
        if len(code) < lead:
            raise FontFault(b"D6")
        return body(decrypted(CHARSTRING_KEY, lead, code))
    except FontFault as fault:
        raise FontFault(fault.told, opening.place()) from None


def as_one(line, following):
    """Two lines as one, where only both together close the encrypted part."""
    bare = line.strip(BLANKS)
    if section_lines(line) or section_lines(following) or is_closefile(line) or is_closefile(following):
        return None
    both = bare + b" " + following.strip(BLANKS)
    return both if bare.endswith((b"mark", b"mark currentfile")) and is_closefile(both) else None


def line_at(text, at):
    """The line that begins there, and where the next one does."""
    stop = LINE_END.search(text, at)
    return (text[at : stop.start()], stop.end()) if stop else (text[at:], len(text))


def tokens_after(text, at):
    """The tokens of this line's rest and of the lines after it, each with the place after it."""
    while at < len(text):
        line, after = line_at(text, at)
        for start, end in token_places(line):
            yield line[start:end], at + end
        at = after


@dataclass(frozen=True)
class Head:
    """The head of a section: where its name ends on the line, its other tokens, and where the last ends in the private text."""

    name_end: int
    count: bytes
    word: bytes
    end: int


def head_over(plain, at, line):
    """The first head on the line that begins there, where that isn't a section line by itself."""
    if section_lines(line):
        return None
    for start, end in token_places(line):
        word_of_name = SECTIONS.get(line[start:end])
        if word_of_name is None:
            continue
        (count, _), (word, last) = (*itertools.islice(tokens_after(plain, at + end), 2), (b"", 0), (b"", 0))[:2]
        if is_number(count) and len(count.lstrip(b"0")) <= LONGEST_COUNT and word == word_of_name:
            return Head(end, count, word, last)
    return None


@dataclass(frozen=True)
class Piece:
    """What becomes a line of the source, a closing text, or an entry."""

    kind: str  # line, closing, entry
    text: bytes
    # the entry, and of what stands before an entry on its line the one behind it
    opening: Opening | None = None
    is_last: bool = False
    # whether it is cut off before a section's name
    is_cut: bool = False

    def printed(self):
        text = self.text.strip(BLANKS)
        closing = b"\t} " + text + b"\n" if text else b"\t}\n"
        return {"line": self.text + b"\n", "closing": closing, "entry": self.text}[self.kind]


class PrivateText:
    """The private text, piece by piece."""

    def __init__(self, operator, lead, plain):
        self.operator, self.lead, self.plain = operator, lead, plain
        self.at, self.waits = 0, False

    def pieces(self):
        while self.at < len(self.plain):
            line, after = line_at(self.plain, self.at)
            opening = first_opening(self.operator, line)
            if opening is None:
                line, self.at = self.source_line(line, after)
                yield from self.cut(line, is_last=is_closefile(line))
                continue
            front = line[: opening.at]
            if self.waits or front.strip(BLANKS):
                yield from self.cut(front, opening)
            yield self.entry(opening)

    def cut(self, text, opening=None, is_last=False):
        """A line or a closing text; what stands before a section's name is one of its own where it has to be."""
        kind, before = "closing" if self.waits else "line", before_section(text)
        if section_lines(text) and (self.waits or says_something(before)):
            yield Piece(kind, before, is_cut=True)
            kind, text = "line", text[len(before) :]
        self.waits = False
        yield Piece(kind, text, opening, is_last)

    def source_line(self, line, after):
        """A line, two that close the encrypted part together, or a section line; and where the next piece begins."""
        following, later = line_at(self.plain, after)
        both = None if first_opening(self.operator, following) else as_one(line, following)
        head = head_over(self.plain, self.at, line)
        if both is not None or head is None:
            return (line, after) if both is None else (both, later)
        rest, after = line_at(self.plain, head.end)
        words = [line[: head.name_end].strip(BLANKS), head.count.lstrip(b"0") or b"0", head.word]
        if first_opening(self.operator, rest):
            return b" ".join(words), head.end
        return b" ".join(words + [rest.strip(BLANKS)] * bool(rest.strip(BLANKS))), after

    def entry(self, opening):
        start = self.at + opening.end + 1
        end = start + opening.count
        if end > len(self.plain) and opening.count:
            raise FontFault(b"D5", opening.place())
        code = charstring_lines(self.lead, opening, self.plain[start:end])
        self.at, self.waits = end, True
        return Piece("entry", opening.name + b" {\n" + code, opening)


def says_something(text):
    """Whether the source's reader finds the operator or lenIV there."""
    return b"string currentfile" in text or b"/lenIV" in tokens(text)


def private_pieces(operator, lead, plain):
    """The pieces of the private text through the line that closes it, and what stands after it."""
    reader, found = PrivateText(operator, lead, plain), []
    for piece in reader.pieces():
        found.append(piece)
        if piece.is_last:
            return found, plain[reader.at :]
    raise FontFault(b"D4")


def judge_sections(pieces):
    found = [kind for piece in pieces if piece.kind == "line" and piece.text[:1] != b"\t" for kind in section_lines(piece.text)]
    if len(found) != len(set(found)):
        raise FontFault(b"D11")


def judge_entries(operator, lead, pieces):
    fault = lost_entry(operator, lead, pieces)
    if fault:
        raise FontFault(*fault)


def lines_of(text):
    return b"".join(line + b"\n" for line in lines(text))


def tail_lines(tail):
    kept = [line for line in lines(tail) if line.strip(BLANKS).strip(b"0") or not line.strip(BLANKS)]
    return b"".join(line + b"\n" for line in ([] if any(b"cleartomark" in it for it in kept) else [b"cleartomark"]) + kept)


def encrypted_part(file):
    """The parts of a file, its clear text, and its encrypted bytes with what stands after them."""
    found = parts(file)
    end = eexec_end(found.clear)
    clear = found.clear if end is None else found.clear[:end]
    judge_kind(found, clear)
    if end is None:
        raise FontFault(b"D1")
    return found, clear, (found.clear[end:] + found.coded).lstrip(b" \t\r\n")


def disassembled(file):
    """The source of a font's file."""
    found, clear, coded = encrypted_part(file)
    plain = private_bytes(coded)
    lead = leading_bytes(plain)
    operator = reading_operator(plain)
    try:
        pieces, rest = private_pieces(operator, lead, plain)
    except FontFault as fault:
        end = digits_end(coded)
        if fault.told[:2] in (b"D4", b"D5") and is_hexadecimal(coded) and end < len(coded):
            raise FontFault(b"D3", found.place(len(found.clear) + len(found.coded) - len(coded) + end)) from None
        raise
    judge_sections(pieces)
    judge_entries(operator, lead, pieces)
    used = 4 + len(plain) - len(rest)
    tail = found.tail if found.coded else after_digits(coded, 2 * used) if is_hexadecimal(coded) else coded[used:]
    return lines_of(clear) + b"".join(piece.printed() for piece in pieces) + tail_lines(tail)


def charstrings(file):
    """The plain bytes of each charstring by the head of its entry."""
    plain = private_bytes(encrypted_part(file)[2])
    operator, lead, found, at = reading_operator(plain), leading_bytes(plain), [], 0
    while at < len(plain):
        line, after = line_at(plain, at)
        opening = first_opening(operator, line)
        if opening is None:
            at = after
            continue
        start = at + opening.end + 1
        at = start + opening.count
        found.append((opening.name, decrypted(CHARSTRING_KEY, lead, plain[start:at])))
    return found


if __name__ == "__main__":
    with open(sys.argv[1], "rb") as font:
        try:
            sys.stdout.buffer.write(disassembled(font.read()))
        except FontFault as refused:
            sys.exit("disassemble.py: " + refused.told.decode("latin-1"))
