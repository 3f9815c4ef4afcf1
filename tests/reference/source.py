# Independent implementation that computes the tests' expected values; no part of the product.
"""The source form: lines, tokens, parts, encoding, header keys, entries, printing."""

import re
import sys
from dataclasses import dataclass, field, replace

from faults import Fault, at_line

sys.set_int_max_str_digits(0)

BLANKS = b"\0\t\x0c "
TOKEN = re.compile(rb"[()<>\[\]{}%]|/[^\0\t\x0c ()<>\[\]{}/%]*|[^\0\t\x0c ()<>\[\]{}/%]+")
BODY_WORD = re.compile(rb"[{}%]|[^\0\t\x0c {}%]+")
NAME = re.compile(rb"[!-~]{1,127}")
NOT_IN_NAMES = set(b"()<>[]{}/%;")
DECIMAL = re.compile(rb"[0-9]+")
NUMBER_WORD = re.compile(rb"-?[0-9]+")

ONE_TOKEN_KEYS = ("ItalicAngle", "isFixedPitch", "UnderlinePosition", "UnderlineThickness")


def lines(text):
    """Lines end with LF, CR LF or CR; a last line without an end counts where it isn't empty."""
    cut = re.split(rb"\r\n|\r|\n", text)
    return cut if cut[-1] else cut[:-1]


def trimmed(line):
    return line.strip(BLANKS)


def words(line):
    """The words between blanks."""
    return [word for word in re.split(rb"[\0\t\x0c ]+", line) if word]


def token_places(line):
    """The tokens before a comment, each as (start, end)."""
    places = []
    for match in TOKEN.finditer(line):
        if match[0] == b"%":
            break
        places.append(match.span())
    return places


def tokens(line):
    return [line[start:end] for start, end in token_places(line)]


def is_name(word):
    return bool(NAME.fullmatch(word)) and not NOT_IN_NAMES & set(word)


def is_number_word(word):
    return bool(NUMBER_WORD.fullmatch(word))


def body_words(body):
    """The words of a body's lines, comments left out; a brace is a word."""
    found = []
    for line in lines(body):
        for match in BODY_WORD.finditer(line):
            if match[0] == b"%":
                break
            found.append(match[0])
    return found


# Items of the private part

@dataclass(frozen=True)
class Plain:
    line: bytes


@dataclass(frozen=True)
class Section:
    kind: str
    before: bytes
    count: int
    after: bytes


@dataclass(frozen=True)
class Entry:
    key: object  # a Subr's number or a glyph's name
    words: tuple
    closing: bytes

    def is_subr(self):
        return isinstance(self.key, int)

    def place(self):
        return b"subr %d" % self.key if self.is_subr() else b"glyph " + self.key

    def head(self):
        return b"dup %d" % self.key if self.is_subr() else b"/" + self.key


@dataclass(frozen=True)
class Source:
    clear: tuple
    items: tuple
    tail: tuple

    def entries(self):
        """All Subrs in entry order, then all glyphs in source order."""
        found = [item for item in self.items if isinstance(item, Entry)]
        return [it for it in found if it.is_subr()] + [it for it in found if not it.is_subr()]

    def subrs(self):
        return {it.key: it for it in self.entries() if it.is_subr()}

    def glyphs(self):
        return {it.key: it for it in self.entries() if not it.is_subr()}

    def section(self, kind):
        """The place of a section line among the items, or None."""
        for index, item in enumerate(self.items):
            if isinstance(item, Section) and item.kind == kind:
                return index
        return None

    def encoding(self):
        return read_encoding(self.clear)

    def lead(self):
        """lenIV."""
        found = find_lead(self.items)
        return 4 if found is None else int(found[1])

    def operator(self):
        """The reading operator."""
        for item in self.items:
            if isinstance(item, Plain) and b"string currentfile" in item.line:
                return operator_of(item.line)
        return b"RD"

    def header(self, key):
        for line in self.clear:
            rest = after_key(line, key.encode())
            if rest is not None:
                return header_value(key, rest)
        return None

    def text(self):
        """The printed form."""
        found = list(self.clear)
        for item in self.items:
            found += printed(item)
        return joined(found + list(self.tail))


def joined(all_lines):
    return b"".join(line + b"\n" for line in all_lines)


def printed(item):
    if isinstance(item, Plain):
        return [item.line]
    if isinstance(item, Section):
        return [item.before + b"%d" % item.count + item.after]
    found, line = [item.head() + b" {"], []
    for index, word in enumerate(item.words):
        line.append(word)
        if not is_number_word(word) or index == len(item.words) - 1:
            found.append(b"\t" + b" ".join(line))
            line = []
    return found + [b"\t}" + (b" " + item.closing if item.closing else b"")]


# Reading

def read_source(text):
    all_lines = lines(text)
    eexec = first_line(all_lines, 0, b"currentfile eexec", "F1")
    closefile = first_line(all_lines, eexec + 1, b"mark currentfile closefile", "F2")
    clear = tuple(all_lines[: eexec + 1])
    read_encoding(clear)
    items, numbers = read_private(all_lines, eexec + 1, closefile)
    if not any(isinstance(item, Section) and item.kind == "CharStrings" for item in items):
        raise Fault("F3")
    check_lead(items, numbers)
    source = Source(clear, tuple(items), read_tail(all_lines[closefile + 1 :]))
    return with_counts(source)


def first_line(all_lines, start, ending, code):
    for index in range(start, len(all_lines)):
        if trimmed(all_lines[index]).endswith(ending):
            return index
    raise Fault(code)


def read_tail(rest):
    kept = [line for line in rest if not trimmed(line) or trimmed(line).strip(b"0")]
    if not any(b"cleartomark" in line for line in kept):
        kept.insert(0, b"cleartomark")
    return tuple(kept)


@dataclass
class Array:
    start: int
    end: int
    slots: dict = field(default_factory=dict)  # place of the line: (code, name)


def read_encoding(clear):
    """None for the standard encoding, or the array."""
    found, array = False, None
    for index, line in enumerate(clear):
        these = tokens(line)
        if these[:1] == [b"/Encoding"]:
            if found:
                raise Fault("F5", at_line(index))
            found, array = True, encoding_at(clear, index, these)
        elif array and array.start < index < array.end and these[:1] == [b"dup"]:
            array.slots[index] = slot(these, index)
    if not found:
        raise Fault("F5")
    return array


def encoding_at(clear, index, these):
    if these[1:2] == [b"StandardEncoding"]:
        return None
    if len(these) >= 3 and DECIMAL.fullmatch(these[1]) and these[2] == b"array":
        for end in range(index + 1, len(clear)):
            if tokens(clear[end])[-1:] == [b"def"]:
                return Array(index, end)
    raise Fault("F5", at_line(index))


def slot(these, index):
    if len(these) == 4 and these[2][:1] == b"/" and these[3] == b"put":
        code, name = code_number(these[1]), these[2][1:]
        if code is not None and is_name(name):
            return code, name
    raise Fault("F6", at_line(index))


def code_number(word):
    if DECIMAL.fullmatch(word):
        code = int(word)
    elif re.fullmatch(rb"8#[0-7]+", word):
        code = int(word[2:], 8)
    else:
        return None
    return code if code <= 255 else None


def read_private(all_lines, start, closefile):
    """The items, and beside each the index of its first line."""
    items, numbers, seen, section = [], [], set(), None
    index = start
    while index <= closefile:
        line, first = all_lines[index], index
        opening = opens_entry(line, section) if index < closefile else None
        if opening:
            key = entry_key(opening[0], section, index)
            if key in seen:
                raise Fault("F9" if isinstance(key, int) else "F10", at_line(index))
            seen.add(key)
            found, closing, index = read_body(all_lines, index, opening[1], closefile)
            item = Entry(key, tuple(found), closing)
        else:
            item = section_line(line, index, section) if index < closefile else None
            if item:
                section = item.kind
            else:
                item = Plain(line)
        items.append(item)
        numbers.append(first)
        index += 1
    return items, numbers


def opens_entry(line, section):
    """The token that names the entry, and the place after the brace; None for a line that opens none."""
    places = token_places(line)
    these = [line[start:end] for start, end in places]
    if section == "Subrs" and these[:1] == [b"dup"] and these[2:3] == [b"{"]:
        return these[1], places[2][1]
    if section == "CharStrings" and these[:1] and these[0][:1] == b"/" and these[1:2] == [b"{"]:
        return these[0], places[1][1]
    return None


def entry_key(token, section, index):
    if section == "Subrs" and DECIMAL.fullmatch(token) and int(token) <= 32000:
        return int(token)
    if section == "CharStrings" and is_name(token[1:]):
        return token[1:]
    raise Fault("F8", at_line(index))


def read_body(all_lines, first, place, closefile):
    found, index = [], first
    while index < closefile:
        line = all_lines[index]
        for match in BODY_WORD.finditer(line, place):
            if match[0] == b"%":
                break
            if match[0] == b"{":
                raise Fault("F7", at_line(first))
            if match[0] == b"}":
                return found, trimmed(line[match.end() :]), index
            found.append(match[0])
        index, place = index + 1, 0
    raise Fault("F7", at_line(first))


def section_line(line, index, section):
    """The section that the line opens, or None."""
    found = [it for it in (section_in(line, "Subrs", b"array"), section_in(line, "CharStrings", b"dict")) if it]
    if not found:
        return None
    is_in_order = section is None or section == "Subrs" and found[0].kind == "CharStrings"
    if len(found) == 2 or not is_in_order:
        raise Fault("F4", at_line(index))
    return found[0]


def section_in(line, kind, last):
    places = token_places(line)
    these = [line[start:end] for start, end in places]
    for at in range(len(these) - 2):
        is_here = these[at] == b"/" + kind.encode() and these[at + 2] == last
        if is_here and re.fullmatch(rb"[0-9]{1,9}", these[at + 1]):
            start, end = places[at + 1]
            return Section(kind, line[:start], int(line[start:end]), line[end:])
    return None


def find_lead(items):
    """Where the first /lenIV of the plain lines stands: its item, and the token after it (None where none follows)."""
    for index, item in enumerate(items):
        if isinstance(item, Plain):
            these = tokens(item.line)
            if b"/lenIV" in these:
                return index, (these[these.index(b"/lenIV") + 1 :] or [None])[0]
    return None


def check_lead(items, numbers):
    found = find_lead(items)
    if found is None:
        return
    index, token = found
    if token is None or not DECIMAL.fullmatch(token) or int(token) > 64:
        raise Fault("F11", at_line(numbers[index]))


def with_counts(source):
    """Raises the sections' counts to what is needed."""
    needed = {"Subrs": max(source.subrs(), default=-1) + 1, "CharStrings": len(source.glyphs())}
    items = [
        replace(item, count=max(item.count, needed[item.kind])) if isinstance(item, Section) else item
        for item in source.items
    ]
    return replace(source, items=tuple(items))


# Header keys and the reading operator

def operator_of(line):
    limit, found = line.index(b"string currentfile"), b"RD"
    for start, end in token_places(line):
        token = line[start:end]
        if end <= limit and token[:1] == b"/" and is_name(token[1:]):
            found = token[1:]
    return found


def after_key(line, key):
    """What follows the key on a line that begins with it; None on other lines."""
    line = line.lstrip(BLANKS)
    if not line.startswith(b"/" + key):
        return None
    rest = line[1 + len(key) :]
    return rest if rest[:1] in BLANKS + b"()<>[]{}/%" else None  # (the line's end too)


def header_value(key, rest):
    rest = rest.lstrip(BLANKS)
    if key == "FontName" or key in ONE_TOKEN_KEYS:
        token = (tokens(rest) or [b""])[0]
        if key != "FontName":
            return token or None
        return token[1:] if token[:1] == b"/" and is_name(token[1:]) else None
    return text_value(rest[1:]) if rest[:1] == b"(" else None


def text_value(rest):
    depth, index = 1, 0
    while index < len(rest):
        if rest[index : index + 1] == b"\\":
            index += 1
        elif rest[index : index + 1] == b"(":
            depth += 1
        elif rest[index : index + 1] == b")":
            depth -= 1
            if depth == 0:
                break
        index += 1
    return rest[:index] or None


# Kerning

def read_pairs(text):
    """A map of (left, right) to a whole number."""
    pairs = {}
    for index, line in enumerate(lines(text)):
        these = words(line)
        if these[:1] == [b"KPX"]:
            if len(these) != 4 or not is_name(these[1]) or not is_name(these[2]) or not is_number_word(these[3]):
                raise Fault("F12", at_line(index))
            if abs(int(these[3])) > 32000:
                raise Fault("F12", at_line(index))
            pairs[these[1], these[2]] = int(these[3])
        elif these and these[0] in (b"KP", b"KPH", b"KPY", b"StartKernPairs1"):
            raise Fault("F13", at_line(index))
    return pairs


def kern_text(pairs):
    return b"".join(b"KPX %s %s %d\n" % (left, right, pairs[left, right]) for left, right in sorted(pairs))
