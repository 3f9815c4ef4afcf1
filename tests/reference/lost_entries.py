# Independent implementation for the tests; no part of the product.
"""What the source of a font's file would lose of its entries, or read otherwise: D14 to D17 of docs/DISASSEMBLE.md. The lines of the
source are followed as its reader follows them."""

from dataclasses import dataclass, field

from source import DECIMAL, operator_of, section_in, tokens

BLANKS = b"\0\t\n\x0c\r "
CLOSEFILE = b"mark currentfile closefile"
READING = b"string currentfile"
SECTIONS = {"Subrs": b"array", "CharStrings": b"dict"}
# Words behind a name and a number, or two numbers, that read no charstring.
NO_OPERATORS = b"def", b"array", b"dict"
USUAL_OPERATOR, USUAL_LEAD, LARGEST_LEAD = b"RD", 4, 64
# What a section line says of the operator or lenIV.
UNHEARD = object()


def is_closefile(line):
    return line.strip(BLANKS).endswith(CLOSEFILE)


def section_lines(line):
    """The sections that a line opens, each by its kind; there is more than one only on a line that the source's reader refuses."""
    found = (section_in(line, kind, word) for kind, word in SECTIONS.items())
    return {it.kind: it for it in found if it}


def place_of(words):
    """The place of the glyph or the Subr that is named last among these tokens."""
    named = [(before, word) for before, word in zip([b"", *words], words) if word[:1] == b"/" or before == b"dup"]
    return place(named[-1][1]) if named else b""


def place(word):
    return b"glyph " + word[1:] if word[:1] == b"/" else b"subr " + word


def is_number(word):
    return bool(DECIMAL.fullmatch(word))


@dataclass
class Follower:
    """A source's reader, by the part where it stands, and what its plain lines say of the operator and of lenIV."""

    operator: bytes
    part: str = "front"
    # the sections that say how many entries they have, and have none yet
    waiting: set = field(default_factory=set)
    said: dict = field(default_factory=dict)

    def fault(self, piece):
        """Takes a piece, and gives the place of its D14, or None."""
        if piece.kind == "entry":
            return self.entry_fault(piece.opening)
        words, closes = tokens(piece.text), is_closefile(piece.text)
        if piece.kind == "line":
            found = {} if closes else section_lines(piece.text)
            opened = None if closes else self.opens(words)
            if opened is not None:
                return opened
            self.enter(found)
            self.hear(piece.text, words, found)
        other = self.unread(words)
        if other is None and closes and (piece.opening or piece.is_cut):
            return piece.opening.place() if piece.opening else b""
        return other

    def entry_fault(self, opening):
        part = "CharStrings" if opening.name[:1] == b"/" else "Subrs"
        self.waiting.discard(part)
        return None if self.part in (part, "refused") else opening.place()

    def opens(self, words):
        """The place of the entry that the source's reader would read on a plain line."""
        if self.part == "Subrs" and words[:1] == [b"dup"] and words[2:3] == [b"{"]:
            return b"subr " + words[1]
        if self.part == "CharStrings" and words[:1] and words[0][:1] == b"/" and words[1:2] == [b"{"]:
            return b"glyph " + words[0][1:]
        return None

    def unread(self, words):
        """The place of an entry that isn't read as one, by the operator or by another."""
        for at, word in enumerate(words):
            if word == self.operator:
                return place_of(words[: at + 1])
            if self.part == "Subrs" and word == b"dup":
                named, length, reading = words[at + 1 : at + 2], words[at + 2 : at + 3], words[at + 3 : at + 4]
            elif self.part == "CharStrings" and word[:1] == b"/":
                named, length, reading = [b"0"], words[at + 1 : at + 2], words[at + 2 : at + 3]
            else:
                continue
            if reading and reading[0] not in NO_OPERATORS and all(map(is_number, named + length)):
                return place(word if word[:1] == b"/" else named[0])
        return None

    def enter(self, found):
        """Takes a section line by the sections that it opens."""
        if not found:
            return
        kind = next(iter(found))
        if len(found) == 2 or (self.part, kind) not in (("front", "Subrs"), ("front", "CharStrings"), ("Subrs", "CharStrings")):
            self.part = "refused"
            return
        self.part = kind
        if found[kind].count > 0:
            self.waiting.add(kind)

    def hear(self, line, words, found):
        """Takes what a line says of the operator and of lenIV first. The source's reader doesn't hear section lines."""
        if len(found) == 2:
            return
        if READING in line:
            self.said.setdefault("operator", UNHEARD if found else operator_of(line))
        if b"/lenIV" in words:
            token = (words[words.index(b"/lenIV") + 1 :] or [b""])[0]
            lead = int(token) if is_number(token) and int(token) <= LARGEST_LEAD else USUAL_LEAD
            self.said.setdefault("lead", UNHEARD if found else lead)


def lost_entry(operator, lead, pieces):
    """The code and the place of what the source of these pieces would lose, or None."""
    reader = Follower(operator)
    for piece in pieces:
        found = reader.fault(piece)
        if found is not None:
            return b"D14", found
    for kind, code in ("Subrs", b"D15"), ("CharStrings", b"D16"):
        if kind in reader.waiting:
            return code, b""
    is_same = reader.said.get("operator", USUAL_OPERATOR) == operator and reader.said.get("lead", USUAL_LEAD) == lead
    return None if is_same else (b"D17", b"")
