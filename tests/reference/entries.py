# Independent implementation for the tests; no part of the product.
"""The entries of a private text as an interpreter meets them: by PostScript's tokens and each entry's length. Lines and sections
mean nothing here, and nothing is taken from the reader of docs/DISASSEMBLE.md."""

import re
from dataclasses import dataclass

from charstrings import CHARSTRING_KEY
from disassemble import decrypted

WORD = rb"[^\0\t\n\x0c\r ()<>\[\]{}/%]"
TOKEN = re.compile(rb"[\0\t\n\x0c\r ]*(?:(%)[^\n\x0c\r]*|([()\[\]{}]|<<|>>|<|>|//?" + WORD + rb"*|" + WORD + rb"+))")
INTEGER = re.compile(rb"[+-]?[0-9]+")
RADIX = re.compile(rb"([0-9]{1,2})#([0-9A-Za-z]+)")
PARENTHESIS = re.compile(rb"\\.|[()]", re.DOTALL)
READ = b"currentfile", b"readstring"
USUAL_OPERATORS = b"RD", b"-|"
USUAL_LEAD = 4


@dataclass(frozen=True)
class Found:
    """An entry: `/NAME` or `dup N`, its charstring, lenIV, and where its head's tokens stand, its charstring begins and ends."""

    head: bytes
    coded: bytes
    lead: int
    tokens: tuple[tuple[int, int], ...]
    start: int
    end: int

    def plain(self):
        """The charstring's commands as bytes."""
        return decrypted(CHARSTRING_KEY, self.lead, self.coded)


def integer(token):
    """The number that a token is, in decimal or with a radix, or None."""
    if INTEGER.fullmatch(token):
        return int(token)
    radix = RADIX.fullmatch(token)
    if radix is None or not 2 <= int(radix[1]) <= 36:
        return None
    try:
        return int(radix[2], int(radix[1]))
    except ValueError:
        return None


def string_end(text, at):
    """Where the string ends that was opened before this place."""
    depth = 1
    for match in PARENTHESIS.finditer(text, at):
        depth += {b"(": 1, b")": -1}.get(match[0], 0)
        if depth == 0:
            return match.end()
    return len(text)


class Scan:
    """What is executed of a private text, token by token."""

    def __init__(self, text):
        self.text, self.at = text, 0
        # the last tokens outside of procedures, with their places; a procedure is one token, of the words in it
        self.last = []
        self.operators = set(USUAL_OPERATORS)
        self.lead = USUAL_LEAD
        self.entries = []

    def token(self):
        """The next token and its place; a string is an opening parenthesis."""
        while match := TOKEN.match(self.text, self.at):
            self.at = match.end()
            if match[1]:
                continue
            if match[2] == b"(":
                self.at = string_end(self.text, self.at)
            return match[2], match.span(2)
        return None, None

    def procedure(self):
        """The words of a procedure, to its end."""
        words, depth = [], 1
        while depth:
            word, _ = self.token()
            if word is None:
                break
            depth += {b"{": 1, b"}": -1}.get(word, 0)
            words.append(word)
        return words

    def run(self):
        while True:
            token, place = self.token()
            if token in (None, b"closefile"):
                return self
            if token == b"{":
                words = self.procedure()
                if self.last and self.last[-1][0][:1] == b"/" and all(it in words for it in READ):
                    self.operators.add(self.last[-1][0][1:])
            self.last = [*self.last[-3:], (token, place)]
            self.take_alias()
            self.take_lead()
            self.take_entry()

    def take_alias(self):
        """Takes `/X /RD load` as a definition of X."""
        words = [it[0] for it in self.last[-3:]]
        if words[2:] == [b"load"] and words[0][:1] == b"/" and words[1][1:] in self.operators:
            self.operators.add(words[0][1:])

    def take_lead(self):
        """Takes `/lenIV N`, for the entries that come then."""
        words = [it[0] for it in self.last[-2:]]
        if words[0] == b"/lenIV" and len(words) == 2 and integer(words[1]) is not None:
            self.lead = max(0, integer(words[1]))

    def take_entry(self):
        if self.last[-1][0] not in self.operators:
            return
        for size in 3, 4:
            words = [it[0] for it in self.last[-size:]]
            is_glyph = size == 3 and words[0][:1] == b"/" != words[0][1:2]
            is_subr = size == 4 and words[0] == b"dup" and integer(words[1]) is not None
            count = integer(words[-2]) if len(words) == size else None
            if count is None or count < 0 or not (is_glyph or is_subr):
                continue
            head = words[0] if is_glyph else b"dup %d" % integer(words[1])
            start = min(self.at + 1, len(self.text))
            end = min(start + count, len(self.text))
            places = tuple(it[1] for it in self.last[-size:])
            self.entries.append(Found(head, self.text[start:end], self.lead, places, start, end))
            self.at, self.last = end, []
            return


def entries(text):
    """The entries of a private text, in order. One that is cut off has fewer bytes than it says."""
    return Scan(text).run().entries
