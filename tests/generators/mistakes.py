# Generators of random inputs for the tests; no part of the product.
"""Sources with mistakes, most of them in the words of bodies."""

import re

from charstrings import COMMANDS

LETTERS = b"abcdefghijklmnopqrstuvwxyzAZ"
# What takes a word's place, or is put before it.
WORDS = rb"""
moveto lineto curveto setlinewidth Endchar 567.5 15,722 +5 --1 8#101 33000 -32001 2147483648 0 1 -1 9 24 65 194 300 pop return
endchar hsbw closepath dotsection seac callsubr callothersubr div hlineto rrcurveto hstem3 rmoveto
""".split()
WORDS += [b"15\xa0722", b"\xe2\x88\x9249", b"\x7f", b"\\", b'"', b"0 div", b"1 2 div", b"100001 3 div", b"1 1048577 div", b"9 callsubr"]
WORDS += [b"3 callsubr", b"4 callsubr", b"-1 callsubr", b"1 2 div callsubr", b"0 1 callothersubr", b"0 2 callothersubr"]
WORDS += [b"0 7 callothersubr", b"1 2 2 callothersubr", b"5 3 12 callothersubr", b"0 0 0 65 300 seac", b"0 0 0 66 194 seac"]
WORDS += [b"0 30000 0 65 194 seac", b"1 " * 25, b"32000 hmoveto " * 33]
BLANKS = [b"  ", b"\t", b"\t\t", b"\0", b"\x0c", b" % x\n\t", b"\n", b"\r", b"\r\n\t"]
OF_BODIES = re.compile(rb"(?m)^\t[^}\r\n].*$")
ENTRY = re.compile(rb"(?m)^(dup \d+|/\S+) \{")


def mistyped(chance, word):
    """A word with a letter less, more or another, or with two that have changed places."""
    at, letter = chance.randrange(len(word)), bytes([chance.choice(LETTERS)])
    changed = [word[:at] + word[at + 1 :], word[:at] + letter + word[at:], word[:at] + letter + word[at + 1 :]]
    return chance.choice([*changed, word[:at] + word[at : at + 2][::-1] + word[at + 2 :]])


def in_line(chance, line):
    """A line of a body with one mistake."""
    words = line.split()
    at, kind = chance.randrange(len(words)), chance.randrange(10)
    if kind < 3:
        words[at] = mistyped(chance, words[at])
    elif kind == 3:
        del words[at]
    elif kind == 4:
        words.insert(at, words[at])
    elif kind == 5:
        words[at] = chance.choice(WORDS)
    elif kind == 6:
        words.insert(at, chance.choice(WORDS))
    elif kind == 7:
        words[at] = chance.choice(list(COMMANDS))
    elif kind == 8:
        return b"\t" + chance.choice(BLANKS).join(words)
    else:
        return chance.choice((b"", line + b"\n" + line))
    return b"\t" + b" ".join(words)


def in_a_body(chance, text):
    """The text with one mistake in a line of a body, where it has one."""
    found = list(OF_BODIES.finditer(text))
    if not found:
        return text
    start, end = chance.choice(found).span()
    return text[:start] + in_line(chance, text[start:end]) + text[end:]


def in_a_head(chance, text):
    """The text with the head of an entry as that of another one, or without its brace or a blank."""
    found = list(ENTRY.finditer(text))
    if not found:
        return text
    start, end = chance.choice(found).span()
    other = chance.choice(found)[0]
    heads = [other, b"  " + other, other + b" % {", text[start : end - 1], b"\t" + text[start:end], other[:-2] + b"{"]
    return text[:start] + chance.choice(heads) + text[end:]


def with_mistakes(chance, text):
    """The text with up to nine mistakes; few are in heads of entries, and a few texts have other line ends."""
    for _ in range(chance.choice((1, 1, 2, 3, 5, 9))):
        text = in_a_head(chance, text) if chance.randrange(25) == 0 else in_a_body(chance, text)
    return text.replace(b"\n", chance.choice((b"\r\n", b"\r"))) if chance.randrange(10) == 0 else text
