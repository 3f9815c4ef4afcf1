"""Where in the code of the crates something is done, by file and function."""

import collections
import functools
import os
import re

from belief.functions import TYPE, USE, paths_of, read_sources

# Crates of tests, and a tool of theirs.
LEFT_OUT = re.compile(r"t1_test_|t1_runs$|.*_tests$")
CONST = re.compile(r"^[ ]*(?:pub(?:\([a-z]+\))? )?(?:const|static) (\w+):[^;=]*=", re.M)
ALIAS = re.compile(r"^[ ]*(?:pub(?:\([a-z]+\))? )?type (\w+)(?:<[^=]*>)? = ([^;]*);", re.M)
LITERAL = r"(?:0x[\da-fA-F_]+|0b[01_]+|\d[\d_]*)(?:[ui]\w+)?"
PRODUCT = re.compile(rf"(?<![\w.]){LITERAL}(?: (?:\*|<<) {LITERAL})*")
SHIFT = re.compile(r"(?<![\d_] )<<=? (\d+)")
LARGEST = re.compile(r"\b[ui](?:32|64|128|size)::(?:MAX|MIN)\b|\.pow\(|(?<![\w)\]])!0\b|-\d[\d_]*(?:i\w+)? as u")
# What stands in each line that one of these may be in.
MAY_BE_LARGE = re.compile(r"\d\d|<<|pow|!0|-\d|[A-Z]{2}")
LIMIT = 1 << 20


class Code:
    """A file of sources: its code without imports, types and the heads and contracts of functions; the functions and constants in it by
    their places."""

    def __init__(self, source):
        self.source = source
        self.file = f"{source.crate}/{source.place().split('/src/')[1]}"
        spans = [used.span() for used in USE.finditer(source.text)]
        spans += [(found.start(), found.start() + len(source.item_at(found))) for found in TYPE.finditer(source.text)]
        spans += [(function.at, function.end - len(function.body)) for function in source.functions]
        self.text = without(source.text, sorted(spans))
        self.consts = [(found.start(), self.text.index(";", found.end()), found[1]) for found in CONST.finditer(self.text)]

    def around(self, place):
        """The function or the constant around a place."""
        functions = [function.label() for function in self.source.functions if function.at <= place < function.end]
        consts = [name for start, end, name in self.consts if start <= place < end]
        return [*consts, *functions, "outside"][0]

    @functools.cached_property
    def lines(self):
        """Each line that isn't blank, with its place."""
        return [(found.start(), found[0]) for found in re.finditer(r"^.*\S.*$", self.text, re.M)]

    def places(self, count):
        """How often something stands in it, as `count` counts it in a line, by file and function."""
        found = collections.Counter()
        for place, line in self.lines:
            times = count(line)
            if times:
                found[self.file, self.around(place)] += times
        return found


def without(text, spans):
    """A text with blanks in the place of some spans, which may overlap; the lines stay."""
    parts, at = [], 0
    for start, end in spans:
        if end > at:
            parts += [text[at:start], re.sub(r"[^\n]", " ", text[max(at, start):end])]
            at = end
    return "".join([*parts, text[at:]])


@functools.lru_cache(maxsize=None)
def code_of(source):
    return Code(source)


def read_code(top):
    """The code of all crates but those of tests."""
    crates = [name for name in sorted(os.listdir(os.path.join(top, "crates"))) if not LEFT_OUT.match(name)]
    return [code_of(source) for source in read_sources(top, crates).values()]


def expression(line):
    """What of a line can make a value: where it has arms of a `match`, what follows each '=>', and what stands before the first '{'."""
    matched, *arms = line.split("=>")
    if not arms:
        return line
    return " ".join([matched.rpartition("{")[0], *(arm.rpartition(",")[0] for arm in arms[:-1]), arms[-1]])


def other_names(code, watched, alone):
    """Imports that bring one of the watched names under another, or one that never stands alone, or all names; and types that are one of
    the watched under another name."""
    for used in USE.finditer(code.source.text):
        for path, name in paths_of(re.sub(r"\s+", " ", used[1])):
            last = path.split("::")[-1].strip()
            if last in watched and name != last or last in alone or last == "*":
                yield f"{code.file} imports {path} as {name}" if name != last else f"{code.file} imports {path}"
    for name, text in ALIAS.findall(code.source.text):
        if text.split("::")[-1].strip() in watched:
            yield f"{code.file} has a type {name} that is {text}"


def large_constants(codes):
    """The names of constants that are large numbers, by what they are made of."""
    texts = [(name, code.text[start:end].partition("=")[2]) for code in codes for start, end, name in code.consts]
    names, before = set(), None
    while names != before:
        before = names
        names = {name for name, text in texts if large_numbers(text, before)}
    return names


def large_numbers(line, constants):
    """How many numbers past 2^20 a line has: literals and their products, the largest ones of types, shifts, and constants."""
    if not MAY_BE_LARGE.search(line):
        return 0
    literals = sum(value_of(product) > LIMIT for product in PRODUCT.findall(line))
    shifts = sum(int(by) >= 20 for by in SHIFT.findall(line))
    return literals + shifts + len(LARGEST.findall(line)) + sum(word in constants for word in re.findall(r"\w+", line))


def value_of(product):
    """The number that literals between '*' and '<<' are; a width past 64 bits is one of 64."""
    parts = re.split(r" (\*|<<) ", product)
    value = number_of(parts[0])
    for operator, text in zip(parts[1::2], parts[2::2]):
        value = value * number_of(text) if operator == "*" else value << min(number_of(text), 64)
    return value


def number_of(text):
    """The number of a literal, whose type may stand behind it."""
    digits = re.sub(r"[ui](?:8|16|32|64|128|size)$", "", text).replace("_", "")
    return int(digits, {"0x": 16, "0b": 2}.get(digits[:2], 10))
