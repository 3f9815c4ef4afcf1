"""The promises of docs/PROVED.md: what its tables 'In plain words' cite for each."""

import re

SECTION = re.compile(r"^## In plain words\n(.*?)(?=^## )", re.M | re.S)
PART = re.compile(r"^### (.*)\n((?:(?!### ).*\n)*)", re.M)
TABLE = re.compile(r"^\| promise \| contract \|\n\|---\|---\|\n((?:\|.*\|\n)+)", re.M)
LEFT = re.compile(r"What ((?:`[^`]+`(?:, | and )?)+) says? is left to \[(.*?)\]")
NAME = re.compile(r"`([^`]+)`")


class Citation:
    """Functions that a promise cites; the words that a clause of each must say, where none stands for all clauses; the words that
    these clauses must stand on; and the ghost items of traits that are left open, whatever an `impl` says of them."""

    def __init__(self, promise, functions, words, inner, open_items):
        self.promise, self.functions, self.words, self.inner, self.open_items = promise, functions, words, inner, open_items


class Part:
    """Promises on one thing, under a heading of their own, and what they leave to a part that comes later."""

    def __init__(self, title, citations, left, later):
        self.title, self.citations, self.left, self.later = title, citations, left, later


def read_parts(path):
    """The parts of the section, in its order, each with all citations of its table."""
    with open(path, encoding="utf-8") as file:
        section = SECTION.search(file.read())
    return [part_of(title, text) for title, text in PART.findall(section[1])] if section else []


def part_of(title, text):
    table, left = TABLE.search(text), LEFT.search(text.replace("\n", " "))
    citations = [citation for row in table[1].splitlines() for citation in citations_of(row)] if table else []
    return Part(title, citations, NAME.findall(left[1]) if left else [], left[2] if left else None)


def citations_of(row):
    """The citations of a row: its second column, cut at semicolons. A name with `::` is a function, any other a word; behind 'in
    it' stand those that the clauses needn't say themselves, behind 'for all' what is left open."""
    promise, contract = row.strip("|").rsplit(" | ", 1)
    title = re.search(r"\*\*(.*?)\*\*", promise)[1].rstrip(".,")
    for text in contract.split(";"):
        text, _, left_open = text.partition(" for all ")
        said, _, inner = text.partition(" in it ")
        names = NAME.findall(said)
        functions, words = [[name for name in names if ("::" in name) == is_path] for is_path in (True, False)]
        yield Citation(title, functions, words, NAME.findall(inner), NAME.findall(left_open))
