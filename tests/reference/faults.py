# Independent implementation that computes the tests' expected values; no part of the product.
"""Faults of a source, and rules that an edit breaks."""


class Fault(Exception):
    """A code F1 to F48, and where it stands: "line 5", "subr 7", "glyph space", or nothing."""

    def __init__(self, code, place=b""):
        super().__init__(code, place)
        self.code, self.place = code, place

    def text(self):
        return self.code.encode() + (b" " + self.place if self.place else b"")


class Broken(Exception):
    """A rule E1 to E12 that a command breaks."""

    def __init__(self, rule):
        super().__init__(rule)
        self.rule = rule


def at_line(index):
    """The place of the line with this index, which counts from 0."""
    return b"line %d" % (index + 1)
