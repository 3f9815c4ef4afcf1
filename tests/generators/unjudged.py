# Generators of random inputs for the tests; no part of the product.
"""A session of the reference that judges no glyph."""

from session import Session


class Unjudged(Session):
    """Source and pairs by the rules of edits alone; a fault is for the program to report."""

    def judged(self, source):
        return None

    def state(self):
        return self.source, self.pairs, self.batch

    def restore(self, state):
        self.source, self.pairs, self.batch = state
