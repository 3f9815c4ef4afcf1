# Independent implementation that computes the tests' expected values; no part of the product.
"""What is told of a source that is refused: the fault, the word that has it, and the way of the run that met it."""

from charstrings import command
from faults import Fault
from runs import DEEPEST, End, Font, Run
from source import joined


class Traced(Run):
    """A run that knows its way: of each body that is entered and not left its key, and the index of its word."""

    def follow(self, name):
        """Runs a glyph: the fault of its own run, or None."""
        self.way, self.key = [], name
        try:
            self.body(self.glyphs[name], 0)
        except End:
            return None
        except Fault as fault:
            return fault
        self.way = [[name, len(self.glyphs[name])]]
        return Fault("F35")

    def call(self, value, depth):
        self.key = int(value)
        super().call(value, depth)

    def body(self, commands, depth):
        step = [self.key, -1]
        self.way.append(step)
        super().body(self.counted(commands, step), depth)
        self.way.pop()

    def counted(self, commands, step):
        for step[1], it in enumerate(commands):
            yield it


def is_word(word):
    try:
        command(word)
    except Fault:
        return False
    return True


def met(font, name, levels=DEEPEST):
    """The way to the fault of a glyph's own run, else of its base's, else of its accent's."""
    run = Traced(font.subrs, font.glyphs)
    if run.follow(name):
        return run.way
    parts = font.own(name).composite
    if parts is None or levels == 0:
        return None
    return met(font, parts.base, levels - 1) or met(font, parts.accent, levels - 1)


def body(source, key):
    """The words of a glyph, by its name, or of a Subr, by its number."""
    return (source.subrs() if isinstance(key, int) else source.glyphs())[key].words


def key_of(place):
    kind, _, key = place.partition(b" ")
    return {b"glyph": key, b"subr": int(key) if kind == b"subr" else None}.get(kind)


def word_line(words, index):
    return [b"word %d %s" % (index + 1, words[index])] if index < len(words) else []


def way_line(way):
    name, *subrs = [key for key, _ in way]
    return b", subr ".join([b"in glyph " + name, *(b"%d" % it for it in subrs)])


def detail(source, fault):
    key = key_of(fault.place)
    if fault.code in ("F20", "F21"):
        words = body(source, key)
        return word_line(words, next(at for at, word in enumerate(words) if not is_word(word)))
    if not isinstance(key, bytes) or fault.code == "F22":
        return []
    way = met(Font(source), key)
    return [] if way is None else [*word_line(body(source, way[-1][0]), way[-1][1]), way_line(way)]


def refusal_text(source, fault):
    return joined([fault.text(), *detail(source, fault)])
