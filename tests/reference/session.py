# Independent implementation that computes the tests' expected values; no part of the product.
"""A session: the answers to an input."""

from edits import Edit, edited, form_of, in_range, takes_body
from faults import Broken, Fault
from metrics import afm, names, uses
from outlines import outline_text
from pfb import LARGEST, assembly_fault, pfa, pfb
from refusals import refusal_text
from runs import Font
from source import joined, kern_text, lines, printed, trimmed, words

PRINTS = (b"pfb", b"afm", b"source", b"kern", b"uses", b"pfa")
SHOWS = (b"glyph", b"subr", b"metrics", b"outline")  # (each of one entry)
SHOWS_ALONE = ((b"show", b"encoding"), (b"show", b"refusal"))
BATCHES = ((b"begin",), (b"commit",), (b"abort",))


def judged(source):
    """The font of a source without a fault; raises the first fault."""
    fault = assembly_fault(source)
    if fault is None:
        font = Font(source)
        fault = font.fault()
    if fault:
        raise fault
    return font


def commands(text):
    """The commands of an input: the words of the line, the body or None, and whether the body was left open."""
    found, rest = [], iter(lines(text))
    for line in rest:
        these = tuple(words(line))
        if takes_body(these):
            body, is_open = [], True
            for inner in rest:
                if trimmed(inner) == b".":
                    is_open = False
                    break
                body.append(inner)
            found.append((these, joined(body), is_open))
        elif these:
            found.append((these, b"", False))
    return found


class Session:
    """With runs=False no glyph is run, and only edits and the prints of source, pairs and PFB are known."""

    def __init__(self, source, pairs, runs=True):
        self.source, self.pairs, self.batch, self.runs = source, pairs, None, runs
        self.refused = None  # what show refusal tells of: a rule's code, or a source with its fault
        self.font = self.judged(source)

    def judged(self, source):
        if self.runs:
            return judged(source)
        fault = assembly_fault(source)
        if fault:
            raise fault
        return None

    def knows(self, these):
        """Whether the words are a command of this session."""
        if these[0] == b"print":
            prints = PRINTS if self.runs else (b"pfb", b"source", b"kern")
            return these[1:2] and these[1] in prints and len(these) <= 2 + (these[1] == b"pfb" and self.runs)
        if these[0] == b"show":
            return self.runs and (these in SHOWS_ALONE or len(these) == 3 and these[1] in SHOWS)
        if these in BATCHES or these[:2] == (b"set", b"leniv"):
            return self.runs and (these in BATCHES or len(these) == 3)
        return form_of(these) is not None

    def answers(self, text):
        return b"".join(self.answer(*command) for command in commands(text))

    def answer(self, these, body, is_open):
        try:
            return self.perform(these, body, is_open)
        except Broken as broken:
            return b"refused " + broken.rule.encode() + b"\n"
        except Fault as fault:
            return b"refused " + fault.text() + b"\n"

    def perform(self, these, body, is_open):
        if not self.knows(these):
            raise Broken("E8")
        if these[0] == b"print":
            text = self.printed(these[1], these[2:])
            return b"data %d\n%s\n" % (len(text), text)
        if these[0] == b"show":
            text = self.shown(these[1], *these[2:])
            if text is None:
                raise Broken("E1")
            return b"data %d\n%s\n" % (len(text), text)
        if is_open:
            raise Broken("E7")
        try:
            self.change(these, body)
        except Broken as broken:
            self.refused = broken.rule
            raise
        self.refused = None
        return b"ok\n"

    def change(self, these, body):
        if these in BATCHES:
            self.change_batch(these[0])
            return
        edit = Edit(these, body)
        if self.batch is not None:
            self.batch = edited(*self.batch, edit)
        else:
            self.take(*edited(self.source, self.pairs, edit))

    def take(self, source, pairs):
        if source != self.source:
            try:
                self.font = self.judged(source)
            except Fault as fault:
                self.refused = source, fault
                raise
        self.source, self.pairs = source, pairs

    def change_batch(self, verb):
        if verb == b"begin":
            if self.batch is not None:
                raise Broken("E11")
            self.batch = self.source, self.pairs
            return
        if self.batch is None:
            raise Broken("E12")
        batch, self.batch = self.batch, None
        if verb == b"commit":
            self.take(*batch)

    def printed(self, what, more):
        if what == b"pfb":
            block = in_range(more[0], 1, LARGEST) if more else LARGEST
            if block is None:
                raise Broken("E4")
            return pfb(self.source, block)
        if what == b"afm":
            return afm(self.source, self.pairs, self.font)
        if what == b"pfa":
            return pfa(self.source)
        if what == b"uses":
            return uses(self.font)
        return self.source.text() if what == b"source" else kern_text(self.pairs)

    def shown(self, what, subject=None):
        """What a query shows; None where there is no such glyph or Subr."""
        if what == b"refusal":
            return self.refusal()
        if what == b"encoding":
            return joined(b"%d %s" % named for named in names(self.source).items())
        if what == b"metrics":
            found = (it for it in lines(afm(self.source, self.pairs, self.font)) if it.startswith(b"C "))
            return next((it + b"\n" for it in found if it.split(b" ; ")[2] == b"N " + subject), None)
        if what == b"outline":
            return outline_text(self.font.outline(subject)) if subject in self.font.glyphs else None
        if what == b"glyph":
            entry = self.source.glyphs().get(subject)
        else:
            entry = self.source.subrs().get(in_range(subject, 0, 32000))
        return None if entry is None else joined(printed(entry)[1:-1])

    def refusal(self):
        """What is told of the last refusal, unless an edit, begin, commit or abort was accepted since."""
        if self.refused is None:
            return b""
        if isinstance(self.refused, str):
            return joined([self.refused.encode()])
        return refusal_text(*self.refused)
