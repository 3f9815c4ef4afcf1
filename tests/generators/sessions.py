# Generators of random inputs for the tests; no part of the product.
"""Commands of a session, chosen by what its font holds, and counts of what became of them."""

from collections import Counter

from generators.fonts import CODE_OF, FONT_NAMES, glyph_body, parts
from charstrings import STANDARD
from session import commands

GOOD_NAMES = FONT_NAMES + b"c e f g dotlessi B".split()
NAMES = GOOD_NAMES + b"x; (".split()
GOOD_SUBRS = b"0 1 2 3 4 5 6 7 8 9 10 32000".split()
SUBRS = GOOD_SUBRS + b"32001 -1 x 04".split()
GOOD_CODES = b"32 65 66 0 255".split()
CODES = GOOD_CODES + b"256 -1 8#40 x".split()
VALUES = b"0 -92 7 007 -0 32000 32001 -32000 +5 1.5".split()
LENGTHS = b"1 2 3 40 532 4096 2147483647 2147483648 0 -5 x 007".split()
LISTS = {b"NAME": NAMES, b"SUBR": SUBRS, b"CODE": CODES, b"VALUE": VALUES, b"LENGTH": LENGTHS}
ANY = b"""
replace glyph NAME|replace subr SUBR|add glyph NAME|add subr SUBR|remove glyph NAME|remove subr SUBR|encode CODE NAME
unencode CODE|kern NAME NAME VALUE|unkern NAME NAME|frobnicate|replace glyph|add glyph A B|print|kern A V|begin now
set leniv VALUE|set leniv CODE|print pfb LENGTH|print pfb 1 2|print pfa 1|commit|abort|abort A|print sources
show|show glyph NAME|show subr SUBR|show metrics NAME|show outline NAME|show encoding|show encoding A|show refusal|show refusal A|show glyph|show subr 3 4|show metric A
""".strip().replace(b"\n", b"|").split(b"|")
WRONG = b"""
% } {|}|moveto|2147483648|pop|0 div|32001 hmoveto|93 170 214 65 194 seac|0 0 0 65 32 seac|9 callsubr|
""".strip().split(b"|")
PRINTS = [b"print pfb", b"print afm", b"print source", b"print kern", b"print uses"]
ENDS = (b"\n", b"\n", b"\n", b"\n", b"\r\n", b" \r", b"\t\n\n")
# how often each comes, outside a batch and in one
WEIGHTS = {
    "replace glyph": (20, 20),
    "add glyph": (14, 14),
    "remove glyph": (5, 5),
    "replace subr": (7, 7),
    "add subr": (5, 5),
    "remove subr": (3, 3),
    "encode": (4, 4),
    "unencode": (2, 2),
    "kern": (7, 7),
    "unkern": (3, 3),
    "print": (20, 10),
    "begin": (6, 1),
    "commit": (1, 14),
    "abort": (1, 3),
    "set leniv": (2, 2),
    "print pfa": (1, 1),
    "print pfb N": (1, 1),
    "show": (10, 6),
    "any": (6, 6),
}
KINDS = [kind for kind in WEIGHTS if kind not in ("print", "any")]


class Chooser:
    """Chooses commands for a session of the reference."""

    def __init__(self, chance, session):
        self.chance, self.session = chance, session

    def source(self):
        return (self.session.batch or (self.session.source,))[0]

    def of(self, these, others):
        """Mostly one of the first."""
        return self.chance.choice(list(these) if these and self.chance.randrange(12) else others)

    def command(self):
        weights = [pair[self.session.batch is not None] for pair in WEIGHTS.values()]
        kind = self.chance.choices(list(WEIGHTS), weights)[0]
        words = self.words(kind).split()
        text = b" ".join(words) + self.chance.choice(ENDS)
        if words[0] in (b"replace", b"add") and words[1:2] in ([b"glyph"], [b"subr"]):
            lines = self.glyph(words[-1]) if words[1] == b"glyph" else self.subr(words[-1])
            text += b"".join(line + self.chance.choice(ENDS) for line in [*lines, self.chance.choice((b".", b" ."))])
        return text

    def words(self, kind):
        source, verb = self.source(), kind.encode()
        if self.chance.randrange(4) and self.is_refused(kind, source):
            kind, verb = "add glyph", b"add glyph"
        glyphs, subrs = source.glyphs(), [b"%d" % it for it in source.subrs()]
        if kind in ("replace glyph", "remove glyph"):
            return verb + b" " + self.of(glyphs, NAMES)
        if kind == "add glyph":
            return verb + b" " + self.of([it for it in GOOD_NAMES if it not in glyphs], NAMES)
        if kind in ("replace subr", "remove subr"):
            return verb + b" " + self.of(subrs, SUBRS)
        if kind == "add subr":
            return verb + b" " + self.of([it for it in GOOD_SUBRS if it not in subrs], SUBRS)
        if kind == "encode":
            return b"encode %s %s" % (self.of(GOOD_CODES, CODES), self.of(glyphs, NAMES))
        if kind == "unencode":
            array = source.encoding()
            return b"unencode " + self.of([b"%d" % slot[0] for slot in array.slots.values()] if array else [], CODES)
        if kind == "kern":
            return b"kern %s %s %d" % (self.of(glyphs, NAMES), self.of(glyphs, NAMES), self.chance.randint(-200, 200))
        if kind == "unkern":
            pairs = (self.session.batch or (None, self.session.pairs))[1]
            return b"unkern " + self.of([b" ".join(it) for it in pairs], [b"A V", b"V A"])
        if kind == "print":
            return self.chance.choice(PRINTS)
        if kind == "show":
            what = self.chance.choice((b"glyph", b"subr", b"metrics", b"outline", b"encoding", b"refusal", b"refusal"))
            subject = {b"encoding": b"", b"refusal": b"", b"subr": self.of(subrs, SUBRS)}.get(what, self.of(glyphs, NAMES))
            return b" ".join((b"show", what, subject))
        if kind == "set leniv":
            return b"set leniv %d" % self.chance.choice((0, 1, 4, 4, 64))
        if kind == "print pfb N":
            return b"print pfb " + self.chance.choice(LENGTHS)
        if kind == "any":
            return b" ".join(self.chance.choice(LISTS.get(it, [it])) for it in self.chance.choice(ANY).split())
        return verb

    def is_refused(self, kind, source):
        """Whether the font lacks what an edit of this kind needs."""
        if kind in ("encode", "unencode"):
            return source.encoding() is None
        return kind.endswith("subr") and source.section("Subrs") is None

    def calls(self, below=32001):
        """Calls of the Subrs that are there."""
        found = []
        for number in self.source().subrs():
            if 3 <= number < below:
                found += [b"%d callsubr" % number] * 4
                found += [b"%d 2 div callsubr" % (2 * number), b"%d 1 3 callothersubr pop callsubr" % number]
        return found

    def glyph(self, name):
        """A body, not seldom a composite's."""
        if self.chance.randrange(15) == 0:
            return [b"0 250 hsbw", self.chance.choice(WRONG), b"endchar"]
        glyphs = [it for it in self.source().glyphs() if it != name and it in CODE_OF]
        if glyphs and self.chance.randrange(3) == 0:
            return self.composite(glyphs)
        # (so few names that no part is missing)
        return glyph_body(self.chance, glyphs[:3], self.calls())

    def composite(self, glyphs):
        """A composite, on other composites rather than not."""
        entries = self.source().glyphs()
        some = [self.chance.choice(glyphs) for _ in range(self.chance.choice((1, 3, 6)))]
        base = max(some, key=lambda it: words_depth(entries, it))
        codes = [CODE_OF[base], CODE_OF[self.chance.choice(glyphs)]]
        self.chance.shuffle(codes)
        move = self.chance.choice((b"93 170 214", b"0 0 0", b"0 1 2 div 86", b"0 -5 1 3 div", b"7 -300 40"))
        return [b"%d 600 hsbw" % self.chance.choice((0, 10)), b"%s %d %d seac" % (move, *codes)]

    def subr(self, word):
        """A body that calls only Subrs below it, so that runs end soon."""
        if self.chance.randrange(12) == 0:
            return [self.chance.choice(WRONG)]
        number = int(word) if word.isdigit() else 0
        if number < 3 and self.chance.randrange(4):
            # those of flex stay what they are
            return [[b"3 0 callothersubr pop pop setcurrentpoint", b"0 1 callothersubr", b"0 2 callothersubr"][number]]
        lines = parts(self.chance, self.calls(number))
        return lines + self.chance.choice(([b"return"], [b"return"], []))


def words_depth(entries, name, most=6):
    """How deep the composites under a name seem to be, by the words of bodies."""
    words = entries[name].words if name in entries else ()
    if words[-1:] != (b"seac",) or most == 0:
        return 0
    parts = [STANDARD.get(int(it)) if it.isdigit() else None for it in words[-3:-1]]
    return 1 + max(words_depth(entries, it, most - 1) for it in parts)


class Tally:
    """What became of the commands."""

    def __init__(self):
        self.ends, self.reported, self.deep = Counter(), Counter(), Counter()

    def count(self, words, answer, session):
        kind = next((it for it in KINDS if b" ".join(words).startswith(it.encode())), "others")
        kind = "print" if words[0] == b"print" else kind
        end = "refused" if answer.startswith(b"refused") else "accepted"
        self.ends[kind, end] += 1
        if end == "refused":
            self.reported[answer.split()[1].decode()] += 1
        elif kind not in ("print", "show") and session.batch is None and session.font:
            self.deep += Counter(depths(session.font))

    def lines(self):
        yield "accepted and refused: " + ", ".join(
            f"{kind} {self.ends[kind, 'accepted']} and {self.ends[kind, 'refused']}"
            for kind in [*KINDS, "print", "others"]
            if self.ends[kind, "accepted"] + self.ends[kind, "refused"]
        )
        edits = [kind for kind in KINDS if kind not in ("begin", "commit", "abort", "print pfa", "print pfb N", "show")]
        taken, refused = (sum(self.ends[kind, end] for kind in edits) for end in ("accepted", "refused"))
        yield f"of {taken + refused} edits {100 * taken // max(1, taken + refused)}% were accepted"
        reported = sorted(self.reported, key=lambda it: (it[0] == "F", len(it), it))
        yield "refused by: " + ", ".join(f"{it} {self.reported[it]}" for it in reported)
        deep = [f"{self.deep[it]} of depth {it}" for it in sorted(self.deep)]
        yield "composites in fonts after accepted edits: " + (", ".join(deep) or "none")


def depths(font):
    """The depth of each composite: 1 where both parts are plain."""
    found = {}

    def depth(name):
        if name not in found:
            parts = font.own(name).composite
            found[name] = 1 + max(depth(parts.base), depth(parts.accent)) if parts else 0
        return found[name]

    return [it for it in map(depth, font.glyphs) if it]


def random_commands(chance, session, tally, count, recount=None):
    """The input, and what the session answers; a recount notes both."""
    chooser, given, answers = Chooser(chance, session), [], []
    last = [it + b"\n" for it in PRINTS]
    for index in range(count + len(last)):
        text = chooser.command() if index < count else last[index - count]
        given.append(text)
        for words, body, is_open in commands(text):
            answers.append(session.answer(words, body, is_open))
            tally.count(words, answers[-1], session)
            if recount:
                recount.note(words, body, answers[-1].rstrip())
    return b"".join(given), b"".join(answers)
