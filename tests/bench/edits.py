# Measuring programs from outside, for the tests; no part of the product.
"""What the edits of a session take, by the size of the font."""

import os

from bench.fonts import FOOT, HEAD

# Glyphs, and plain lines after each.
FONTS = (500, 0), (5000, 0), (20000, 0), (50000, 0), (5000, 64)
MANY = 5000
RUNS = 3
LEAST_SECONDS = 0.25
MOST_COMMANDS = 100000
BODIES = [f"\t0 500 hsbw\n\t10 20 rmoveto\n\t100 {line}\n\tclosepath\n\tendchar\n" for line in ("hlineto", "vlineto")]
# Milliseconds that are wanted at 50,000 glyphs.
WANTED = {"replace": 0.03, "last": 0.3, "midst": 0.3, "begin, abort": 0.3, "a batch of one": 1}


def name(at):
    return f"g{at:05}"


def write_short(path, glyphs, lines):
    """Writes a font of so many glyphs with short bodies, and so many plain lines after each."""
    with open(path, "w", newline="\n") as file:
        file.write(HEAD % (glyphs + 1))
        for at in range(glyphs):
            file.write(f"/{name(at)} {{\n{BODIES[at % 2]}\t}} ND\n" + "% a plain line\n" * lines)
        file.write(FOOT)


def put(verb, at, turn):
    """An edit that replaces or adds the glyph of a number, with another body in each turn."""
    return f"{verb} glyph {name(at)}\n{BODIES[turn % 2]}.\n"


def kinds(glyphs):
    """By its name, how many edits a text counts as, and the text of a turn."""
    midst = glyphs // 2

    def moved(turn):
        at = midst + turn % (midst // 2)
        return f"remove glyph {name(at)}\n" + put("add", at, turn)

    return {
        "replace": (1, lambda turn: put("replace", midst, turn)),
        "last": (2, lambda turn: put("add", glyphs, turn) + f"remove glyph {name(glyphs)}\n"),
        "midst": (2, moved),
        "begin, abort": (1, lambda turn: "begin\nabort\n"),
        "a batch of one": (1, lambda turn: "begin\n" + put("replace", midst, turn) + "commit\n"),
        "a batch of two": (1, lambda turn: "begin\n" + put("replace", midst, turn) + put("replace", midst, turn + 1) + "commit\n"),
    }


class Timed:
    """A session on one font, and the processor time of commands in it."""

    def __init__(self, watch, program, room, glyphs, lines):
        self.watch, self.glyphs = watch, glyphs
        self.source, self.given = os.path.join(room, "short.t1"), os.path.join(room, "edits")
        write_short(self.source, glyphs, lines)
        self.words = [program, "session", self.source]
        self.opened = self.seconds("")

    def seconds(self, text):
        """The least of a session with these commands; more than any where one fails."""
        with open(self.given, "w") as file:
            file.write(text)
        taken = [self.watch.run(self.words, given=self.given) for _ in range(RUNS)]
        return min(float("inf") if it.status else it.seconds for it in taken)

    def each(self, count, text):
        """Milliseconds of an edit, where a text of a turn has so many; as many turns are taken as need a while."""
        turns = 8
        while True:
            seconds = self.seconds("".join(map(text, range(turns)))) - self.opened
            if seconds >= LEAST_SECONDS or turns >= MOST_COMMANDS:
                return seconds / turns / count * 1000
            turns = min(MOST_COMMANDS, int(turns * min(40, 1.2 * LEAST_SECONDS / max(seconds, 1e-3))) + 1)

    def many(self):
        """Milliseconds of an edit in one batch of many, of different glyphs, and of the same edits outside a batch."""
        text = "".join(put("replace", at * (self.glyphs // MANY), at + 1) for at in range(MANY))
        return [(self.seconds(it) - self.opened) / MANY * 1000 for it in (f"begin\n{text}commit\n", text)]


def edit_rows(watch, program, room):
    """The rows of the table, with its head: milliseconds by the font and the kind of edit."""
    rows = [["font", *kinds(2), "an edit of a batch of 5,000", "the same alone", "`open`"]]
    for glyphs, lines in FONTS:
        timed = Timed(watch, program, room, glyphs, lines)
        found = [timed.each(*kind) for kind in kinds(glyphs).values()]
        found += timed.many() if glyphs >= MANY else []
        font = f"{glyphs:,} glyphs" + (f", {lines} lines after each" if lines else "")
        texts = [f"{each:.2g} ms" for each in found] + [""] * (len(rows[0]) - 2 - len(found))
        rows.append([font, *texts, f"{timed.opened * 1000:.3g} ms"])
    rows.append(["wanted at 50,000", *(f"{WANTED[kind]:g} ms" if kind in WANTED else "" for kind in kinds(2)), "", "", ""])
    return rows
