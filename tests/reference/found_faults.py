# Independent implementation that computes the tests' expected values; no part of the product.
"""Every fault of a source, each where it stands: its line, its column, the word, a hint, and the calls on the way to it."""

from dataclasses import dataclass, field

from charstrings import COMMANDS, LONGEST_BODY, command
from faults import Fault
from runs import DEEPEST, LARGEST_OPERAND, STANDARD, End, Font, Run
from source import BLANKS, BODY_WORD, Entry, Section, lines, opens_entry, read_private, read_source, trimmed

POSTSCRIPT = {b"moveto": b"rmoveto", b"lineto": b"rlineto", b"curveto": b"rrcurveto"}
BY_CODE = sorted(COMMANDS, key=lambda name: COMMANDS[name][0])
MOST_EDITS = 2


@dataclass
class Found:
    """A fault: its code, its place as check tells it, its line and column from 1, the bytes that stand there where a word is at
    fault, a hint, and, where it stands in a Subr, the chains of calls through which it was met: of each the glyph's name, and the
    Subrs in turn. With it are told the composites on glyphs that it is the first to name. A fault that is nowhere has no place;
    those of a source as a whole stand at its front."""

    code: str
    place: bytes
    line: int
    column: int
    word: bytes = None
    hint: str = ""
    chains: list = field(default_factory=list)
    composites: list = field(default_factory=list)

    def glyphs(self):
        """The glyphs that it names: the one in whose entry it stands, or those whose runs met it in a Subr."""
        return {self.place[6:]} if self.place.startswith(b"glyph ") else {name for name, _ in self.chains}


@dataclass(frozen=True)
class Placed:
    """An entry where it stands: its first line, the column of its first word there, and each word of its body as its line, its
    column and itself."""

    entry: Entry
    line: int
    column: int
    words: tuple

    def fault(self, code):
        """A fault of the entry as a whole."""
        return Found(code, self.entry.place(), self.line, self.column)

    def fault_at(self, index, code, hint=""):
        """A fault of a word of its body."""
        line, column, word = self.words[index]
        return Found(code, self.entry.place(), line, column, word, hint)


# Where things stand

def column_of(line):
    """The column of the first byte that is no blank, or of the line's end."""
    return 1 + len(line) - len(line.lstrip(BLANKS))


def placed_entries(text):
    """The entries of a source that reads, in its order."""
    all_lines = lines(text)
    eexec = next(at for at, line in enumerate(all_lines) if trimmed(line).endswith(b"currentfile eexec"))
    closefile = next(
        at for at, line in enumerate(all_lines) if at > eexec and trimmed(line).endswith(b"mark currentfile closefile")
    )
    items, numbers = read_private(all_lines, eexec + 1, closefile)
    section, found = None, []
    for item, number in zip(items, numbers):
        if isinstance(item, Section):
            section = item.kind
        if isinstance(item, Entry):
            words = placed_words(all_lines, number, opens_entry(all_lines[number], section)[1])
            found.append(Placed(item, number + 1, column_of(all_lines[number]), words))
    return found


def placed_words(all_lines, index, start):
    words = []
    while True:
        for match in BODY_WORD.finditer(all_lines[index], start):
            if match[0] == b"%":
                break
            if match[0] == b"}":
                return tuple(words)
            words.append((index + 1, match.start() + 1, match[0]))
        index, start = index + 1, 0


# Faults of reading

def reading_fault(text, fault):
    """A fault of reading a source, or a kerning file, on its line or at the front."""
    if not fault.place.startswith(b"line "):
        return Found(fault.code, fault.place, 1, 1)
    number = int(fault.place[5:])
    line = lines(text)[number - 1]
    hint = first_of_key(text, number) if fault.code in ("F9", "F10") else ""
    return Found(fault.code, fault.place, number, column_of(line), trimmed(line), hint)


def first_of_key(text, number):
    """Where the entry stands that has the same number or name as the one that begins on a line."""
    all_lines = lines(text)
    eexec = next(at for at, line in enumerate(all_lines) if trimmed(line).endswith(b"currentfile eexec"))
    before, numbers = read_private(all_lines[:number], eexec + 1, number - 1)
    section = [item.kind for item in before if isinstance(item, Section)][-1]
    token = opens_entry(all_lines[number - 1], section)[0]
    key = int(token) if section == "Subrs" else token[1:]
    return next("first on line %d" % (at + 1) for item, at in zip(before, numbers) if isinstance(item, Entry) and item.key == key)


# Faults of words

def word_code(word):
    try:
        command(word)
    except Fault as fault:
        return fault.code
    return None


def edits_between(one, other):
    """How many bytes must be put in, taken out or replaced to make one word of the other."""
    row = list(range(len(other) + 1))
    for above, byte in enumerate(one, 1):
        last, row[0] = row[0], above
        for at, it in enumerate(other, 1):
            last, row[at] = row[at], min(row[at] + 1, row[at - 1] + 1, last + (byte != it))
    return row[-1]


def word_hint(word):
    """The command that was meant, most likely: that of PostScript's word, else the first by code that the fewest edits make."""
    if word in POSTSCRIPT:
        return POSTSCRIPT[word].decode() + "?"
    if not word.isalpha():
        return ""
    near = min(BY_CODE, key=lambda name: edits_between(word, name))
    return near.decode() + "?" if edits_between(word, near) <= MOST_EDITS else ""


def body_faults(placed):
    found = [placed.fault("F22")] if len(placed.words) > LONGEST_BODY else []
    for index, (_, _, word) in enumerate(placed.words):
        code = word_code(word)
        if code:
            found.append(placed.fault_at(index, code, word_hint(word) if code == "F20" else ""))
    return found


# Faults of runs

class Way(Run):
    """A run that knows its way: of each body that is entered and not left its key, and the index of its word."""

    def __init__(self, subrs, glyphs, name):
        super().__init__(subrs, glyphs)
        self.way, self.key = [], name

    def body(self, commands, depth):
        step = [self.key, None]
        self.way.append(step)
        super().body(self.counted(commands, step), depth)
        step[1] = None  # (after its last word)
        if depth:
            self.way.pop()

    def counted(self, commands, step):
        for index, it in enumerate(commands):
            step[1] = index
            yield it

    def call(self, value, depth):
        self.key = int(value)
        super().call(value, depth)


def way_of(subrs, glyphs, name):
    """The run of a glyph, and the code of its fault, or None."""
    run = Way(subrs, glyphs, name)
    try:
        run.body(glyphs[name], 0)
    except End:
        return run, None
    except Fault as fault:
        return run, fault.code
    return run, "F35"


def number_of(value):
    return str(value.numerator) if value.denominator == 1 else "%d/%d" % (value.numerator, value.denominator)


def run_hint(run, code, word):
    """What there is to say of a run's fault beside the word, by the values before it."""
    stack = run.stack
    if code == "F30":
        wanted = COMMANDS[word][1]
        if len(stack) >= wanted:  # (of callothersubr, whose arguments are missing)
            wanted += int(stack[-2])
        return "%d value%s, %d wanted" % (len(stack), "" if len(stack) == 1 else "s", wanted)
    if code == "F32":
        return "no Subr %d" % run.key
    if code == "F37":
        return number_of(stack[-2] / stack[-1] if word == b"div" else too_large(stack, word))
    if code == "F41":
        count = None if run.flex is None else len(run.flex[1])
        return "" if count is None else "%d point%s recorded" % (count, "" if count == 1 else "s")
    if code == "F42":
        return "othersubr " + number_of(stack[-1])
    if code == "F44":
        return "code " + number_of(next(it for it in stack[-2:] if it not in STANDARD))
    if code == "F45":
        return "no glyph " + next(it for it in (STANDARD[int(it)] for it in stack[-2:]) if it not in run.glyphs).decode()
    return ""


def too_large(stack, word):
    """The first operand past the limit; callothersubr looks at its number and its count before its arguments."""
    operands = stack[len(stack) - COMMANDS[word][1] :]
    if word == b"callothersubr":
        count, number = operands
        operands = [number, count, *stack[len(stack) - 2 - int(abs(count)) : -2]]
    return next(it for it in operands if abs(it) > LARGEST_OPERAND)


class Bodies:
    """The bodies of a source: the commands of those without a fault, and which Subrs have one."""

    def __init__(self, entries, of_words):
        self.subrs, self.glyphs, self.broken = {}, {}, set()
        for placed in entries:
            key, is_sound = placed.entry.key, not of_words[placed.entry.key]
            if placed.entry.is_subr() and not is_sound:
                self.broken.add(key)
                continue
            bodies = self.subrs if placed.entry.is_subr() else self.glyphs
            bodies[key] = [command(word) for _, _, word in placed.words] if is_sound else []


def run_faults(entries, bodies, of_words):
    """The faults of runs by the key of the entry that each stands in, and the runs without a fault by glyph."""
    found, runs, in_subrs = {}, {}, {}
    by_key = {placed.entry.key: placed for placed in entries}
    for name in (placed.entry.key for placed in entries if not placed.entry.is_subr() and not of_words[placed.entry.key]):
        run, code = way_of(bodies.subrs, bodies.glyphs, name)
        if code is None:
            runs[name] = run
        elif code != "F32" or run.key not in bodies.broken:
            key, index = run.way[-1]
            at = by_key[key]
            if index is None:
                found[key] = [at.fault(code)]
                continue
            fault = at.fault_at(index, code, run_hint(run, code, at.words[index][2]))
            if key != name:
                fault = in_subrs.setdefault((key, index, code), fault)
                fault.chains.append((name, [number for number, _ in run.way[1:]]))
            else:
                found[key] = [fault]
    for (key, _, _), fault in sorted(in_subrs.items(), key=lambda it: it[0][:2]):
        found.setdefault(key, []).append(fault)
    return found, runs


# Faults of joins

class Unsound(Exception):
    """The own run of a glyph or of a part has a fault, which is told there."""


class Joins(Font):
    """Outlines over own runs that are known to have no fault."""

    def __init__(self, runs):
        self.runs = runs

    def own(self, name):
        if name not in self.runs:
            raise Unsound
        return self.runs[name]

    def judge(self, name, depth=1):
        """Whether all parts, nested so deep, are sound."""
        run = self.own(name)
        if run.composite and depth <= DEEPEST:
            self.judge(run.composite.base, depth + 1)
            self.judge(run.composite.accent, depth + 1)

    def code(self, name):
        try:
            self.judge(name)
            self.outline(name)
        except Unsound:
            return None
        except Fault as fault:
            return fault.code
        return None


# The composites on glyphs that have faults

def parts_of(name, runs):
    """The glyphs on which a composite stands whose own run has no fault, and those on which these stand, nested so deep."""
    found, level = set(), {name}
    for _ in range(DEEPEST):
        composites = [runs[it].composite for it in level if it in runs and runs[it].composite]
        level = {part for it in composites for part in (it.base, it.accent)}
        found |= level
    return found


def tell_composites(found, names, runs):
    """Gives each fault the composites on the glyphs with faults that no fault before it names."""
    under = {name: parts_of(name, runs) for name in names}
    left = set(names) - set(runs)
    for fault in found:
        glyphs = fault.glyphs() & left
        left -= glyphs
        fault.composites = [name for name in names if under[name] & glyphs]


# All of a source

def is_too_long(source):
    """Whether a section's count has more than nine digits; no part of a test's file is too long."""
    return any(isinstance(item, Section) and item.count > 999999999 for item in source.items)


def found_faults(text):
    """Every fault of a source, in its order, then that of its files' parts, then those of joins."""
    try:
        source = read_source(text)
    except Fault as fault:
        return [reading_fault(text, fault)]
    entries = placed_entries(text)
    of_words = {placed.entry.key: body_faults(placed) for placed in entries}
    of_runs, runs = run_faults(entries, Bodies(entries, of_words), of_words)
    found = [fault for placed in entries for fault in of_words[placed.entry.key] or of_runs.get(placed.entry.key, [])]
    if not any(of_words.values()) and is_too_long(source):
        found.append(Found("F23", b"", 1, 1))
    joins = Joins(runs)
    for placed in entries:
        code = None if placed.entry.is_subr() else joins.code(placed.entry.key)
        if code:
            found.append(placed.fault(code))
    tell_composites(found, [placed.entry.key for placed in entries if not placed.entry.is_subr()], runs)
    return found
