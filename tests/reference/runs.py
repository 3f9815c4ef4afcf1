# Independent implementation that computes the tests' expected values; no part of the product.
"""Exact runs of glyphs, and the outlines of composites."""

from dataclasses import dataclass, field
from fractions import Fraction

from charstrings import COMMANDS, STANDARD, compiled
from faults import Fault

MOST_STEPS = 100000
MOST_VALUES = 24
MOST_CALLS = 10
LARGEST_OPERAND = 32000
LARGEST_QUOTIENT = 2**31
LARGEST_COORDINATE = 1048576
FINEST = 1048576
DEEPEST = 4

HINTS = (b"hstem", b"vstem", b"hstem3", b"vstem3", b"dotsection")
MOVES = (b"rmoveto", b"hmoveto", b"vmoveto")
LINES = (b"rlineto", b"hlineto", b"vlineto")
CURVES = (b"rrcurveto", b"vhcurveto", b"hvcurveto")
KEEPS_STACK = (b"div", b"callsubr", b"callothersubr", b"pop", b"return")
WANTS_BEARING = MOVES + LINES + CURVES + (b"closepath", b"seac", b"endchar")
WANTS_NO_FLEX = LINES + CURVES + (b"seac", b"endchar")
COUNTS = {0: (3,), 1: (0,), 2: (0,), 3: (1,), 12: range(23), 13: range(23)}


class End(Exception):
    """endchar or seac."""


@dataclass
class Composite:
    base: bytes
    accent: bytes
    bearing: Fraction
    x: Fraction
    y: Fraction


@dataclass
class Run:
    """A glyph's own run, while it goes on and when it has ended."""

    subrs: dict
    glyphs: dict
    stack: list = field(default_factory=list)
    results: list = field(default_factory=list)
    point: tuple = (Fraction(0), Fraction(0))
    bearing: tuple = None
    width: tuple = None
    flex: tuple = None  # the point before it, and the recorded points
    segments: list = field(default_factory=list)
    moves: list = field(default_factory=list)  # where moves led, for tests/real alone
    steps: int = 0
    entered: set = field(default_factory=set)
    composite: Composite = None

    # Words

    def body(self, commands, depth):
        """Runs a body to its end or to its return; depth counts the Subrs that are active."""
        for command in commands:
            if self.steps == MOST_STEPS:
                raise Fault("F47")
            self.steps += 1
            if isinstance(command, int):
                self.push(Fraction(command))
            elif self.command(command, depth):
                return

    def push(self, value):
        if len(self.stack) == MOST_VALUES:
            raise Fault("F31")
        self.stack.append(value)

    def command(self, name, depth):
        """Runs a command; True for a return."""
        takes = COMMANDS[name][1]
        if len(self.stack) < takes:
            raise Fault("F30")
        if name in WANTS_BEARING and self.bearing is None or name in (b"hsbw", b"sbw") and self.bearing is not None:
            raise Fault("F36")
        operands = self.stack[len(self.stack) - takes :]
        if name not in (b"div", b"callothersubr"):
            for index, value in enumerate(operands):
                is_whole = name == b"callsubr" or name == b"seac" and index >= 3
                judge_operand(value, is_whole)
        if name in WANTS_NO_FLEX and self.flex is not None:
            raise Fault("F41")
        if name == b"callothersubr":
            self.call_other()
        elif name == b"callsubr":
            self.stack.pop()
            self.call(operands[0], depth)
        elif name == b"return":
            if depth == 0:
                raise Fault("F34")
            return True
        elif name == b"pop":
            if not self.results:
                raise Fault("F43")
            self.push(self.results.pop(0))
        elif name == b"div":
            self.stack[-2:] = [quotient(*operands)]
        else:
            self.rule(name, operands)
        if name not in KEEPS_STACK:
            self.stack.clear()
        return False

    def rule(self, name, operands):
        zero = Fraction(0)
        if name == b"hsbw":
            self.bearing, self.width = (operands[0], zero), (operands[1], zero)
            self.point = self.bearing
        elif name == b"sbw":
            self.bearing, self.width = tuple(operands[:2]), tuple(operands[2:])
            self.point = self.bearing
        elif name in MOVES:
            self.point = moved(self.point, *along(name, operands))
            self.moves.append(self.point)
        elif name in LINES:
            self.line(*along(name, operands))
        elif name == b"rrcurveto":
            self.curve(operands)
        elif name == b"vhcurveto":
            self.curve([zero, *operands, zero])
        elif name == b"hvcurveto":
            self.curve([operands[0], zero, operands[1], operands[2], zero, operands[3]])
        elif name == b"setcurrentpoint":
            self.point = tuple(operands)
        elif name == b"endchar":
            raise End
        elif name == b"seac":
            self.seac(*operands)

    def line(self, dx, dy):
        end = moved(self.point, dx, dy)
        self.segments.append((self.point, end))
        self.point = end

    def curve(self, deltas):
        points = [self.point]
        for index in (0, 2, 4):
            points.append(moved(points[-1], deltas[index], deltas[index + 1]))
        self.segments.append(tuple(points))
        self.point = points[-1]

    def seac(self, bearing, x, y, base, accent):
        for it in (base, accent):
            if it not in STANDARD:
                raise Fault("F44")
        names = [STANDARD[int(it)] for it in (base, accent)]
        for it in names:
            if it not in self.glyphs:
                raise Fault("F45")
        self.composite = Composite(*names, bearing, x, y)
        raise End

    # Calls

    def call(self, value, depth):
        number = int(value)
        if number not in self.subrs:
            raise Fault("F32")
        if depth == MOST_CALLS:
            raise Fault("F33")
        self.entered.add(number)
        self.body(self.subrs[number], depth + 1)

    def call_other(self):
        number = judge_operand(self.stack[-1], True)
        count = judge_operand(self.stack[-2], True)
        if count not in COUNTS.get(number, ()):
            raise Fault("F42")
        count = int(count)
        if len(self.stack) < count + 2:
            raise Fault("F30")
        below = len(self.stack) - 2 - count
        arguments = self.stack[below:-2]
        for value in arguments:
            judge_operand(value, False)
        recorded = None if self.flex is None else len(self.flex[1])
        is_in_order = {0: recorded == 7, 1: recorded is None, 2: recorded not in (None, 7)}
        if not is_in_order.get(int(number), True):
            raise Fault("F41")
        del self.stack[below:]
        self.results = []
        if number == 1:
            self.flex = (self.point, [])
        elif number == 2:
            self.flex[1].append(self.point)
        elif number == 0:
            start, points = self.flex
            self.segments += [(start, *points[1:4]), (points[3], *points[4:7])]
            self.flex, self.results = None, arguments[1:]
        elif number == 3:
            self.results = arguments


def judge_operand(value, is_whole):
    if is_whole and value.denominator != 1:
        raise Fault("F48")
    if abs(value) > LARGEST_OPERAND:
        raise Fault("F37")
    return value


def quotient(above, below):
    if below == 0:
        raise Fault("F38")
    value = above / below
    if abs(value) > LARGEST_QUOTIENT:
        raise Fault("F37")
    if value.denominator > FINEST:
        raise Fault("F39")
    return value


def coordinate(value):
    if abs(value) > LARGEST_COORDINATE:
        raise Fault("F40")
    if value.denominator > FINEST:
        raise Fault("F39")
    return value


def moved(point, dx, dy):
    return coordinate(point[0] + dx), coordinate(point[1] + dy)


def along(name, operands):
    """How far a move or a line goes."""
    if name[:1] == b"h":
        return operands[0], Fraction(0)
    if name[:1] == b"v":
        return Fraction(0), operands[0]
    return operands


def own(subrs, glyphs, name):
    """The own run of a glyph, over maps of commands."""
    run = Run(subrs, glyphs)
    try:
        run.body(glyphs[name], 0)
    except End:
        return run
    raise Fault("F35")


class Font:
    """The runs of a source whose bodies all compile. Each glyph runs once."""

    def __init__(self, source):
        self.subrs = {key: compiled(it.words) for key, it in source.subrs().items()}
        self.glyphs = {key: compiled(it.words) for key, it in source.glyphs().items()}
        self.runs = {}

    def own(self, name):
        if name not in self.runs:
            try:
                self.runs[name] = own(self.subrs, self.glyphs, name)
            except Fault as fault:
                self.runs[name] = fault
        found = self.runs[name]
        if isinstance(found, Fault):
            raise Fault(found.code)
        return found

    def outline(self, name, depth=1):
        """The segments of a glyph, its parts' included."""
        run = self.own(name)
        parts = run.composite
        if parts is None:
            return run.segments
        if depth > DEEPEST:
            raise Fault("F46")
        base = self.outline(parts.base, depth + 1)
        accent = self.outline(parts.accent, depth + 1)
        x, y = self.offset(name)
        return run.segments + base + [tuple(moved(point, x, y) for point in it) for it in accent]

    def offset(self, name):
        """How far a composite's accent is moved."""
        run = self.own(name)
        parts = run.composite
        return coordinate(coordinate(run.bearing[0] + parts.x) - parts.bearing), parts.y

    def fault(self):
        """The first fault over the glyphs in source order, or None."""
        for name in self.glyphs:
            try:
                self.outline(name)
            except Fault as fault:
                return Fault(fault.code, b"glyph " + name)
        return None
