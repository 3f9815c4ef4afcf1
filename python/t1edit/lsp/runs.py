"""A glyph's run as it goes over the words of a text: where the pen stands at each, and which words call a Subr or name a part.

This stands in for what the program doesn't tell yet (show calls, a trace of a run). It judges nothing: at what it can't run, it
ends.
"""

from __future__ import annotations

import re
from dataclasses import dataclass, field
from fractions import Fraction
from typing import Callable, Dict, List, NamedTuple, Optional, Tuple

from .commands import COMMANDS
from .places import SUBR, Places, Word, words_of

NUMBER = re.compile(r"-?[0-9]+")
STEPS, DEPTH = 100000, 10
Point = Tuple[Fraction, Fraction]
# Of the commands that move the pen: for each value whether it goes along x, y, or both in turn. A curve's values go in pairs.
MOVES = {
    "rmoveto": "xy", "hmoveto": "x", "vmoveto": "y",
    "rlineto": "xy", "hlineto": "x", "vlineto": "y",
    "rrcurveto": "xyxyxy", "vhcurveto": "yxyx", "hvcurveto": "xxyy",
}  # fmt: skip
TAKES = {"hsbw": 2, "sbw": 4, "setcurrentpoint": 2, "seac": 5, "div": 2, **{name: len(axes) for name, axes in MOVES.items()}}


class Value(NamedTuple):
    """A value on the stack, and the word that pushed it."""

    number: Fraction
    word: Optional[Word]


class Call(NamedTuple):
    """A Subr that was entered, or a part that was named: its place, the command, and the word that has the number."""

    place: str
    command: Word
    number: Optional[Word]


class Step(NamedTuple):
    """A command that was run: where the pen stood before it and after it, and the words that it took."""

    command: Word
    before: Point
    after: Point
    operands: Tuple[Optional[Word], ...]


class Ended(Exception):
    """The run is at its end, or at what can't be run."""


@dataclass
class Run:
    """What the run of one glyph went over."""

    lines: List[str]
    places: Places
    names: "Callable[[int], Optional[str]]"
    steps: List[Step] = field(default_factory=list)
    calls: List[Call] = field(default_factory=list)
    _stack: List[Value] = field(default_factory=list)
    _results: List[Value] = field(default_factory=list)
    _pen: Point = (Fraction(0), Fraction(0))
    _count: int = 0
    _bodies: Dict[int, List[Word]] = field(default_factory=dict)

    def of(self, number: int) -> "Run":
        """Runs the entry of this number."""
        try:
            self._enter(number, 0)
        except (Ended, IndexError, ZeroDivisionError):
            pass
        return self

    def _enter(self, number: int, depth: int) -> None:
        if number not in self._bodies:
            self._bodies[number] = list(words_of(self.lines, self.places, number))
        for word in self._bodies[number]:
            self._count += 1
            if self._count > STEPS:
                raise Ended
            if NUMBER.fullmatch(word.text):
                self._stack.append(Value(Fraction(int(word.text)), word))
            elif word.text == "return":
                return
            else:
                self._command(word, depth)

    def _command(self, word: Word, depth: int) -> None:
        before, name = self._pen, word.text
        if name == "callsubr":
            return self._call(word, depth)
        if name == "callothersubr":
            return self._call_othersubr()
        if name == "pop":
            return self._stack.append(self._results.pop(0))
        if name not in COMMANDS:
            raise Ended
        takes = TAKES.get(name, 0)
        taken = self._stack[len(self._stack) - takes :] if takes else []
        if len(taken) < takes:
            raise Ended
        if name == "div":
            self._stack[-2:] = [Value(taken[0].number / taken[1].number, None)]
            return None
        self._perform(name, word, [it.number for it in taken], taken)
        self.steps.append(Step(word, before, self._pen, tuple(it.word for it in taken)))
        self._stack.clear()
        if name in ("endchar", "seac"):
            raise Ended
        return None

    def _perform(self, name: str, word: Word, numbers: List[Fraction], taken: List[Value]) -> None:
        x, y = self._pen
        if name in MOVES:
            for axis, value in zip(MOVES[name], numbers):
                x, y = (x + value, y) if axis == "x" else (x, y + value)
        elif name == "hsbw":
            x, y = numbers[0], Fraction(0)
        elif name in ("sbw", "setcurrentpoint"):
            x, y = numbers[0], numbers[1]
        elif name == "seac":
            for it in taken[3:]:
                part = self.names(int(it.number))
                if part is not None:
                    self.calls.append(Call(f"glyph {part}", word, it.word))
        self._pen = x, y

    def _call(self, word: Word, depth: int) -> None:
        value = self._stack.pop()
        place = f"{SUBR} {value.number}"
        self.calls.append(Call(place, word, value.word))
        if depth == DEPTH or not self.places.has(place):
            raise Ended
        self._enter(self.places.numbers[place], depth + 1)

    def _call_othersubr(self) -> None:
        """Takes the number, the count and the arguments; those of a flex's end and of hint replacement are given back by pop."""
        number, count = int(self._stack.pop().number), int(self._stack.pop().number)
        if not 0 <= count <= len(self._stack):
            raise Ended
        arguments = self._stack[len(self._stack) - count :]
        del self._stack[len(self._stack) - count :]
        self._results = arguments[1:] if number == 0 else arguments if number == 3 else []


def run(lines: List[str], places: Places, number: int, names: Callable[[int], Optional[str]]) -> Run:
    """The run of an entry; names gives the names of StandardEncoding."""
    return Run(lines, places, names).of(number)
