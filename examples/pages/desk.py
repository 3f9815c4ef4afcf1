"""A font under a designer's hands: edits that are drawn at once, and undone one by one."""

from __future__ import annotations

import contextlib
import os
import threading
from dataclasses import asdict, dataclass, field
from typing import Dict, Iterable, List, Mapping, Optional, Set, Tuple

from t1edit import Font, Refused

from .cells import Cell, cell_of, cells_of, heights
from .characters import characters
from .difference import Edit, Entries, changed, edits_between, entries_of, joined, undoing
from .guilty import guilty_word

# What a page is told, to be written as JSON.
News = Dict[str, object]


@dataclass
class Step:
    """What takes an accepted change back: edits, and the texts that bodies had when they were typed."""

    edits: List[Edit]
    texts: Dict[str, Optional[str]] = field(default_factory=dict)


class Desk:
    """A font, what pages know of it, and the steps to undo. Each call may come from another thread.

    A call that edits gives the news for pages: the 'changed' cells, those of composites too, and the names of 'removed'
    glyphs, and what 'characters' have a glyph then; the 'texts' of bodies that have changed otherwise than by typing; the pairs, where one has. What is 'refused' has
    its code and place, what it means, and where in the body the word stands that has the fault. It has changed nothing.

    What another program has written to the source is brought in beside what was edited here since it was read or saved. Its news
    have what is said of the 'file': nothing where it is taken; why it is 'refused'; or what is 'asked' of the user, where an entry
    was changed here and there.
    """

    def __init__(self, source: str, kern: Optional[str] = None) -> None:
        self.source, self.kern_file = source, kern
        self._lock = threading.RLock()
        self._font = Font(source, kern)
        self._cells = {it.name: it for it in cells_of(self._font)}
        self._parts = {name: glyph.uses.parts for name, glyph in self._font.glyphs.items()}
        self._texts: Dict[str, str] = {}
        self._steps: List[Step] = []
        # the source as it was last read or saved; and what the file has, and what is asked of it
        self._read = self._font.source()
        self._offered: Optional[Tuple[bytes, str]] = None

    def close(self) -> None:
        with self._lock:
            self._font.close()

    def everything(self) -> News:
        """What a page needs at its beginning. The heights, in character space units, are how low and how high it draws."""
        with self._lock:
            low, high = heights(self._cells.values())
            return {
                "name": os.path.basename(self.source),
                "cells": [asdict(it) for it in self._cells.values()],
                "low": low,
                "high": high,
                "asked": self._offered and self._offered[1],
                **self._characters(),
                **self._pairs(),
                **self._standing(),
            }

    def text(self, name: str) -> News:
        """The body of a glyph, as it was typed where it was."""
        with self._lock:
            return {"text": self._text(name)}

    def edit(self, name: str, text: str) -> News:
        """Gives a glyph the body that was typed."""
        with self._lock:
            body, typed, cells = self._font.glyphs[name].body, self._texts.get(name), dict(self._cells)
            try:
                self._font.glyphs[name].body = text
            except Refused as refused:
                return refusal(refused, guilty_word(name, text, refused))
            self._texts[name] = text
            self._steps.append(Step([(("replace", "glyph", name), body)], {name: typed}))
            self._read_again({name})
            return self._news(cells)

    def kern(self, left: str, right: str, value: Optional[int]) -> News:
        """Moves the right one of two glyphs by so many units, or takes their pair out."""
        if not (value is None or isinstance(value, int)):
            return {"refused": {"said": "", "text": f"whole numbers only, and not {value}"}}
        with self._lock:
            before = self._font.kern.get((left, right))
            if before == value:
                return self._standing()
            try:
                self._font.session.edit(*pair_edit(left, right, value))
            except Refused as refused:
                return refusal(refused)
            self._steps.append(Step([(pair_edit(left, right, before), None)]))
            return {**self._pairs(), **self._standing()}

    def undo(self) -> News:
        """Takes the last accepted change back, where there is one. One that can't be taken back any more is passed over."""
        with self._lock:
            if not self._steps:
                return self._standing()
            step, cells = self._steps.pop(), dict(self._cells)
            try:
                perform(self._font, step.edits)
            except Refused as refused:
                return {**refusal(refused), **self._standing()}
            names = glyphs_of(step.edits)
            for name in names:
                self._texts.pop(name, None)
            self._texts.update({name: text for name, text in step.texts.items() if text is not None})
            self._read_again(names, touches_all(step.edits))
            return {**self._news(cells, names), **self._pairs()}

    def save(self) -> News:
        """Writes the source, and the kerning file where one was given."""
        with self._lock:
            self._font.save(self.source)
            self._read, self._offered = self._font.source(), None
            if self.kern_file:
                self._font.save(self.kern_file, "kern")
            return {"saved": [it for it in (self.source, self.kern_file) if it]}

    def bring_in(self, source: bytes) -> News:
        """Takes what another program has written to the source, but for what is asked."""
        with self._lock:
            self._offered = None
            try:
                there = Font(source)
            except Refused as refused:
                return {"file": refusal(refused)}
            with there:
                return self._joined(source, there)

    def settle(self, keeps_here: bool) -> News:
        """Takes what was asked: of an entry that was changed here and there, what is here is kept, or what is there taken."""
        with self._lock:
            if self._offered is None:
                return self._standing()
            source, _ = self._offered
            self._offered = None
            with Font(source) as there:
                return self._joined(source, there, keeps_here)

    def _joined(self, source: bytes, there: Font, keeps_here: Optional[bool] = None) -> News:
        """Joins what is here with what is there; asks where an entry was changed in both, and nothing is said of that."""
        with Font(self._read) as font:
            before = entries_of(font)
        here, found, read = entries_of(self._font), entries_of(there), there.source()
        wanted = joined(before, here, found, bool(keeps_here))
        both = changed(joined(before, here, found, not keeps_here), wanted)
        if both and keeps_here is None:
            return self._ask(source, f"changed here, and in the file: {', '.join(both)}")
        try:
            perform(there, edits_between(found, wanted))
        except Refused:
            if keeps_here is None:
                edited = ", ".join(changed(before, here))
                return self._ask(source, f"changed here, and doesn't fit what is in the file now: {edited}")
            wanted = here if keeps_here else found
            with contextlib.suppress(Refused):
                perform(there, edits_between(found, wanted))
        self._read = read
        return {**self._become(there, here, wanted), "file": {}}

    def _ask(self, source: bytes, question: str) -> News:
        self._offered = source, question
        return {"file": {"asked": question}}

    def _become(self, other: Font, here: Entries, wanted: Entries) -> News:
        """Makes the font what another one is, by edits; where more than entries differs, as a line of the header, by opening it
        anew."""
        edits, cells = edits_between(here, wanted), dict(self._cells)
        back, names = undoing(self._font, edits), glyphs_of(edits)
        with contextlib.suppress(Refused):  # (as where Subrs are added, and the font has had none)
            perform(self._font, edits)
        source = other.source()
        is_anew = self._font.source() != source
        if is_anew:
            font = Font(source, self._font.session.print("kern"))
            self._font.close()
            self._font = font
        if edits:
            self._steps.append(Step(back, {name: self._texts.pop(name, None) for name in names}))
        self._read_again(names, is_anew or touches_all(edits))
        return self._news(cells, names)

    def _text(self, name: str) -> str:
        return self._texts[name] if name in self._texts else self._font.glyphs[name].body

    def _standing(self) -> News:
        return {"undo": len(self._steps)}

    def _characters(self) -> News:
        codes = {it.code: name for name, it in self._cells.items() if it.code is not None}
        return {"characters": characters(self._cells, codes)}

    def _pairs(self) -> News:
        return {"pairs": {f"{left} {right}": value for (left, right), value in self._font.kern.items()}}

    def _read_again(self, names: Set[str], with_all: bool = False) -> None:
        """Reads again what glyphs draw that were edited, and composites on them; or all glyphs."""
        there = self._font.glyphs
        for name in names:
            self._parts[name] = there[name].uses.parts if name in there else ()
        for name in self._parts if with_all else self._standing_on(names):
            if name in there:
                self._cells[name] = cell_of(there[name])
            else:
                self._cells.pop(name, None)

    def _news(self, before: Mapping[str, Cell], retyped: Iterable[str] = ()) -> News:
        """What is new beside the cells that there were; retyped are the glyphs whose bodies nobody has typed."""
        return {
            "changed": [asdict(it) for name, it in self._cells.items() if it is not before.get(name) and it != before.get(name)],
            "removed": [name for name in before if name not in self._cells],
            "texts": {name: self._text(name) for name in retyped if name in self._cells},
            **(self._characters() if before.keys() != self._cells.keys() else {}),
            **self._standing(),
        }

    def _standing_on(self, found: Set[str]) -> Set[str]:
        """These glyphs, and the composites that have them as parts, or as parts of parts."""
        more = found
        while more:
            found = found | more
            more = {name for name, parts in self._parts.items() if name not in found and not found.isdisjoint(parts)}
        return found


def perform(font: Font, edits: Iterable[Edit]) -> None:
    """Performs edits as a batch. Raises Refused, and has changed nothing then."""
    with font.batch():
        for words, body in edits:
            font.session.edit(*words, body=body)


def pair_edit(left: str, right: str, value: Optional[int]) -> Tuple[object, ...]:
    return ("unkern", left, right) if value is None else ("kern", left, right, value)


def glyphs_of(edits: Iterable[Edit]) -> Set[str]:
    """The glyphs that are edited."""
    return {str(words[2]) for words, _ in edits if words[1] == "glyph"}


def touches_all(edits: Iterable[Edit]) -> bool:
    """Whether an edit may change what any glyph draws, or its code."""
    return any(words[1] == "subr" or words[0] in ("encode", "unencode") for words, _ in edits)


def refusal(refused: Refused, at: Optional[Tuple[int, int]] = None) -> News:
    return {"refused": {"said": refused.said, "text": refused.text, "word": refused.word, "at": at}}
