"""What edits can change of a font: the edits that make one font of another, and fonts that were changed in two places."""

from __future__ import annotations

from dataclasses import dataclass
from typing import Dict, Iterable, Iterator, List, Mapping, Optional, Tuple, TypeVar, Union

from t1edit import Font

# The words of a command, and its body.
Edit = Tuple[Tuple[Union[str, int], ...], Optional[str]]
K = TypeVar("K", str, int)


@dataclass(frozen=True)
class Entries:
    """The bodies of a font's Subrs and glyphs, and the names that its encoding array gives to codes, or None where it is
    StandardEncoding. What else a font has, as its header and the order of entries, no edit changes."""

    subrs: Mapping[int, str]
    glyphs: Mapping[str, str]
    slots: Optional[Mapping[int, str]]


def entries_of(font: Font) -> Entries:
    slots = None if font.encoding.is_standard else dict(font.encoding)
    return Entries(bodies(font.subrs), bodies(font.glyphs), slots)


def bodies(entries: Mapping) -> Dict:
    return {key: entry.body for key, entry in entries.items()}


def edits_between(old: Entries, new: Entries) -> List[Edit]:
    """What makes the entries of one font those of another, as a batch. An array isn't made StandardEncoding, nor that one."""
    found = [*entry_edits("subr", old.subrs, new.subrs), *entry_edits("glyph", old.glyphs, new.glyphs)]
    if old.slots is not None and new.slots is not None:
        found += slot_edits(old.slots, new.slots)
    return found


def entry_edits(kind: str, old: Mapping[K, str], new: Mapping[K, str]) -> Iterator[Edit]:
    for key in old:
        if key not in new:
            yield ("remove", kind, key), None
    for key, body in new.items():
        if key not in old:
            yield ("add", kind, key), body
        elif old[key] != body:
            yield ("replace", kind, key), body


def slot_edits(old: Mapping[int, str], new: Mapping[int, str]) -> Iterator[Edit]:
    for code in old:
        if code not in new:
            yield ("unencode", code), None
    for code, name in new.items():
        if old.get(code) != name:
            yield ("encode", code, name), None


def undoing(font: Font, edits: Iterable[Edit]) -> List[Edit]:
    """What takes edits back that this font, as it stands before them, is to get. An entry that was removed comes back as
    the last one."""
    return [undoing_one(font, words) for words, _ in reversed(list(edits))]


def undoing_one(font: Font, words: Tuple[Union[str, int], ...]) -> Edit:
    verb = words[0]
    if verb in ("encode", "unencode"):
        before = font.encoding.get(int(words[1]))
        return (("unencode", words[1]) if before is None else ("encode", words[1], before)), None
    kind, key = words[1:]
    if verb == "add":
        return ("remove", kind, key), None
    entry = font.glyphs[str(key)] if kind == "glyph" else font.subrs[int(key)]
    return ("add" if verb == "remove" else "replace", kind, key), entry.body


def joined(before: Entries, here: Entries, there: Entries, keeps_here: bool) -> Entries:
    """What comes of a font that was changed in two places: each entry as it is where it was changed; of one that was changed in
    both, as it is here, or there. Where one of the three has StandardEncoding, the encoding is that of there."""
    slots = there.slots
    if before.slots is not None and here.slots is not None and slots is not None:
        slots = joined_of(before.slots, here.slots, slots, keeps_here)
    subrs = joined_of(before.subrs, here.subrs, there.subrs, keeps_here)
    return Entries(subrs, joined_of(before.glyphs, here.glyphs, there.glyphs, keeps_here), slots)


def joined_of(before: Mapping[K, str], here: Mapping[K, str], there: Mapping[K, str], keeps_here: bool) -> Dict[K, str]:
    found = {}
    for key in {**there, **here}:
        is_here = there.get(key) == before.get(key) or keeps_here and here.get(key) != before.get(key)
        value = here.get(key) if is_here else there.get(key)
        if value is not None:
            found[key] = value
    return found


def changed(old: Entries, new: Entries) -> List[str]:
    """What the entries are called that differ."""
    return [called(words) for words, _ in edits_between(old, new)]


def called(words: Tuple[Union[str, int], ...]) -> str:
    """What a command edits: a glyph by its name, or 'Subr 4', or 'code 65'."""
    if words[0] in ("encode", "unencode"):
        return f"code {words[1]}"
    return f"Subr {words[2]}" if words[1] == "subr" else str(words[2])
