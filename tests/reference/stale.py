# Independent implementation that computes the tests' expected values; no part of the product.
"""The glyphs that edits make stale, by the own runs of a font."""

from edits import form_of
from runs import Font


def edited_keys(words):
    """What an edit replaces, adds or removes: the number of a Subr or the name of a glyph, or nothing."""
    kind = form_of(words)[-1]
    return {int(words[2])} if kind == b"subr" else {words[2]} if kind == b"glyph" else set()


def is_on(parts, names):
    """Whether a composite stands on some of these glyphs."""
    return parts is not None and (parts.base in names or parts.accent in names)


def stale(font, keys, source):
    """The glyphs of a source that edits at these keys made of the font's source: those that an edit names, those whose
    own run entered a Subr that an edit names, and the composites on any of these."""
    found, more = set(), {key for key in keys if isinstance(key, bytes)}
    more |= {name for name in font.glyphs if font.own(name).entered & keys}
    while more:
        found |= more
        more = {name for name in font.glyphs if is_on(font.own(name).composite, found)} - found
    return [name for name in source.glyphs() if name in found]


def keeps_run(old, new, name):
    """Whether all that the own run of a glyph read is the same in both fonts."""
    run = old.runs[name]
    parts = (run.composite.base, run.composite.accent) if run.composite else ()
    return (
        old.glyphs[name] == new.glyphs.get(name)
        and all(old.subrs[number] == new.subrs.get(number) for number in run.entered)
        and all(part in new.glyphs for part in parts)
    )


def font_after(old, source):
    """The font of a source that was edited, all glyphs run. A run of the font before stays where nothing that it read
    differs."""
    font = Font(source)
    if old is not None:
        font.runs = {name: run for name, run in old.runs.items() if keeps_run(old, font, name)}
    for name in font.glyphs:
        font.own(name)
    return font
