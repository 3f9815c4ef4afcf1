#!/usr/bin/env python3
"""Writes a sheet of all glyphs of a font, to look at before it ships: an HTML file, or a picture in SVG.

usage: sheet.py [--against OLD] SOURCE FILE.html
       sheet.py SOURCE FILE.svg

A cell of the HTML file has a glyph with its baseline, its advance and its box, and in numbers its code, width and box; a field
filters them. Where FreeType's module for Python is there (Debian: python3-freetype), each box is compared with the one that
FreeType finds in the assembled font, and those that differ are framed in red, and counted. With --against only the glyphs are
shown that differ from those of another source, the old ones in red under the new.
"""

import argparse
import html
import os
import sys

from pages import by_freetype
from pages.cells import cells_of, drawing, filled, heights, outline, view
from t1edit import Error, Font

# Of the picture: glyphs in a row, how wide each is shown, and the height for a name below it in character space units.
COLUMNS, WIDTH, LABEL = 7, 110, 150
STYLE = (
    ".glyph{fill:black} .box{fill:none;stroke:#c00;stroke-width:3} .line{fill:none;stroke:#999;stroke-width:3} "
    "text{font:75px sans-serif}"
)


def main():
    given = command_line()
    with Font(given.source) as font:
        cells = cells_of(font)
        if given.file.endswith(".svg"):
            said, text = f"{count(cells)} in {given.file}", picture(cells)
        elif given.against:
            with Font(given.against) as old:
                said, text = differences(font, cells, cells_of(old), os.path.basename(given.against))
        else:
            said, text = sheet(font, cells)
    with open(given.file, "w", encoding="utf-8") as file:
        file.write(text)
    print(said)


def command_line():
    parser = argparse.ArgumentParser(usage=__doc__.split("usage: ")[1].split("\n\n")[0])
    parser.add_argument("--against")
    parser.add_argument("source")
    parser.add_argument("file")
    given = parser.parse_args()
    if not given.file.endswith((".html", ".svg")) or given.against and given.file.endswith(".svg"):
        parser.error("FILE ends with .html, or with .svg where no other source is given")
    return given


def count(cells):
    return f"{len(cells)} glyph{'s' * (len(cells) != 1)}"


def share(found, cells, what):
    return f"{len(found)} of {len(cells)} {what} differ{'s' * (len(found) == 1)}"


# The HTML file.


def sheet(font, cells):
    """A line that says what was found, and the page of all glyphs."""
    differ = {}
    try:
        found = by_freetype.boxes(font.source())
        differ = {it.name: by_other(found.get(it.name)) for it in cells if found.get(it.name) != it.box}
        compared = f"{share(differ, cells, 'boxes')} from FreeType's"
    except by_freetype.NotCompared as why:
        compared = f"boxes aren't compared: {why}"
    low, high = heights(cells)
    figures = [figure(it, drawing(it, low, high), view([it], low, high), differ.get(it.name)) for it in cells]
    lines = [f"{count(cells)}: those with a code by the code, then by name", compared]
    return f"{count(cells)}; {compared}", page(font, lines, figures)


def by_other(box):
    return "FreeType can't load it" if box is None else f"FreeType's box {numbers(box)}"


def differences(font, cells, old_cells, path):
    """A line that says how many glyphs differ from those of another font, and the page of them."""
    old, new = ({it.name: it for it in those} for those in (old_cells, cells))
    low, high = heights([*cells, *old_cells])
    figures = [
        difference(old.get(name), new.get(name), low, high)
        for name in {**new, **old}
        if old.get(name) != new.get(name)
    ]
    line = f"{share(figures, cells, 'glyphs')} from {path}"
    return line, page(font, [f"{line}: old in red under new"], figures)


def difference(old, new, low, high):
    """The cell of a glyph that differs; there is no old one where it was added, and no new one where it was removed."""
    drawn = (outline(old, "old") if old else "") + (drawing(new, low, high, "over") if new else "")
    if not (old and new):
        said = "removed" if old else "added"
    else:
        said = "outline" if facts(old) == facts(new) else f"was {facts(old)}"
    return figure(new or old, drawn, view(filter(None, (old, new)), low, high), said)


def page(font, lines, figures):
    header = header_of(font)
    title = header.get("FullName") or header.get("FontName") or "A font"
    fields = {
        "title": html.escape(title),
        "lines": "\n".join(f"  <p>{html.escape(line)}</p>" for line in [f"FontBBox {header['FontBBox']}", *lines]),
        "cells": "\n".join(figures),
    }
    return filled("sheet.html", fields)


def header_of(font):
    """The lines of the AFM file before those of the glyphs, by their keys."""
    lines = font.afm().decode("latin-1").split("\nStartCharMetrics")[0].splitlines()
    return {key: value for key, _, value in (line.partition(" ") for line in lines)}


def figure(cell, drawn, box, said):
    """A cell: its drawing in its own viewBox, its facts, and in which way it differs, where it does."""
    name, code = html.escape(cell.name), "" if cell.code is None else cell.code
    kind, more = (' class="differs"', f'<br><span class="said">{html.escape(said)}</span>') if said else ("", "")
    return (
        f'<figure data-name="{name}" data-code="{code}"{kind}><svg viewBox="{numbers(box)}">{drawn}</svg>'
        f"<figcaption><b>{name}</b> {code}<br>{facts(cell)}{more}</figcaption></figure>"
    )


def facts(cell):
    return f"width {cell.width}, box {numbers(cell.box)}"


def numbers(found):
    return " ".join(map(str, found))


# The picture.


def picture(cells):
    """All glyphs in rows of one scale, with their names, on white."""
    low, high = heights(cells)
    views = [view([it], low, high) for it in cells]
    across, down = max((width for _, _, width, _ in views), default=1), high - low + LABEL
    rows = -(-len(cells) // COLUMNS)
    size = f'width="{COLUMNS * WIDTH}" height="{rows * down * WIDTH // across}"'
    parts = [
        f'<svg xmlns="http://www.w3.org/2000/svg" {size} viewBox="0 0 {COLUMNS * across} {rows * down}">',
        f"<style>{STYLE}</style>",
        '<rect width="100%" height="100%" fill="white"/>',
    ]
    for at, (cell, (left, _, width, _)) in enumerate(zip(cells, views)):
        x, y = at % COLUMNS * across, at // COLUMNS * down
        parts.append(
            f'<g transform="translate({x + (across - width) // 2 - left} {y + high})">{drawing(cell, low, high)}</g>'
            f'<text x="{x + across // 2}" y="{y + high - low + LABEL // 2}" text-anchor="middle">{html.escape(cell.name)}</text>'
        )
    return "\n".join([*parts, "</svg>"]) + "\n"


try:
    main()
except (Error, OSError) as error:
    sys.exit(f"sheet.py: {error}")
