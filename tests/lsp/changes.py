"""Changes by chance: after each of them what is told is what `faults` and `notes` tell of the text from scratch."""

import json
import subprocess
import sys
from collections import Counter
from dataclasses import asdict

from desk import Desk, back, chance, random_change

from t1edit import Font
from t1edit.lsp import places
from t1edit.program import found


def faults_of(source):
    """What the program tells of a source, from scratch: code, row, column, and all that a diagnostic says of it."""
    ran = subprocess.run([found(), "faults", "--json", "-"], input=source, capture_output=True)
    assert ran.returncode in (0, 1) and not ran.stderr, ran.stderr
    return [json.loads(it) for it in ran.stdout.decode().splitlines()]


def same(document, told):
    """What differs between the faults of a document and those of the program, or nothing."""
    held = [asdict(it) for it in document.faults]
    for it, row in zip(held, told):
        wanted = {
            "code": row["code"], "place": row["place"] or "", "line": row["line"], "column": row["column"], "word": row["word"], "hint": row["hint"],
            "chains": tuple(map(tuple, row["chain"])), "composites": tuple(row["composites"]),
        }  # fmt: skip
        found_here = {name: it[name] for name in wanted}
        if found_here != wanted:
            return f"wanted {wanted}, found {found_here}"
    return "" if len(held) == len(told) else f"{len(held)} faults, and not {len(told)}"


def told_rightly(desk, told):
    """What differs between the diagnostics and the faults, or nothing."""
    shown = [(it["code"], it["range"]["start"]["line"]) for it in desk.diagnostics() if it["severity"] == 1]
    wanted = [(it["code"], it["line"] - 1) for it in told]
    return "" if shown == wanted else f"wanted {wanted}, told {shown}"


def held_rightly(document, source, told, is_printed):
    """What differs between the session's font and the text, or nothing."""
    if document.is_held == bool(told):
        return "the session holds a font with a fault" if told else "the session doesn't hold the text"
    if not told and is_printed:
        with Font(source) as font:
            return "" if font.source() == document.held.font.source() else "the session's source is another"
    return ""


def placed_rightly(document):
    """What differs between the places that were moved along and those of all lines, or nothing."""
    kept, fresh = document.places, places.read(document.lines)
    return "" if (kept.entries, kept.rows, kept.slots, kept.sections) == (fresh.entries, fresh.rows, fresh.slots, fresh.sections) else "places"


def changes(path, count, seed):
    """Makes so many changes of a source. Returns how many of each kind there were, and what differed."""
    with open(path, "rb") as file:
        text = file.read().decode("latin-1")
    pick, kinds, wrong = chance(seed), Counter(), []
    desk = Desk(text, pick.choice(["utf-8", "utf-16", "utf-32"]))
    try:
        while kinds["changes"] < count and len(wrong) < 5:
            before = list(desk.document.lines)
            one(desk, [random_change(pick, desk.document)], kinds, wrong)
            if pick.random() < (0.6 if desk.document.faults else 0.1):
                one(desk, [back(before, desk.document)], kinds, wrong)
                if desk.document.lines != before:
                    wrong.append("a change isn't taken back")
            if len(desk.document.faults) > 4 or pick.random() < (0.4 if desk.document._is_apart else 0.01):
                one(desk, [{"text": text}], kinds, wrong)
    finally:
        desk.close()
    return kinds, wrong


def one(desk, made, kinds, wrong):
    """Makes changes, and compares all that is known of the text then with what is read from scratch."""
    document, n = desk.document, kinds["changes"]
    kinds["changes"] += 1
    desk.change(*made)
    by_session = not document._is_apart
    source = document.text.as_bytes()
    desk.rest("judge")
    told = faults_of(source)
    kinds["by session" if by_session and not told else "refused by it" if by_session else "whole"] += 1
    kinds["with faults"] += bool(told)
    differs = [same(document, told), told_rightly(desk, told), placed_rightly(document)]
    desk.rest("hold")
    differs.append(held_rightly(document, source, told, n % 3 == 0))
    if n % 10 == 0:
        desk.rest("notes")
        desk.diagnostics()
    wrong += [f"{it} after {made}" for it in differs if it]


if __name__ == "__main__":
    path, count, seed = sys.argv[1], int(sys.argv[2]), int(sys.argv[3])
    kinds, wrong = changes(path, count, seed)
    print(dict(kinds), *wrong, sep="\n")
    sys.exit(bool(wrong))
