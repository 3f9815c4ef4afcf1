# Independent implementation that computes the tests' expected values; no part of the product.
"""What `t1edit faults` writes of a file: lines for people and editors, or an object of JSON a line."""

import json
import os
import re

from faults import Fault
from found_faults import reading_fault
from source import lines, read_pairs

FAULTS = os.path.join(os.path.dirname(os.path.abspath(__file__)), "..", "..", "docs", "FAULTS.md")


def titles():
    with open(FAULTS, encoding="utf-8") as file:
        return dict(re.findall(r"(?m)^### ([DF]\d+): (.*)$", file.read()))


TITLES = titles()
LONGEST_SHOWN = 1000


def seen(some):
    """Bytes as they are shown: those that can't be seen, or are no ASCII, by their values."""
    return "".join(chr(it) if 32 <= it <= 126 else "\\x%02x" % it for it in some)


def chain(name, subrs):
    return ["glyph " + seen(name), *("subr %d" % number for number in subrs)]


def head(path, fault):
    place = " " + seen(fault.place) if fault.place else ""
    word = ": " + seen(fault.word) if fault.word is not None else ""
    hint = " (%s)" % fault.hint if fault.hint else ""
    return f"{path}:{fault.line}:{fault.column}: {fault.code}{place}: {TITLES[fault.code]}{word}{hint}\n".encode()


def excerpt(all_lines, fault):
    """The line of a fault, and marks under the word, or under the first byte of the entry; nothing of a long line."""
    line = all_lines[fault.line - 1] if fault.place else b""
    if not fault.place or len(line) > LONGEST_SHOWN:
        return b""
    before = bytes(it if it == 9 else 32 for it in line[: fault.column - 1])
    return line + b"\n" + before + b"^" * (1 if fault.word is None else len(fault.word)) + b"\n"


def fault_text(path, text, found):
    """All lines on the faults of a text."""
    all_lines = lines(text)
    told = b""
    for fault in found:
        told += head(path, fault) + excerpt(all_lines, fault)
        told += b"".join(b"    in " + ", ".join(chain(*it)).encode() + b"\n" for it in fault.chains)
        told += b"    composites on it: " + b", ".join(fault.composites) + b"\n" if fault.composites else b""
    return told


def fault_json(path, _text, found):
    """The same as objects, a line each."""
    told = ""
    for fault in found:
        it = {"file": path, "line": fault.line, "column": fault.column, "code": fault.code, "hint": fault.hint or None}
        it["place"] = seen(fault.place) if fault.place else None
        it["word"] = seen(fault.word) if fault.word is not None else None
        it["chain"] = [chain(*calls) for calls in fault.chains]
        it["composites"] = [seen(name) for name in fault.composites]
        told += json.dumps(it, separators=(",", ":"), sort_keys=True, ensure_ascii=False) + "\n"
    return told.encode()


def pairs_faults(kern):
    """The fault of a kerning file, as a list."""
    try:
        read_pairs(kern)
    except Fault as fault:
        return [reading_fault(kern, fault)]
    return []
