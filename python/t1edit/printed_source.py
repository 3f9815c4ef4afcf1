"""What a source says in its printed form (docs/SOURCE.md of the repository): bodies, and the encoding.

Only the printed form is read, and not any source: lines end with LF, an entry opens with '/NAME {' or 'dup N {' and nothing
else on its line, and each line of its body begins with a tab. Each byte is a character here.
"""

from __future__ import annotations

import re
from typing import Dict, Iterator, List, Optional, Tuple

BLANK = r"[\0\t\f ]"
DELIMITERS = r"()<>\[\]{}/%"
# What ends in the words that end the clear part, and the private part.
EEXEC = re.compile(f"(?m)currentfile eexec{BLANK}*$")
CLOSEFILE = f"[^\n]*mark currentfile closefile{BLANK}*$"
ENTRY = r"(?P<key>{key}) \{{\n(?P<body>[^}}]*)\}}"


def section(name: str, kind: str) -> str:
    """A line with the three tokens of a section in a row, outside of a comment."""
    return f"[^\n%]*/{name}{BLANK}+[0-9]{{1,9}}{BLANK}+{kind}(?![^\\0\t\f\n {DELIMITERS}])"


SUBRS, CHARSTRINGS = section("Subrs", "array"), section("CharStrings", "dict")
FIRST_SECTION = re.compile(f"(?m)^(?:(?P<subrs>{SUBRS})|{CHARSTRINGS})")
OF_SUBRS = re.compile(f"(?m)^(?:dup {ENTRY.format(key='[0-9]+')}|(?P<end>{CHARSTRINGS}))")
OF_CHARSTRINGS = re.compile(f"(?m)^(?:/{ENTRY.format(key='[!-~]+')}|(?P<end>{CLOSEFILE}))")
TOKEN = re.compile(f"/?[^\\0\t\f {DELIMITERS}]+|[{DELIMITERS}]")


def bodies(source: str) -> Tuple[Dict[str, str], Dict[str, str]]:
    """The bodies of the Subrs by their numbers, and of the glyphs by their names, each in the order of the source, and
    with the tabs of the printed form."""
    subrs: Dict[str, str] = {}
    glyphs: Dict[str, str] = {}
    found = FIRST_SECTION.search(source, end_of_clear(source))
    if found:
        at = entries(OF_SUBRS, source, found.end(), subrs) if found["subrs"] else found.end()
        entries(OF_CHARSTRINGS, source, at, glyphs)
    return subrs, glyphs


def entries(pattern: re.Pattern[str], source: str, at: int, into: Dict[str, str]) -> int:
    """Puts in the entries of a section that begins here; where it ends."""
    for found in pattern.finditer(source, at):
        if found["end"] is not None:
            return found.end()
        into[found["key"]] = found["body"]
    return len(source)


def without_tabs(body: str) -> str:
    """A body without the tab in front of each line, and in front of the brace after it."""
    return body[1:-2].replace("\n\t", "\n")


def slots(source: str) -> Optional[Dict[int, str]]:
    """The names that the encoding array gives to codes, by ascending codes; None where it is StandardEncoding."""
    lines = clear_lines(source)
    if next(line for line in lines if line[:1] == ["/Encoding"])[1] == "StandardEncoding":
        return None
    found: Dict[int, str] = {}
    for line in lines:
        if line[-1:] == ["def"]:
            break
        if line[:1] == ["dup"]:
            found[code_of(line[1])] = line[2][1:]
    return dict(sorted(found.items()))


def clear_lines(source: str) -> Iterator[List[str]]:
    """The tokens of each line of the clear part."""
    for line in source[: end_of_clear(source)].split("\n"):
        yield TOKEN.findall(line.partition("%")[0])


def end_of_clear(source: str) -> int:
    found = EEXEC.search(source)
    return found.end() if found else len(source)


def code_of(token: str) -> int:
    """The number of a code, in decimal or as 8#101."""
    return int(token[2:], 8) if token.startswith("8#") else int(token)
