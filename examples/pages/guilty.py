"""The word of a body that has the fault for which the body was refused, as the session tells it."""

from __future__ import annotations

import re
from typing import List, Optional, Tuple

from t1edit import Refused

# Blanks are the bytes 0, 9, 10, 12, 13 and 32; a comment goes to the end of its line; a brace is a word.
WORD = re.compile("%[^\r\n]*|[{}]|[^\0\t\n\f\r {}%]+")
# The code of a brace in a body.
BRACE = "E6"


def words_of(body: str) -> List[re.Match[str]]:
    return [it for it in WORD.finditer(body) if not it[0].startswith("%")]


def guilty_word(name: str, body: str, refused: Refused) -> Optional[Tuple[int, int]]:
    """From which character of a glyph's refused body to which the word stands that has the fault, or None where no word of it
    has it, but a Subr or the glyph as a whole."""
    words = words_of(body)
    if refused.code == BRACE:
        return next(it.span() for it in words if it[0] in "{}")
    if refused.number is None or refused.chain not in ((), (f"glyph {name}",)):
        return None
    return words[refused.number - 1].span()
