"""The bytes of a session's commands. What would be performed as another command is refused here."""

from __future__ import annotations

import operator
import re
from typing import Optional, Sequence, Tuple, Union

from .refusals import NotSent

# A word of a command. A name is a str, and a number either.
Word = Union[str, int]

WITH_BODY = frozenset([("replace", "glyph"), ("replace", "subr"), ("add", "glyph"), ("add", "subr")])
# Words with a space between two of them. What ends a word or a line, and all else up to 32, stands in no name.
LINE = re.compile("[^\0- ]+(?: [^\0- ]+)*")
# A line that a session would take for the end of a body. Its blanks are the bytes 0, 9, 12 and 32.
END = re.compile("(?:^|[\r\n])[\0\t\f ]*\\.[\0\t\f ]*(?:$|[\r\n])")


def spelled(words: Sequence[str], body: Optional[str] = None) -> Tuple[bytes, Optional[bytes]]:
    """The bytes of a command's line, without its end, and of its body, where it has one. Raises NotSent."""
    takes_body = tuple(words[:2]) in WITH_BODY
    if takes_body != (body is not None):
        raise NotSent(
            f"{words[0]} {words[1]} takes a body"
            if takes_body
            else "a body belongs to replace and add, of a glyph or a Subr, and to these alone"
        )
    line = " ".join(words)
    if line.count(" ") != len(words) - 1 or not LINE.fullmatch(line):
        judge_words(words)
    if body is None:
        return bytes_of(line), None
    judge_body(body)
    return bytes_of(line), bytes_of(body)


def bytes_of(text: str) -> bytes:
    """Each character up to 255 is the byte of that number. A text with others is UTF-8, whose bytes above 127 the session
    refuses in names, in numbers and in bodies outside of comments."""
    try:
        return text.encode("latin-1")
    except UnicodeEncodeError:
        # (a lone surrogate too gets bytes that no name has, and isn't replaced by a character that one may have)
        return text.encode("utf-8", "surrogatepass")


def text_of(word: Word) -> str:
    """A word as it is written. Raises TypeError where it is neither a str nor a whole number: its repr would be a word too."""
    if isinstance(word, str):
        return word
    try:
        return str(int(operator.index(word)))
    except TypeError:
        raise TypeError(f"a word of a command is a str or a whole number, and not {word!r}") from None


def judge_name(name: str) -> None:
    """Raises TypeError where a name is no str."""
    if not isinstance(name, str):
        raise TypeError(f"a name is a str, and not {name!r}")


def judge_words(words: Sequence[str]) -> None:
    """Refuses a word that a session would take for two, for none, or for the end of its line."""
    if not words:
        raise NotSent("a command has a word")
    for word in words:
        if " " in word or not LINE.fullmatch(word):
            raise NotSent(f"no word of a command: {word!r}", word)


def judge_body(body: str) -> None:
    """Refuses a body with a line that a session would take for its end. Raises TypeError where it is no str."""
    if not isinstance(body, str):
        raise TypeError(f"a body is a str, and not {type(body).__name__}")
    if "." in body and END.search(body):
        raise NotSent("a body with a line '.', which would end it", ".")
