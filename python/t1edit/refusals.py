"""What goes wrong, as exceptions."""

from __future__ import annotations

from typing import NamedTuple, Optional, Tuple


class Error(Exception):
    """All that this package raises of its own."""


class Detail(NamedTuple):
    """Where in a body a fault is: the word, its number in its body from 1, and the way of the run that met it."""

    word: Optional[str] = None
    number: Optional[int] = None
    chain: Tuple[str, ...] = ()


class Refused(Error):
    """A font, a file or a command that is refused. A command that is refused has changed nothing.

    said    the code and the place as the program says them: 'F38 glyph Aacute', 'E4'
    code    'F38', 'E4', or 'memory'; explain(code) tells more. '' where this package has refused, see NotSent.
    place   'glyph Aacute', 'subr 7', 'line 5' (from 1), or '' where there is none
    text    what the code means: 'division by zero'
    word    the word that is wrong, where it is known, else None
    number  which word of its body that is, from 1, where a body has a fault, else None
    chain   where a glyph's run failed, the glyph and the Subrs that it had entered: ('glyph A', 'subr 4'), else ()

    Of a fault, word, number and chain are unknown where the answer was taken after a later edit was sent.
    """

    def __init__(self, said: str, text: str = "", detail: Detail = Detail()) -> None:
        super().__init__(said, text, detail)
        self.said = said
        self.code, _, self.place = said.partition(" ")
        self.text = text
        self.word, self.number, self.chain = detail

    def __str__(self) -> str:
        return ": ".join(part for part in (self.said, self.text, self.word) if part)


class Missing(Refused, KeyError):
    """There is no such glyph, Subr, pair or code."""


class NotSent(Refused, ValueError):
    """What a session would take for other commands, or wait for. Nothing of it was written, and it has no code."""

    def __init__(self, text: str, word: Optional[str] = None) -> None:
        super().__init__("", text, Detail(word))
        self.args = (text, word)

    def __str__(self) -> str:
        return self.text


class Stopped(Error):
    """The program has ended by itself: it couldn't read or write, memory ran out, or it was killed.

    status  its exit status, or the number of the signal that killed it, with a minus: -9; None where a call came
            after the end
    """

    def __init__(self, text: str, status: Optional[int] = None) -> None:
        super().__init__(text, status)
        self.text = text
        self.status = status

    def __str__(self) -> str:
        return self.text


def detail_of(shown: str) -> Detail:
    """What a session shows of a refusal: after its first line 'word 4 moveto' and 'in glyph V, subr 4', where it has them."""
    found = Detail()
    for line in shown.split("\n")[1:-1]:
        kind, _, rest = line.partition(" ")
        if kind == "word":
            number, _, word = rest.partition(" ")
            found = found._replace(word=word, number=int(number))
        else:
            found = found._replace(chain=tuple(rest.split(", ")))
    return found


# The rules of a session that say that something isn't there.
ABSENT = ("E1", "E10")


def refusal(said: str, text: str = "", detail: Detail = Detail()) -> Refused:
    """The exception of a refusal."""
    kind = Missing if said in ABSENT else Refused
    return kind(said, text, detail)
