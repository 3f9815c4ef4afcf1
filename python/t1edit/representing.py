"""What repr says of a font, and of what it has."""

from __future__ import annotations

from typing import Callable

from .refusals import Error
from .session import Session


def counted(count: int, what: str) -> str:
    return f"{count} {what}" + "s" * (count != 1)


def said_of(it: object, session: Session, has: Callable[[], str]) -> str:
    """Which font's it is, and what it has, or why that can't be asked any more."""
    try:
        said = has()
    except Error as error:
        said = str(error)
    return f"<{type(it).__name__} of {session.name}: {said}>"
