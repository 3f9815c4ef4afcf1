"""Files that the program is given, and files that are written whole or not at all."""

from __future__ import annotations

import contextlib
import os
import secrets
import tempfile
from typing import Iterator, Optional, Union

# A file by its path, or the bytes that it would hold.
File = Union[str, "os.PathLike[str]", bytes]


@contextlib.contextmanager
def named(file: Optional[File]) -> Iterator[Optional[str]]:
    """A path by which the program reads a file. Bytes are put into a file that is there for so long."""
    if file is None:
        yield None
    elif isinstance(file, bytes):
        with tempfile.NamedTemporaryFile(prefix="t1edit-") as room:
            room.write(file)
            room.flush()
            yield room.name
    else:
        path = os.fspath(file)
        # (else the program would take it for an option, or for its standard input)
        yield os.path.join(os.curdir, path) if path.startswith("-") else path


def save(path: Union[str, "os.PathLike[str]"], data: bytes) -> None:
    """Writes a file whole, or leaves it as it was: a draft beside it gets its name. What is no plain file, as a device or
    a pipe, is written as it stands; of a link, the file that it leads to. A file keeps its permissions. Where that fails,
    the error names this path."""
    try:
        write(os.path.realpath(path), data)
    except OSError as error:
        error.filename = os.fspath(path)
        del error.filename2
        raise


def write(path: str, data: bytes) -> None:
    """Writes what stands at a path that leads over no link."""
    if os.path.exists(path) and not os.path.isfile(path):
        with open(path, "wb") as file:
            file.write(data)
        return
    draft = os.path.join(os.path.dirname(path), f".t1edit-{secrets.token_hex(8)}")
    try:
        with open(draft, "xb") as file:
            file.write(data)
            file.flush()
            os.fsync(file.fileno())
        with contextlib.suppress(FileNotFoundError):
            os.chmod(draft, os.stat(path).st_mode & 0o7777)
        os.replace(draft, path)
    except BaseException:
        with contextlib.suppress(FileNotFoundError):
            os.remove(draft)
        raise
