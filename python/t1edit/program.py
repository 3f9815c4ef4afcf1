"""The program t1edit: where it is, and what a run of it comes to."""

from __future__ import annotations

import functools
import os
import re
import shutil
import stat
import subprocess
from typing import Dict, List, Optional, Sequence

from .refusals import Error, Stopped, refusal

# Where the repository is, if this file stands in a checkout of it.
TOP = os.path.dirname(os.path.dirname(os.path.dirname(os.path.realpath(__file__))))
MARK_OF_CHECKOUT = "crates.txt"
# The statuses of a font with a fault, and of a command line that isn't one of the program's.
FAULT, NO_SUCH_WORDS = 1, 2


def found(program: Optional[str] = None) -> str:
    """The program that is run: the one that is named, or that the variable T1EDIT names, or else t1edit of the PATH, or the
    ./t1edit of this checkout. Raises FileNotFoundError."""
    named = program or os.environ.get("T1EDIT") or shutil.which("t1edit")
    if named:
        return named
    if os.path.exists(os.path.join(TOP, MARK_OF_CHECKOUT)):
        return made(os.path.join(TOP, "t1edit"))
    raise FileNotFoundError("no program t1edit: the variable T1EDIT names none, and there is none on the PATH")


@functools.lru_cache(maxsize=None)
def made(script: str) -> str:
    """The script of a checkout, which first makes the program where it isn't there, in minutes, and says so."""
    status = subprocess.run([script, "--version"], stdin=subprocess.DEVNULL, stdout=subprocess.DEVNULL).returncode
    if status:
        raise Stopped(f"{script} ended with status {status}", status)
    return script


def run(program: str, *words: str) -> bytes:
    """What the program writes. Raises Refused and Stopped, and ValueError where these words mean nothing to it."""
    ran = subprocess.run([program, *words], stdin=subprocess.DEVNULL, capture_output=True)
    if ran.returncode:
        said = ran.stderr.decode("latin-1")
        if ran.returncode == NO_SUCH_WORDS:
            raise ValueError(last_line(said))
        raise ending(program, "t1edit", ran.returncode, said)
    return ran.stdout


def last_line(said: str) -> str:
    """The program's line on standard error, or all of it where it isn't of this form."""
    lines: List[str] = re.findall("(?m)^t1edit: (.*)$", said)
    return lines[-1] if lines else said.strip()


def ending(program: str, name: str, status: int, said: str) -> Error:
    """The exception for a program that ended with a status, and what it has said on standard error."""
    line = last_line(said)
    if status == FAULT and re.fullmatch(r"F\d+( .*)?", line):
        return refusal(line, titles(program).get(line.split(" ")[0], ""))
    how = f"signal {-status}" if status < 0 else f"status {status}"
    return Stopped(f"{name} ended with {how}" + (f": {line}" if line else ""), status)


@functools.lru_cache(maxsize=None)
def titles(program: str) -> Dict[str, str]:
    """What each code means, as the program lists them; nothing where it doesn't."""
    try:
        listed = run(program, "explain").decode("latin-1")
    except (Error, OSError, ValueError):
        return {}
    return dict(re.findall(r"(?m)^ +([EF]\d+): (.*)$", listed))


def unreadable(stopped: Stopped, paths: Sequence[Optional[str]]) -> Exception:
    """Why a file can't be read, where that has stopped the program, in the words of Python."""
    if re.search(r": read failed(: |$)", stopped.text):
        for path in filter(None, paths):
            try:
                if not stat.S_ISFIFO(os.stat(path).st_mode):
                    with open(path, "rb") as file:
                        file.read(1)
            except OSError as error:
                return error
    return stopped
