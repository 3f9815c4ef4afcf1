"""A font in a session of the program: its commands and answers, as docs/SESSION.md of the repository has them."""

from __future__ import annotations

import contextlib
import copy
import os
import threading
import warnings
import weakref
from collections import deque
from typing import Any, ContextManager, Deque, Dict, Iterator, Optional, Tuple, Union

from . import library
from .answers import OK, Answer, Answers, NoAnswer
from .files import File, named
from .pipes import Pipes
from .program import ending, found, titles, unreadable
from .refusals import Detail, Error, Refused, Stopped, detail_of, refusal
from .spelling import Word, spelled, text_of

# Of each command, which of its words breaks a rule, where only one can.
OF_ENTRIES = {"E1": 2, "E2": 2, "E3": 2, "E4": 2}
GUILTY: Dict[str, Dict[str, int]] = {
    "replace": OF_ENTRIES,
    "add": OF_ENTRIES,
    "remove": OF_ENTRIES,
    "encode": {"E3": 2, "E4": 1},
    "unencode": {"E4": 1, "E10": 1},
    "kern": {"E4": 3},
    "set": {"E4": 2},
    "print": {"E4": 2},
    "show": {"E1": 2},
}


# The commands that begin and end a batch.
OF_BATCHES = ("begin", "commit", "abort")
# The commands that are answered with data.
WITH_DATA = ("print", "show")
TAKEN = Answer("ok")


class Reply:
    """The answer to a command that was sent."""

    __slots__ = ("_session", "_words", "_answer")

    def __init__(self, session: Session, words: Tuple[str, ...]) -> None:
        self._session = session
        self._words = words
        self._answer: Optional[Answer] = None

    def _is_answered_by(self, answer: Answer) -> bool:
        return answer.line.startswith("refused ") or (answer.line == "data") == (self._words[0] in WITH_DATA)

    def result(self) -> bytes:
        """Waits for the answer: the bytes of a print or a show, and none of any other command. Raises Refused and Stopped."""
        with self._session.held():
            answer = self._answer or self._session._wait_for(self)
            if answer is TAKEN:
                return b""
            if answer.line.startswith("refused "):
                said = answer.line[len("refused ") :]
                raise self._session._refusal(said, self._detail_of(said))
            return answer.data or b""

    def _detail_of(self, said: str) -> Detail:
        """The word that broke a rule; or where the fault is for which the command was refused, unless another edit has come
        since."""
        if not said.startswith("F"):
            return Detail(guilty_word(said, self._words))
        if self._session._last_edit is not self:
            return Detail()
        try:
            return detail_of(self._session.show("refusal").decode("latin-1"))
        except Error:  # (the session has ended, or the program is an older one)
            return Detail()


def guilty_word(said: str, words: Tuple[str, ...]) -> Optional[str]:
    """The word of a command that broke a rule, where only one can."""
    at = GUILTY.get(words[0], {}).get(said)
    return None if at is None else words[at]


class Session:
    """A font that takes the commands of a session, and answers each. A thread that has a command performed waits until the
    one before is answered, and until another thread's batch has ended.

        with Session("font.t1") as font:
            font.edit("kern", "A", "V", -92)
            font.edit("replace", "glyph", "A", body="10 600 hsbw 300 hlineto closepath endchar")
            afm = font.print("afm")

    An edit that is refused raises Refused, and has changed nothing. An interrupt (Ctrl-C) while a call waits loses nothing
    but the answer. Nothing is saved at the end.
    """

    # what a call raises once the session has ended
    _ending: Optional[Error] = Stopped("the session isn't open")

    def __init__(self, source: File, kern: Optional[File] = None, *, program: Optional[str] = None) -> None:
        """Opens a font with the pairs of a kerning file; both are paths or bytes. Raises Refused where one has a fault."""
        self._program = found(program)
        # what repr calls the font: its path, or how many bytes it has
        self.name = f"{len(source)} bytes" if isinstance(source, bytes) else os.fspath(source)
        self._lock = threading.RLock()
        self._answers = Answers()
        self._waiting: Deque[Reply] = deque()
        self._last_edit: Optional[Reply] = None
        self._changes = self._entries = 0
        self._in_batch = False
        self._is_torn = False
        with named(source) as path, named(kern) as pairs:
            assert path is not None
            options = [] if pairs is None else ["--kern", pairs]
            shared = library.named(program)
            words = [self._program, "session", *options, path]
            self._pipes: Union[Pipes, library.Calls] = library.Calls(shared, path, pairs) if shared else Pipes(words)
            OPENED.add(self)
            self._ending = None
            try:
                self.print("kern")  # (a font that is refused answers nothing)
            except Stopped as stopped:
                raise unreadable(stopped, [path, pairs]) from None
            except BaseException:
                self._give_up(Stopped("the session isn't open"))
                raise

    def __repr__(self) -> str:
        return f"<Session of {self.name}>"

    def __enter__(self) -> Session:
        return self

    def __exit__(self, *_: object) -> None:
        self.close()

    def __del__(self) -> None:
        if self._ending is None:
            self._give_up(Stopped("the session is closed"))
            if self._pipes.is_ours:
                warnings.warn(f"{self!r} wasn't closed", ResourceWarning, source=self)

    @property
    def pid(self) -> int:
        """The number of the session's process."""
        return self._pipes.pid

    @property
    def changes(self) -> int:
        """How often the font has changed: by an edit outside of batches, or by a batch. What is printed stays the same for as
        long. It waits for all answers that are under way."""
        with self.held():
            self._take_all()
            return self._changes

    @property
    def entries(self) -> int:
        """How often glyphs or Subrs may have been added or removed: which of them there are stays the same for as long."""
        with self.held():
            self._take_all()
            return self._entries

    def edit(self, *words: Word, body: Optional[str] = None) -> None:
        """Has a command performed, as edit('remove', 'glyph', 'A'); with a body for replace and add."""
        with self._lock:
            self.send(*words, body=body).result()

    def print(self, what: str) -> bytes:
        """The bytes of what is printed: 'source', 'kern', 'pfb', 'pfb N' in segments of N bytes, 'pfa', 'afm', 'uses'."""
        with self._lock:
            return self.send("print", *what.split(" ")).result()

    def show(self, what: str, *word: Word) -> bytes:
        """The bytes of what is shown of one entry: show('glyph', 'A'), show('subr', 4), show('metrics', 'A'),
        show('outline', 'A'); of the encoding: show('encoding'); or of the last edit that was refused: show('refusal')."""
        with self._lock:
            return self.send("show", what, *word).result()

    @contextlib.contextmanager
    def batch(self) -> Iterator[None]:
        """A batch of edits, which are judged together at its end. Where they are refused, or where an exception leaves it,
        all are dropped. What is printed meanwhile is the font before the batch. Other threads wait for its end."""
        with self.held():
            try:
                self.edit("begin")
            except Error:
                raise
            except BaseException:  # (an interrupt; the command is on its way)
                self._abort()
                raise
            try:
                yield
            except BaseException:
                self._abort()
                raise
            self.edit("commit")

    def held(self) -> ContextManager[Any]:
        """Keeps other threads waiting, as long as it is entered."""
        return self._lock

    def send(self, *words: Word, body: Optional[str] = None) -> Reply:
        """Writes a command, whose answer may be taken later, and in any order. Answers that come meanwhile are read, so
        that it never waits for one to be taken. Raises NotSent and Stopped."""
        texts = tuple(map(text_of, words))
        line, text = spelled(texts, body)
        with self._lock:
            self._judge_open()
            reply = Reply(self, texts)
            if texts[0] not in WITH_DATA:
                self._last_edit = reply
            self._is_torn = True
            self._waiting.append(reply)
            given = self._pipes.push(line, text)
            if given:
                self._take(given)
            self._is_torn = False
            while self._pipes.has_unwritten:
                self._exchange()
        return reply

    def close(self) -> None:
        """Ends the session, once all that was sent is performed."""
        with self.held():
            try:
                while self._is_at_work() and self._pipes.has_unwritten:
                    self._exchange()
                self._pipes.close_input()
                while self._is_at_work():
                    self._exchange()
            finally:
                self._give_up(Stopped("the session is closed"))

    def missing(self, word: str) -> Refused:
        """The exception for what isn't there."""
        return self._refusal("E1", Detail(word))

    def _refusal(self, said: str, detail: Detail) -> Refused:
        """The exception for what was refused by this code and at this place."""
        code = said.partition(" ")[0]
        text = "there wasn't memory enough" if code == "memory" else titles(self._program).get(code, "")
        return refusal(said, text, detail)

    def _take_all(self) -> None:
        """Takes all answers that are under way."""
        while self._waiting and self._is_at_work():
            self._exchange()

    def _abort(self) -> None:
        """Drops the batch, where the session and its batch are still there."""
        with contextlib.suppress(Error):
            self.edit("abort")

    def _wait_for(self, reply: Reply) -> Answer:
        while reply._answer is None:
            self._judge_open()
            self._exchange()
        return reply._answer

    def _is_at_work(self) -> bool:
        """Whether it has neither ended nor been torn, and isn't another process's."""
        return self._ending is None and not self._is_torn and self._pipes.is_ours

    def _judge_open(self) -> None:
        """Raises Stopped where the session has ended, or where an exception tore a write or a read in two."""
        if self._is_torn and self._ending is None:
            self._give_up(Stopped("the session was interrupted in the midst of a command"))
        if self._ending is not None:
            raise copy.copy(self._ending)
        if not self._pipes.is_ours:
            raise Stopped("the session is that of the process that opened it")

    def _exchange(self) -> None:
        """Waits until something can be written or read, and does so; the answers that are whole then are given out."""
        ready = self._pipes.wait()
        self._is_torn = True
        given = self._pipes.move(ready)
        if given is None:
            self._ending = ending(self._program, "the session", *self._pipes.end())
        else:
            self._take(given)
        self._is_torn = False

    def _take(self, given: bytes) -> None:
        """Takes what the session has given, and gives out the answers that are whole then."""
        if given == OK and self._answers.is_empty and self._waiting and self._waiting[0]._words[0] not in WITH_DATA:
            self._note(self._waiting.popleft(), TAKEN)
            return
        self._answers.feed(given)
        try:
            answer = self._answers.take()
            while answer is not None:
                if not self._waiting or not self._waiting[0]._is_answered_by(answer):
                    raise NoAnswer(answer.line)
                self._note(self._waiting.popleft(), answer)
                answer = self._answers.take()
        except NoAnswer as error:
            self._give_up(Stopped(f"{self._program} isn't t1edit: it answered {str(error)[:80]!r}"))

    def _note(self, reply: Reply, answer: Answer) -> None:
        """Gives out an answer, and keeps count of changes."""
        reply._answer = answer
        words, is_taken = reply._words, answer is TAKEN or answer.line == "ok"
        if words[0] in OF_BATCHES and len(words) == 1:
            self._changes += is_taken and words[0] == "commit"
            self._entries += words[0] == "commit"
            self._in_batch = words[0] == "begin" and (self._in_batch or is_taken)
        elif is_taken and not self._in_batch:
            self._changes += 1
            self._entries += words[0] in ("add", "remove")

    def _give_up(self, why: Error) -> None:
        """Ends the program where it runs, and leaves no process and no pipe behind."""
        self._ending = why
        self._pipes.kill()
        self._pipes.end()


# The sessions that were opened. A fork of this process has none of its threads, which could hold their locks.
OPENED: weakref.WeakSet[Session] = weakref.WeakSet()


def leave_alone() -> None:
    """In a fork the sessions are those of the process that opened them."""
    for session in OPENED:
        session._lock = threading.RLock()
        session._pipes.is_ours = False


os.register_at_fork(after_in_child=leave_alone)
