"""The server in this process, with a client that keeps what it is told; and changes made by chance."""

import os
import random
import sys

HERE = os.path.dirname(os.path.abspath(__file__))
TOP = os.path.dirname(os.path.dirname(HERE))
sys.path[:0] = [os.path.join(TOP, "python")]

from t1edit.lsp.server import Server  # noqa: E402
from t1edit.lsp.wire import Wire  # noqa: E402

URI = "file:///font.t1"
# What may be typed, and what is typed at once by a paste or an undo.
PIECES = [
    "1", "-", " ", "x", "\n", "\t5 7 rlineto\n", "endchar", "% c\n", "%", "{", "}", "\n.\n", "10 ", " div", "closepath\n", "\u0151", "\U0001d538",
    "4 callsubr\n", "65 194 seac", "0 0 0 66 200 seac\n", "hsbw", "\r", "\r\n", "\t} ND\n", "/new {\n", "dup 3 {", "mark currentfile closefile",
    "\n\tmark currentfile closefile\n", "currentfile eexec\n", "/lenIV 4 def\n", "/Subrs 9 array\n", "\xe9", "\t", "32001 ", "1 0 div ",
]  # fmt: skip
SMALL = ["", "", "3", "x", "0", "-"]


class Told(Wire):
    """The messages to a client, kept in a list; what is due is done when the test says so."""

    def __init__(self):
        super().__init__()
        self.told = []

    def send(self, message):
        self.told.append(message)


class Desk:
    """A text in the server, and the same text as its lines."""

    def __init__(self, text, unit="utf-16", **options):
        self.begin(text, unit, **options)
        self.rest()

    def begin(self, text, unit="utf-16", **options):
        """Opens the text, whose faults are told then."""
        self.wire = Told()
        self.server = Server(self.wire)
        self.version = 1
        self.ask("initialize", capabilities={"general": {"positionEncodings": [unit]}}, initializationOptions=options)
        self.notify("textDocument/didOpen", textDocument={"uri": URI, "languageId": "t1", "version": 1, "text": text})

    @property
    def document(self):
        return self.server.workspace.documents[URI]

    @property
    def text(self):
        return "\n".join(self.document.lines)

    def ask(self, method, **params):
        answer = self.server.answer(method, params)
        if "error" in answer:
            raise ValueError(answer["error"]["message"])
        return answer["result"]

    def notify(self, method, **params):
        self.server.take({"method": method, "params": params})

    def change(self, *changes):
        self.version += 1
        self.notify("textDocument/didChange", textDocument={"uri": URI, "version": self.version}, contentChanges=list(changes))

    def rest(self, *names):
        """Does what is due: all of it, or what has these names."""
        for name in names or ("judge", "hold", "notes"):
            self.wire.run_now(f"{name} {URI}")

    def diagnostics(self):
        """What was told last, of this version."""
        told = [it["params"] for it in self.wire.told if it.get("method") == "textDocument/publishDiagnostics"]
        assert told and told[-1]["version"] == self.version, "nothing is told of this version"
        del self.wire.told[:]
        return told[-1]["diagnostics"]

    def close(self):
        self.server._close_all()


def random_change(pick, document):
    """A change of a text, most often a small one."""
    lines, text = document.lines, document.text
    row = pick.randrange(len(lines))
    if pick.random() < 0.5:
        row = pick.choice(rows_of_bodies(document) or [row])
    start = pick.randint(0, len(lines[row]))
    if pick.random() < 0.06:
        return composite(pick, document)
    kind = pick.random()
    if kind < 0.4 and lines[row][start : start + 1].isdigit():
        return {"range": text.span(row, start, start + pick.randint(0, 1)), "text": pick.choice("0123456789")}
    if kind < 0.5:
        return {"range": text.span(row, start, start), "text": pick.choice(PIECES)}
    if kind < 0.9:
        return {"range": text.span(row, start, min(len(lines[row]), start + pick.randint(1, 4))), "text": pick.choice(SMALL)}
    far = min(len(lines) - 1, row + pick.randint(1, 3))
    end = pick.randint(0, len(lines[far]))
    return {"range": {"start": text.position(row, start), "end": text.position(far, end)}, "text": pick.choice(["", "\n", "7 8 rmoveto"])}


def composite(pick, document):
    """A glyph gets a body that may make it a composite, or one without parts."""
    entries, places = document.places.entries, document.places
    numbers = [it for it in places.of_kind("glyph") if entries[it].is_closed and entries[it].height]
    if not numbers:
        return {"range": document.text.span(0, 0, 0), "text": "%"}
    number = pick.choice(numbers)
    codes = f"{pick.randint(65, 90)} {pick.choice([193, 194, 200, pick.randint(65, 90)])}"
    body = pick.choice([f"\n\t0 500 hsbw\n\t0 9 9 {codes} seac\n", f"\n0 500 hsbw 1 {codes} 9 9 seac\n", "\n0 500 hsbw endchar\n"])
    first, last = places.rows[number], places.last(number)
    end = document.lines[last].find("}")
    return {"range": {"start": document.text.position(first, entries[number].body), "end": document.text.position(last, max(0, end))}, "text": body}


def rows_of_bodies(document):
    """The rows of the glyphs that one change may be in, and of the Subrs."""
    entries = document.places.entries
    numbers = range(max(0, len(entries) - 40), len(entries))
    return [row for it in numbers for row in range(document.places.rows[it] + 1, document.places.last(it) + 1)]


def back(before, document):
    """The change that makes the lines of before of a text, by its rows that differ."""
    now = document.lines
    top = next((n for n, (a, b) in enumerate(zip(before, now)) if a != b), min(len(before), len(now)))
    tail = 0
    while tail < min(len(before), len(now)) - top and before[-1 - tail] == now[-1 - tail]:
        tail += 1
    end = len(now) - tail
    if end == len(now):
        return {"text": "\n".join(before)}
    span = {"start": document.text.position(top, 0), "end": document.text.position(end, 0)}
    return {"range": span, "text": "".join(it + "\n" for it in before[top : len(before) - tail])}


def chance(seed):
    return random.Random(seed)
