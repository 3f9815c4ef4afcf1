"""A client that speaks raw JSON-RPC with the server in a process of its own."""

import json
import os
import select
import subprocess
import sys

HERE = os.path.dirname(os.path.abspath(__file__))
TOP = os.path.dirname(os.path.dirname(HERE))
PACKAGE = os.path.join(TOP, "python")
SECONDS = 90


class Client:
    """A server, and what it has told."""

    def __init__(self, *words, **environment):
        self.environment = {**os.environ, "PYTHONPATH": PACKAGE, **environment}
        how = {"stdin": subprocess.PIPE, "stdout": subprocess.PIPE, "stderr": subprocess.PIPE, "env": self.environment}
        self.process = subprocess.Popen([sys.executable, "-B", "-m", "t1edit.lsp", *words], **how)
        self.number, self.version, self.uri, self.text = 0, 0, "", ""
        self.told, self.unread = [], bytearray()

    def write(self, message):
        body = json.dumps({"jsonrpc": "2.0", **message}).encode()
        self.raw(b"Content-Length: %d\r\n\r\n" % len(body) + body)

    def raw(self, data):
        self.process.stdin.write(data)
        self.process.stdin.flush()

    def read(self):
        """The next message."""
        while b"\r\n\r\n" not in self.unread:
            self.more()
        head, _, _ = bytes(self.unread).partition(b"\r\n\r\n")
        start = len(head) + 4
        length = int(head.lower().split(b"content-length:")[1].split(b"\r\n")[0])
        while len(self.unread) < start + length:
            self.more()
        body = bytes(self.unread[start : start + length])
        del self.unread[: start + length]
        return json.loads(body)

    def more(self):
        """Reads what the server has written."""
        end = self.process.stdout.fileno()
        assert select.select([end], [], [], SECONDS)[0], "the server tells nothing"
        piece = os.read(end, 1 << 20)
        assert piece, f"the server has ended: {self.process.stderr.read().decode()}"
        self.unread += piece

    def notify(self, method, **params):
        self.write({"method": method, "params": params})

    def answer(self, method, **params):
        """The answer to a request: its result or its error. What is told meanwhile is kept."""
        self.number += 1
        self.write({"id": self.number, "method": method, "params": params})
        while True:
            message = self.read()
            if message.get("id") == self.number and "method" not in message:
                return message
            self.told.append(message)

    def ask(self, method, **params):
        answer = self.answer(method, **params)
        if "error" in answer:
            raise ValueError(answer["error"]["message"])
        return answer["result"]

    def next(self, method, wanted=lambda params: True):
        """The parameters of the next message of a method that are wanted."""
        while True:
            message = self.told.pop(0) if self.told else self.read()
            if message.get("method") == method and wanted(message["params"]):
                return message["params"]

    def diagnostics(self, version=None, wanted=lambda diagnostics: True):
        """The next diagnostics that are told of a version, the last one without a version."""
        version = self.version if version is None else version
        method = "textDocument/publishDiagnostics"
        return self.next(method, lambda it: it.get("version", 0) >= version and wanted(it["diagnostics"]))["diagnostics"]

    def greet(self, encodings=("utf-16",), capabilities=None, **options):
        given = {"general": {"positionEncodings": list(encodings)}, **(capabilities or {})}
        answer = self.ask("initialize", processId=os.getpid(), rootUri=None, capabilities=given, initializationOptions=options)
        self.notify("initialized")
        return answer

    def open(self, path, text=None):
        if text is None:
            with open(path, "rb") as file:
                text = file.read().decode("latin-1")
        self.text, self.uri, self.version = text, "file://" + os.path.abspath(path), 1
        it = {"uri": self.uri, "languageId": "t1", "version": 1, "text": text}
        self.notify("textDocument/didOpen", textDocument=it)

    def change(self, row, start, end_row, end, text):
        span = {"start": {"line": row, "character": start}, "end": {"line": end_row, "character": end}}
        return self.changes({"range": span, "text": text})

    def changes(self, *changes):
        self.version += 1
        self.notify("textDocument/didChange", textDocument={"uri": self.uri, "version": self.version}, contentChanges=list(changes))
        return self.version

    def at(self, row, character, **more):
        return {"textDocument": {"uri": self.uri}, "position": {"line": row, "character": character}, **more}

    def over(self, first, last, **more):
        span = {"start": {"line": first, "character": 0}, "end": {"line": last, "character": 0}}
        return {"textDocument": {"uri": self.uri}, "range": span, **more}

    def spot(self, word, nth=0):
        """The row and the column of a text that the opened one has."""
        at = -1
        for _ in range(nth + 1):
            at = self.text.index(word, at + 1)
        return self.text.count("\n", 0, at), at - (self.text.rfind("\n", 0, at) + 1)

    def close(self):
        """Ends the server: its status, and what it has said on standard error."""
        self.ask("shutdown")
        self.notify("exit")
        said = self.process.stderr.read().decode()
        self.kill()
        return self.process.wait(SECONDS), said

    def kill(self):
        for end in (self.process.stdin, self.process.stdout, self.process.stderr):
            end.close()
        if self.process.poll() is None:
            try:
                self.process.wait(5)
            except subprocess.TimeoutExpired:
                self.process.kill()
                self.process.wait()
