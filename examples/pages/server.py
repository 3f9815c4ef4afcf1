"""A server for one page on this machine, which edits a font by a desk."""

from __future__ import annotations

import http.server
import json
import os
import queue
import threading
from typing import Callable, Dict, List, Optional
from urllib.parse import parse_qs, urlsplit

from t1edit import Error

from .desk import Desk, News
from .watch import Watched

HOST = "127.0.0.1"
PAGE = os.path.join(os.path.dirname(os.path.abspath(__file__)), "live.html")
# How often the file is looked at, and after how long a silence a page is told that the server is there, in seconds.
PAUSE, SILENCE = 0.2, 15
HAS_CHANGED = "the file has changed, and what stands in it isn't taken"


class Server(http.server.ThreadingHTTPServer):
    """Answers the requests of pages, and tells them what another program has written to the file."""

    daemon_threads = True

    def __init__(self, desk: Desk, port: int = 0) -> None:
        """Takes a port of the loopback, a free one without a number. Raises OSError where it can't be had."""
        self._has_ended = threading.Event()
        self._watcher = threading.Thread(target=self._watch)
        self.desk = desk
        self.calls: Dict[str, Callable[..., News]] = {
            "/edit": desk.edit,
            "/kern": desk.kern,
            "/undo": desk.undo,
            "/save": self.save,
            "/settle": self.settle,
        }
        self._watched = Watched(desk.source)
        self._listeners: List["queue.Queue[Optional[News]]"] = []
        try:
            super().__init__((HOST, port), Handler)
        except (OSError, OverflowError) as error:
            raise OSError(f"port {port}: {getattr(error, 'strerror', None) or 'it is from 0 to 65535'}") from None
        self._watcher.start()

    @property
    def address(self) -> str:
        return f"http://{HOST}:{self.server_port}/"

    def server_close(self) -> None:
        self._has_ended.set()
        if self._watcher.is_alive():
            self._watcher.join()
        super().server_close()

    def save(self) -> News:
        found: List[News] = []
        is_written = self._watched.write(lambda: found.append(self.desk.save()))
        return found[0] if is_written else {"refused": {"said": "", "text": HAS_CHANGED}}

    def settle(self, keeps_here: bool) -> News:
        """Takes what was asked of the file. All pages are told."""
        found: List[News] = []

        def settled() -> bool:
            found.append(self.desk.settle(keeps_here))
            return self._tell(found[0])

        self._watched.settle(settled)
        return found[0]

    def listen(self) -> "queue.Queue[Optional[News]]":
        """A queue that gets all news of the file from now on."""
        listener: "queue.Queue[Optional[News]]" = queue.Queue()
        self._listeners.append(listener)
        return listener

    def leave(self, listener: "queue.Queue[Optional[News]]") -> None:
        self._listeners.remove(listener)

    def _watch(self) -> None:
        while not self._has_ended.wait(PAUSE):
            self._watched.look(self._bring_in)

    def _bring_in(self, source: bytes) -> bool:
        return self._tell(self.desk.bring_in(source))

    def _tell(self, news: News) -> bool:
        """Tells all pages news of the file; whether it is taken."""
        if "file" in news:
            for listener in list(self._listeners):
                listener.put(news)
        return news.get("file") == {}


class Handler(http.server.BaseHTTPRequestHandler):
    """Requests and answers are JSON. A page of another site gets no answer: it asks by another name of this machine, or
    can't send this kind of content."""

    server: Server
    protocol_version = "HTTP/1.1"
    # (else the second of two small writes waits for the page to acknowledge the first)
    disable_nagle_algorithm = True

    def do_GET(self) -> None:
        url = urlsplit(self.path)
        if not self._is_ours():
            self.send_error(403)
        elif url.path == "/":
            with open(PAGE, "rb") as file:
                self._send(file.read(), "text/html; charset=utf-8")
        elif url.path == "/font":
            self._answer(self.server.desk.everything)
        elif url.path == "/text":
            name = parse_qs(url.query).get("name", [""])[0]
            self._answer(lambda: self.server.desk.text(name))
        elif url.path == "/events":
            self._tell()
        else:
            self.send_error(404)

    def do_POST(self) -> None:
        if not self._is_ours() or self.headers.get_content_type() != "application/json":
            self.send_error(403)
            return
        given = self.rfile.read(int(self.headers["Content-Length"]))
        call = self.server.calls.get(self.path)
        if call is None:
            self.send_error(404)
        else:
            self._answer(lambda: call(**json.loads(given)))

    def _is_ours(self) -> bool:
        """Whether a page of this server asks, and not one that has given its own name to this machine."""
        return self.headers["Host"] in (f"{name}:{self.server.server_port}" for name in (HOST, "localhost"))

    def _answer(self, call: Callable[[], News]) -> None:
        try:
            news = call()
        except (Error, OSError, TypeError, ValueError) as error:
            self._send(json.dumps({"error": str(error)}).encode(), "application/json", 500)
        else:
            self._send(json.dumps(news).encode(), "application/json")

    def _send(self, data: bytes, kind: str, status: int = 200) -> None:
        self.send_response(status)
        self.send_header("Content-Type", kind)
        self.send_header("Content-Length", str(len(data)))
        self.end_headers()
        self.wfile.write(data)

    def _tell(self) -> None:
        """Sends all news of the file as they come, until the page is closed."""
        self.send_response(200)
        self.send_header("Content-Type", "text/event-stream")
        self.send_header("Connection", "close")
        self.end_headers()
        listener = self.server.listen()
        try:
            while True:
                try:
                    line = f"data: {json.dumps(listener.get(timeout=SILENCE))}"
                except queue.Empty:
                    line = ":"
                self.wfile.write(f"{line}\n\n".encode())
        except OSError:
            pass
        finally:
            self.server.leave(listener)
            self.close_connection = True

    def log_message(self, *_: object) -> None:
        """Says nothing of requests."""
