"""What the tests of the server share: fonts, folders, a client that is ended."""

import os
import shutil
import sys
import tempfile
import unittest

HERE = os.path.dirname(os.path.abspath(__file__))
TOP = os.path.dirname(os.path.dirname(HERE))
sys.path[:0] = [HERE, os.path.join(TOP, "tests"), os.path.join(TOP, "python")]
sys.dont_write_bytecode = True

PROGRAM = os.path.abspath(os.environ.get("T1EDIT") or os.path.join(TOP, "crates/t1edit/out/t1edit"))
os.environ["T1EDIT"] = PROGRAM
DEMO = os.path.join(TOP, "fonts", "demo.t1")
SANS = os.path.join(TOP, "fonts", "sans.t1")

from client import Client  # noqa: E402


def text_of(path):
    with open(path, "rb") as file:
        return file.read().decode("latin-1")


def settings(kind, nth=0):
    """A block of docs/EDITORS.md."""
    with open(os.path.join(TOP, "docs", "EDITORS.md"), encoding="utf-8") as file:
        blocks = file.read().split(f"\n```{kind}\n")[1:]
    return blocks[nth].partition("\n```\n")[0] + "\n"


class Room(unittest.TestCase):
    """A test with a folder of its own and a server."""

    maxDiff = None

    def setUp(self):
        folder = tempfile.TemporaryDirectory(prefix="t1edit-lsp-")
        self.addCleanup(folder.cleanup)
        self.room = folder.name

    def path(self, name):
        return os.path.join(self.room, name)

    def write(self, name, text):
        path = self.path(name)
        with open(path, "wb") as file:
            file.write(text.encode("latin-1"))
        return path

    def client(self, *words, **environment):
        client = Client(*words, **environment)
        self.addCleanup(client.kill)
        return client

    def opened(self, path=DEMO, encodings=("utf-16",), capabilities=None, **options):
        """A client that has opened a copy of a source."""
        copy = shutil.copy(path, self.room)
        client = self.client()
        client.greet(encodings, capabilities, **options)
        client.open(copy)
        return client

    def ended(self, client):
        """Ends a client, which must have said nothing."""
        self.assertEqual(client.close(), (0, ""))
