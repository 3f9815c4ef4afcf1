"""A source in neovim and in Emacs, without a screen, by the settings of docs/EDITORS.md."""

import json
import os
import shutil
import subprocess
import sys

from room import DEMO, HERE, PROGRAM, TOP, Room, settings

PACKAGE = os.path.join(TOP, "python")
SERVER = """#!/bin/sh
PYTHONPATH='{}' exec '{}' -B -m t1edit.lsp "$@"
"""
EGLOT = "/usr/share/emacs/site-lisp/elpa"


class Editors(Room):
    """A folder with a source, in which program and server are on the PATH."""

    def setUp(self):
        super().setUp()
        self.source = shutil.copy(DEMO, self.room)
        tools = self.path("bin")
        os.mkdir(tools)
        os.symlink(PROGRAM, os.path.join(tools, "t1edit"))
        with open(os.path.join(tools, "t1edit-lsp"), "w", encoding="utf-8") as file:
            file.write(SERVER.format(PACKAGE, sys.executable))
        os.chmod(os.path.join(tools, "t1edit-lsp"), 0o755)
        self.environment = {**os.environ, "PATH": tools + os.pathsep + os.environ["PATH"], "HOME": self.room, "LC_ALL": "C.UTF-8"}

    def edited(self, *words):
        """Runs an editor, which says that all is as it is wanted."""
        how = {"cwd": self.room, "env": self.environment, "stdin": subprocess.DEVNULL, "timeout": 60}
        ran = subprocess.run(words, stdout=subprocess.PIPE, stderr=subprocess.STDOUT, **how)
        said = ran.stdout.decode(errors="replace")
        self.assertEqual(ran.returncode, 0, said)
        self.assertIn("all ok", said)

    def test_neovim(self):
        if not shutil.which("nvim"):
            self.skipTest("a source in neovim, neovim, neovim")
        settings_here = settings("lua").replace("~/src/t1edit/editors/vim", os.path.join(TOP, "editors", "vim"))
        with open(self.path("init.lua"), "w", encoding="utf-8") as file:
            file.write(settings_here)
        script = ["-c", f"luafile {HERE}/nvim.lua", "-c", "cquit!"]
        self.edited("nvim", "-n", "--headless", "-i", "NONE", "-u", "init.lua", "demo.t1", *script)

    def test_emacs(self):
        if not shutil.which("emacs"):
            self.skipTest("a source in Emacs, Emacs, emacs-nox")
        if not has_eglot():
            self.skipTest("a source in Emacs, eglot, elpa-eglot")
        with open(self.path("settings.el"), "w", encoding="utf-8") as file:
            file.write(settings("elisp"))
        subprocess.run([PROGRAM, "assemble", "-o", self.path("font.pfb"), DEMO], check=True)
        self.edited("emacs", "--batch", "-q", "-l", os.path.join(HERE, "eglot.el"))
        again = subprocess.run([PROGRAM, "disassemble", self.path("font.pfb")], capture_output=True, check=True).stdout
        self.assertIn(b"\t15 723 hsbw\n", again)

    def test_the_extension_of_code(self):
        """What it starts, registers and asks of the server, over stand-ins for VS Code."""
        if not shutil.which("node"):
            self.skipTest("the extension of VS Code, node, nodejs")
        words = ["node", os.path.join(HERE, "extension.js"), os.path.join(TOP, "editors", "vscode", "extension.js")]
        found = json.loads(subprocess.run(words, capture_output=True, check=True).stdout)
        asked = [
            ["server", "t1edit-lsp", "--stdio", {"writeOnSave": ["pfb"], "pictures": True}],
            ["started"],
            ["workspace/executeCommand", "t1edit.write", "file:///font.t1", "pfb", "afm"],
            ["workspace/executeCommand", "t1edit.page", "file:///font.t1", 3, 4],
            ["workspace/executeCommand", "t1edit.source", "file:///font.pfb"],
            ["language", "t1"],
            ["shown", "t1edit-source:///font.pfb", "the source"],
            ["stopped"],
        ]
        self.assertEqual(found["asked"], asked)
        self.assertTrue(found["isDisposed"])


def has_eglot():
    """Whether Emacs has eglot: by a package of its own, or from version 29 on."""
    if os.path.isdir(EGLOT) and any(it.startswith("eglot") for it in os.listdir(EGLOT)):
        return True
    return subprocess.run(["emacs", "--batch", "-q", "--eval", "(require 'eglot)"], capture_output=True).returncode == 0
