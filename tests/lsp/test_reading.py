"""What the server reads of a text by itself, beside what the program prints and what the pages say; its syntax and installation."""

import ast
import glob
import os
import re
import subprocess
import sys
import unittest

from room import DEMO, PROGRAM, SANS, TOP, Room, text_of

from t1edit import Font  # noqa: E402
from t1edit.lsp import places  # noqa: E402
from t1edit.lsp.commands import COMMANDS  # noqa: E402
from t1edit.lsp.runs import run  # noqa: E402
from t1edit.lsp.text import Text  # noqa: E402

PACKAGE = os.path.join(TOP, "python", "t1edit", "lsp")
FONTS = "/usr/share/fonts/type1/urw-base35/*.t1"
LONGEST = 44


class Places(unittest.TestCase):
    def judged(self, source):
        """The entries, their words, the slots, and the Subrs of each run are those of the program."""
        lines = source.decode("latin-1").split("\n")
        found = places.read(lines)
        with Font(source) as font:
            bodies = [(it.place, [word.text for word in places.words_of(lines, found, n)]) for n, it in enumerate(found.entries)]
            wanted = [(f"subr {n}", it.body.split()) for n, it in font.subrs.items()] + [(f"glyph {n}", it.body.split()) for n, it in font.glyphs.items()]
            self.assertEqual(bodies, wanted)
            if not font.encoding.is_standard:
                self.assertEqual({it.code: it.name for it in found.slots}, dict(font.encoding))
            for name, glyph in font.glyphs.items():
                calls = run(lines, found, found.numbers[f"glyph {name}"], {65: "A", 194: "acute"}.get).calls
                subrs = {int(it.place.split(" ")[1]) for it in calls if it.place.startswith("subr ")}
                self.assertEqual(tuple(sorted(subrs)), glyph.uses.subrs, name)

    def test_fonts_of_the_repository(self):
        for path in glob.glob(os.path.join(TOP, "fonts", "*.t1")):
            with open(path, "rb") as file:
                self.judged(file.read())

    def test_a_real_font(self):
        paths = sorted(glob.glob(FONTS))
        if not paths:
            self.skipTest("the places of a real font, its fonts, fonts-urw-base35")
        self.judged(subprocess.run([PROGRAM, "disassemble", paths[0]], capture_output=True, check=True).stdout)

    def test_sources_of_all_rows(self):
        paths = glob.glob(os.path.join(TOP, "tests", "rows", "**", "*.t1"), recursive=True)
        self.assertGreater(len(paths), 50)
        opened = 0
        for path in paths:
            with open(path, "rb") as file:
                source = file.read()
            if len(source) < 20000 and subprocess.run([PROGRAM, "check", path], capture_output=True).returncode == 0:
                opened += 1
                self.judged_as_lines(source, path)
        self.assertGreater(opened, 20)

    def judged_as_lines(self, source, path):
        lines = Text(source.decode("latin-1")).lines
        found = places.read(lines)
        with Font(source) as font:
            bodies = {it.place: [word.text for word in places.words_of(lines, found, n)] for n, it in enumerate(found.entries)}
            wanted = {f"subr {n}": it.body.split() for n, it in font.subrs.items()}
            wanted.update({f"glyph {n}": it.body.split() for n, it in font.glyphs.items()})
            self.assertEqual(bodies, wanted, path)


class Words(unittest.TestCase):
    def test_commands_are_those_of_the_page(self):
        with open(os.path.join(TOP, "docs", "CHARSTRINGS.md"), encoding="utf-8") as file:
            table = file.read().partition("## Commands")[2].partition("## ")[0]
        rows = re.findall(r"(?m)^\| ([a-z0-9, ]+) \|([^|]*)\| (.*) \|$", table)
        wanted = {name: (takes.strip(), rule.replace("`", "").strip()) for names, takes, rule in rows for name in names.split(", ") if name != "command"}
        self.assertEqual({name: tuple(it) for name, it in COMMANDS.items()}, wanted)

    def test_columns(self):
        text = Text("a\U0001d538\u0151b\nplain", "utf-16")
        self.assertEqual([text.column(0, n) for n in range(5)], [0, 1, 3, 4, 5])
        self.assertEqual([text.character(0, n) for n in range(7)], [0, 1, 2, 2, 3, 4, 4])
        text.unit = "utf-8"
        self.assertEqual([text.column(0, n) for n in range(5)], [0, 1, 5, 7, 8])
        self.assertEqual(text.place({"line": 9, "character": 9}), (1, 5))
        self.assertEqual(text.as_bytes(), b"a\xbf\xbfb\nplain")


class Package(Room):
    def test_syntax_of_python_3_9(self):
        for path in self.modules():
            ast.parse(text_of(path), path, feature_version=(3, 9))

    def test_nothing_but_the_standard_library(self):
        for path in self.modules():
            for node in ast.walk(ast.parse(text_of(path))):
                if isinstance(node, ast.Import):
                    self.assertLessEqual({it.name.split(".")[0] for it in node.names}, set(sys.stdlib_module_names), path)
                elif isinstance(node, ast.ImportFrom) and not node.level:
                    self.assertIn((node.module or "").split(".")[0], sys.stdlib_module_names, path)

    def test_functions_are_short(self):
        for path in self.modules():
            for node in ast.walk(ast.parse(text_of(path))):
                if isinstance(node, ast.FunctionDef):
                    self.assertLessEqual(node.end_lineno - node.lineno, LONGEST, f"{path}: {node.name}")

    def modules(self):
        found = glob.glob(os.path.join(PACKAGE, "*.py"))
        self.assertGreater(len(found), 15)
        return found

    def test_fonts_are_there(self):
        self.assertTrue(os.path.exists(DEMO) and os.path.exists(SANS))
