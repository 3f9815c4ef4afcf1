"""The package as it is installed, its syntax, and what its documents show."""

import ast
import glob
import inspect
import os
import re
import shutil
import subprocess
import sys
import textwrap

from room import DEMO, PACKAGE, PROGRAM, TOP, Room, data

import t1edit

README = os.path.join(PACKAGE, "README.md")


def text(path):
    return data(path).decode("utf-8")


def python_with(*names):
    """A Python that has these modules, this one or Debian's."""
    script = f"import importlib.util; exit(not all(map(importlib.util.find_spec, {names})))"
    pythons = filter(os.path.exists, (sys.executable, "/usr/bin/python3"))
    return next((it for it in pythons if subprocess.run([it, "-c", script]).returncode == 0), None)


class Package(Room):
    def python(self, *words, python=sys.executable, **environment):
        environment = {**os.environ, **environment}
        return subprocess.run([python, "-B", *words], cwd=self.room, env=environment, capture_output=True, text=True)

    def test_syntax_of_python_3_9(self):
        for path in glob.glob(os.path.join(PACKAGE, "t1edit", "*.py")):
            ast.parse(text(path), path, feature_version=(3, 9))

    def test_nothing_but_the_standard_library(self):
        if sys.version_info < (3, 10):
            self.skipTest("this Python doesn't list its modules")
        allowed = set(sys.stdlib_module_names)
        for path in glob.glob(os.path.join(PACKAGE, "t1edit", "*.py")):
            for node in ast.walk(ast.parse(text(path))):
                if isinstance(node, ast.Import):
                    self.assertLessEqual({it.name.split(".")[0] for it in node.names}, allowed, path)
                elif isinstance(node, ast.ImportFrom) and not node.level:
                    self.assertIn((node.module or "").split(".")[0], allowed, path)

    def test_all_is_documented(self):
        for name in t1edit.__all__:
            self.assertTrue(getattr(t1edit, name).__doc__, name)
        self.assertEqual(t1edit.__all__, sorted(t1edit.__all__))

    def test_version(self):
        said = subprocess.run([PROGRAM, "--version"], capture_output=True, text=True).stdout.split()[1]
        self.assertIn(f'version = "{said}"\n', text(os.path.join(PACKAGE, "pyproject.toml")))

    def test_what_the_readme_shows(self):
        os.symlink(os.path.join(TOP, "fonts"), self.path("fonts"))
        blocks = re.findall(r"(?ms)^```python\n(.*?)^```$", text(README))
        shown = re.findall(r"(?ms)^prints\n\n```\n(.*?)^```$", text(README))
        self.assertEqual((len(blocks), len(shown)), (2, 1))
        ran = self.python("-c", blocks[0], PYTHONPATH=PACKAGE)
        self.assertEqual((ran.stdout, ran.stderr), (shown[0], ""))
        self.assertEqual(data(self.path("built.pfb"))[:2], b"\x80\x01")
        ran = self.python("-c", "from t1edit import Font\n" + blocks[1], PYTHONPATH=PACKAGE)
        self.assertEqual((ran.returncode, ran.stderr), (0, ""))

    def test_what_the_docstrings_show(self):
        for name in ("font.t1", "font.afm"):
            with open(self.path(name), "wb") as file:
                file.write(data(DEMO) if name == "font.t1" else b"KPX A V -92\n")
        for it in (t1edit, t1edit.Font, t1edit.Session):
            lines = [line for line in inspect.getdoc(it).split("\n") if line.startswith(" ") or not line]
            script = "from t1edit import Font, Session\n" + textwrap.dedent("\n".join(lines))
            ran = self.python("-c", script, PYTHONPATH=PACKAGE)
            self.assertEqual((ran.returncode, ran.stderr), (0, ""), script)

    def test_installed(self):
        python = python_with("pip", "setuptools", "wheel")
        if python is None:
            self.skipTest("no Python has pip, setuptools and wheel")
        shutil.copytree(PACKAGE, self.path("copy"))
        options = ["--no-index", "--no-build-isolation", "--no-deps", "--target", "installed"]
        ran = self.python("-m", "pip", "install", "-q", *options, "./copy", python=python)
        self.assertEqual(ran.returncode, 0, ran.stderr)
        self.assertTrue(os.path.exists(self.path("installed/t1edit/py.typed")))
        script = "import t1edit, sys; print(t1edit.__file__, len(t1edit.Font(sys.argv[1]).glyphs))"
        ran = self.python("-c", script, DEMO, python=python, PYTHONPATH=self.path("installed"))
        self.assertEqual(ran.stdout, f"{self.path('installed/t1edit/__init__.py')} 6\n", ran.stderr)
        ran = self.python(self.path("installed/bin/t1edit-lsp"), "--help", python=python, PYTHONPATH=self.path("installed"))
        self.assertTrue(ran.stdout.startswith("usage: t1edit-lsp"), ran.stderr)
