"""Runs of the program on one font, and which program that is."""

import os
import pathlib
import shutil
import subprocess
import sys

from room import DEMO, PACKAGE, PROGRAM, TOP, Room, changed, data

from t1edit import Font, Refused, Stopped, assemble, check, explain, measure

TYPO = ("300 hlineto", "300 hlinto")
DIVISION = ("300 hlineto", "300 0 div hlineto")


class Runs(Room):
    def test_files(self):
        with Font(DEMO, b"KPX A V -92\n") as font:
            for source in (DEMO, pathlib.Path(DEMO), data(DEMO)):
                self.assertEqual(assemble(source), font.pfb())
                self.assertEqual(assemble(source, block=100), font.pfb(100))
                self.assertEqual(assemble(source, pfa=True), font.pfa())
                self.assertEqual(measure(source, b"KPX A V -92\n"), font.afm())
                self.assertNotEqual(measure(source), font.afm())
                self.assertIsNone(check(source))

    def test_refusals(self):
        for call in (assemble, measure, check):
            refused = self.refused(Refused, call, changed(TYPO))
            self.assertEqual(str(refused), "F20 glyph A: an unknown word")
        self.assertEqual(self.refused(Refused, check, changed(DIVISION)).said, "F38 glyph Aacute")
        self.assertTrue(assemble(changed(DIVISION)))
        self.assertEqual(self.refused(Refused, check, DEMO, b"KPX A V x").said, "F12 line 1")

    def test_words_that_mean_nothing(self):
        self.assertRaises(ValueError, assemble, DEMO, block=0)
        self.assertRaises(ValueError, assemble, DEMO, block=1, pfa=True)
        self.assertRaises(ValueError, explain, "F99")
        self.assertRaises(ValueError, explain, "--help")

    def test_files_that_cannot_be_read(self):
        self.assertRaises(FileNotFoundError, check, self.path("nosuch.t1"))
        self.assertRaises(FileNotFoundError, check, DEMO, self.path("nosuch.afm"))
        self.assertRaises(IsADirectoryError, check, self.room)

    def test_explain(self):
        self.assertTrue(explain("F38").startswith("F38: division by zero\n"))
        self.assertTrue(explain("E4").startswith("E4: "))

    def test_killed(self):
        program = self.program("dying", "kill -9 $$")
        self.assertEqual(self.refused(Stopped, check, DEMO, program=program).status, -9)


def without_t1edit():
    """The PATH without the folders that have a t1edit."""
    folders = os.environ["PATH"].split(os.pathsep)
    return os.pathsep.join(it for it in folders if not os.path.exists(os.path.join(it, "t1edit")))


class WhichProgram(Room):
    """Each in a process of its own."""

    def found(self, package=PACKAGE, **environment):
        script = "from t1edit.program import found; print(found())"
        environment = {**{k: v for k, v in os.environ.items() if k != "T1EDIT"}, "PYTHONPATH": package, **environment}
        return subprocess.run([sys.executable, "-Bc", script], env=environment, capture_output=True, text=True)

    def test_of_the_variable(self):
        self.assertEqual(self.found(T1EDIT="/some/where").stdout, "/some/where\n")

    def test_of_the_path(self):
        os.symlink(PROGRAM, self.path("t1edit"))
        path = self.room + os.pathsep + os.environ["PATH"]
        self.assertEqual(self.found(PATH=path).stdout, self.path("t1edit") + "\n")
        self.assertEqual(self.found(PATH=path, T1EDIT="").stdout, self.path("t1edit") + "\n")

    def test_of_the_checkout(self):
        """A checkout whose program is made the first time, which is told on standard error."""
        for name in ("crates.txt", "python"):
            source = os.path.join(TOP, name)
            (shutil.copytree if os.path.isdir(source) else shutil.copy)(source, self.path(name))
        words = '[ -e "$0".made ] || echo t1edit: making it >&2; touch "$0".made; '
        script = self.program("t1edit", f'{words} exec "{PROGRAM}" "$@"')
        for said in ("t1edit: making it\n", ""):
            ran = self.found(self.path("python"), PATH=without_t1edit())
            self.assertEqual((ran.stdout, ran.stderr), (os.path.realpath(script) + "\n", said))

    def test_of_nowhere(self):
        shutil.copytree(PACKAGE, self.path("python"))
        ran = self.found(self.path("python"), PATH=without_t1edit())
        self.assertIn("FileNotFoundError: no program t1edit", ran.stderr)
