"""Lists of all faults."""

import pathlib

from room import DEMO, PROGRAM, Room, changed, data

from t1edit import Fault, Stopped, check, faults

TYPO = ("300 hlineto", "300 hlinto")
DIVISION = ("100 178 rlineto", "100 0 div rlineto")


class Lists(Room):
    def test_none(self):
        for source in (DEMO, pathlib.Path(DEMO), data(DEMO)):
            self.assertEqual(faults(source, b"KPX A V -92\n"), [])

    def test_all(self):
        found = faults(changed(TYPO, DIVISION))
        calls = (("glyph acute", "subr 4"),)
        self.assertEqual(
            found,
            [
                Fault("F38", "subr 4", "division by zero", 35, 8, "div", None, calls, composites=("Aacute",)),
                Fault("F20", "glyph A", "an unknown word", 50, 6, "hlinto", "hlineto?", composites=("Aacute",)),
            ],
        )
        self.assertEqual(str(found[0]), "35:8: F38 subr 4: division by zero: div")
        self.assertEqual(str(found[1]), "50:6: F20 glyph A: an unknown word: hlinto (hlineto?)")

    def test_of_reading(self):
        cut = faults(data(DEMO)[:100])
        self.assertEqual([(it.code, it.place, it.word, it.hint, it.chains) for it in cut], [("F1", "", None, None, ())])
        self.assertEqual(str(cut[0]), "1:1: F1: no line ends in 'currentfile eexec'")
        twice = faults(changed(("/acute {", "/A {")))
        self.assertEqual([str(it) for it in twice], ["55:1: F10 line 55: a glyph's name again: /A { (first on line 48)"])

    def test_bytes_that_cannot_be_seen(self):
        found = faults(changed(("15 722", "15\xa0722")))
        self.assertEqual([it.word for it in found], ["15\\xa0722"])

    def test_of_the_kerning_file(self):
        found = faults(changed(TYPO), b"KPX A V x\n")
        self.assertEqual([(it.code, it.line, it.in_kern) for it in found], [("F12", 1, True), ("F20", 50, False)])

    def test_files_that_cannot_be_read(self):
        self.assertRaises(FileNotFoundError, faults, self.path("nosuch.t1"))
        self.assertRaises(FileNotFoundError, faults, DEMO, self.path("nosuch.afm"))
        self.assertRaises(IsADirectoryError, faults, self.room)

    def test_names_like_options(self):
        source = self.path("-")
        with open(source, "wb") as file:
            file.write(changed(TYPO))
        self.assertEqual(len(faults(source)), 1)

    def test_killed(self):
        program = self.program("dying", "kill -9 $$")
        self.assertEqual(self.refused(Stopped, faults, DEMO, program=program).status, -9)
        noisy = self.program("noisy", f'echo noise >&2; exec "{PROGRAM}" "$@"')
        self.assertRaises(Stopped, faults, DEMO, program=noisy)

    def test_one_of_them_is_the_first(self):
        source = changed(TYPO, DIVISION)
        with self.assertRaises(Exception) as caught:
            check(source)
        self.assertIn((caught.exception.code, caught.exception.place), [(it.code, it.place) for it in faults(source)])
