"""A font as its user sees it: glyphs, Subrs, pairs, codes, files."""

import os
import stat
import subprocess
from fractions import Fraction
from unittest import mock

from room import ARRAY, BODY, DEMO, PRINTED, PROGRAM, SANS, SMALL, Room, changed, data

from t1edit import Box, Font, Metrics, Missing, Refused, Uses


class Glyphs(Room):
    def test_mapping(self):
        with Font(DEMO) as font:
            self.assertEqual(list(font.glyphs), [".notdef", "Aacute", "A", "acute", "V", "space"])
            self.assertEqual(len(font.glyphs), 6)
            self.assertIn("A", font.glyphs)
            self.assertNotIn("B", font.glyphs)
            self.assertNotIn(65, font.glyphs)
            self.assertEqual(font.glyphs["A"], font.glyphs["A"])
            self.assertNotEqual(font.glyphs["A"], font.glyphs["V"])
            self.assertEqual(len({font.glyphs["A"], font.glyphs["A"]}), 1)
            self.assertEqual([glyph.name for glyph in font.glyphs.values()], list(font.glyphs))
            self.assertIsNone(font.glyphs.get("B"))

    def test_a_name_stays(self):
        with Font(DEMO) as font:
            glyph, subr = font.glyphs["A"], font.subrs[4]
            self.refused(AttributeError, setattr, glyph, "name", "V")
            self.refused(AttributeError, setattr, subr, "number", 3)
            self.refused(AttributeError, setattr, glyph, "bodies", BODY)
            glyph.body, subr.body = BODY, "100 200 rlineto return"
            self.assertEqual((font.glyphs["A"].body, font.subrs[4].body), (PRINTED, "100 200 rlineto\nreturn"))
            self.assertEqual((glyph.name, subr.number), ("A", 4))

    def test_two_fonts_have_two_glyphs(self):
        with Font(DEMO) as one, Font(DEMO) as other:
            self.assertNotEqual(one.glyphs["A"], other.glyphs["A"])

    def test_absent(self):
        with Font(DEMO) as font:
            for call in (lambda: font.glyphs["B"], lambda: font.glyphs.__delitem__("B")):
                missing = self.refused(Missing, call)
                self.assertIsInstance(missing, KeyError)
                self.assertEqual((missing.code, missing.word), ("E1", "B"))

    def test_body(self):
        with Font(DEMO) as font:
            glyph = font.glyphs["A"]
            self.assertEqual(glyph.body, "10 600 hsbw\n300 hlineto\n700 vlineto\nclosepath\nendchar")
            glyph.body = BODY + " % with a comment"
            self.assertEqual(glyph.body, PRINTED)
            glyph.body = glyph.body
            self.assertEqual(glyph.body, PRINTED)

    def test_add_and_remove(self):
        with Font(DEMO) as font:
            self.assertEqual(font.glyphs.add("B", BODY).body, PRINTED)
            self.assertEqual(list(font.glyphs)[-1], "B")
            glyph = font.glyphs["B"]
            del font.glyphs["B"]
            self.assertNotIn("B", font.glyphs)
            self.refused(Missing, lambda: glyph.body)
            self.refused(Missing, lambda: glyph.metrics)
            self.refused(Missing, lambda: glyph.uses)
            self.assertEqual(self.refused(Refused, font.glyphs.add, "A", BODY).code, "E2")

    def test_iteration_while_removing(self):
        with Font(DEMO) as font:
            for name in font.glyphs:
                del font.glyphs[name]
            self.assertEqual(dict(font.glyphs), {})

    def test_metrics(self):
        with Font(DEMO) as font:
            self.assertEqual(font.glyphs["A"].metrics, Metrics("A", 65, 600, Box(10, 0, 310, 700)))
            self.assertEqual(font.glyphs["Aacute"].metrics, Metrics("Aacute", None, 600, Box(10, 0, 310, 892)))
            font.glyphs["A"].body = "10 500 hsbw 300 hlineto 800 vlineto closepath endchar"
            self.assertEqual(font.glyphs["A"].metrics, Metrics("A", 65, 500, Box(10, 0, 310, 800)))
            font.glyphs["V"].body = "0 0 500 20 sbw endchar"
            self.assertEqual(font.glyphs["V"].metrics, Metrics("V", 86, 500, Box(0, 0, 0, 0), rise=20))

    def test_metrics_of_many(self):
        with Font(SANS) as font:
            before = [glyph.metrics for glyph in font.glyphs.values()]
            self.assertEqual([it.name for it in before], list(font.glyphs))
            self.assertEqual(font.glyphs["A"].metrics, before[2])
            glyph = font.glyphs["V"]
            del font.glyphs["V"]
            self.assertEqual(self.refused(Missing, lambda: glyph.metrics).word, "V")
            self.assertEqual([glyph.metrics for glyph in font.glyphs.values()], [it for it in before if it.name != "V"])
            self.assertEqual(self.refused(Missing, lambda: glyph.metrics).word, "V")
            font.glyphs["A"].body = BODY
            self.assertEqual(font.glyphs["A"].metrics.width, 600)

    def test_metrics_of_all(self):
        header = ("(Medium)", "(N A ; N V ; B 1 2 3 4 ;)"), ("(Demo Roman)", "(C 1 ; WX 1 ; N A ; B 1 1 1 1 ;)")
        with Font(changed(*header)) as font:
            said = [line for line in font.afm().decode().split("\n") if line.startswith("C ")]
            for glyph in font.glyphs.values():
                found = glyph.metrics
                code = -1 if found.code is None else found.code
                sides = " ".join(map(str, found.box))
                said.remove(f"C {code} ; WX {found.width} ; N {found.name} ; B {sides} ;")
            self.assertEqual(said, [])

    def test_uses(self):
        with Font(DEMO) as font:
            self.assertEqual(font.glyphs["Aacute"].uses, Uses(parts=("A", "acute")))
            self.assertEqual(font.glyphs["acute"].uses, Uses(subrs=(4,)))
            font.glyphs["V"].body = "0 500 hsbw 0 0 rmoveto 4 callsubr 3 callsubr 4 callsubr closepath endchar"
            self.assertEqual(font.glyphs["V"].uses, Uses(subrs=(3, 4)))
            self.assertEqual(font.glyphs["A"].uses, Uses())


class Shown(Room):
    def test_open(self):
        with Font(DEMO, b"KPX A V 5\n") as font:
            self.assertEqual(repr(font), f"<Font of {DEMO}: 6 glyphs, 5 Subrs, 1 pair>")
            self.assertEqual(repr(font.glyphs), f"<Glyphs of {DEMO}: 6 glyphs>")
            self.assertEqual(repr(font.subrs), f"<Subrs of {DEMO}: 5 Subrs>")
            self.assertEqual(repr(font.kern), f"<Kerning of {DEMO}: 1 pair>")
            self.assertEqual(repr(font.encoding), f"<Encoding of {DEMO}: StandardEncoding>")
            self.assertEqual(repr(font.session), f"<Session of {DEMO}>")
            self.assertEqual(repr([font.glyphs["A"], font.subrs[4]]), "[Glyph(name='A'), Subr(number=4)]")
            font.kern["A", "A"] = 1
            self.assertEqual(repr(font.kern), f"<Kerning of {DEMO}: 2 pairs>")

    def test_of_bytes(self):
        source = changed(ARRAY)
        with Font(source) as font:
            self.assertEqual(repr(font.encoding), f"<Encoding of {len(source)} bytes: 2 codes>")

    def test_closed(self):
        with Font(DEMO) as font:
            pass
        for it in (font, font.glyphs, font.subrs, font.kern, font.encoding):
            self.assertEqual(repr(it), f"<{type(it).__name__} of {DEMO}: the session is closed>")


class Recording:
    """A pen that keeps what it is called with."""

    def __init__(self):
        self.calls = []

    def __getattr__(self, name):
        return lambda *points: self.calls.append((name, *points))


class Outlines(Room):
    def test_outline(self):
        with Font(SANS) as font:
            self.assertEqual(font.glyphs["I"].outline(), (("M", 80, 0), ("L", 170, 0), ("L", 170, 700), ("L", 80, 700)))
            self.assertEqual(font.glyphs["space"].outline(), ())
            curve = font.glyphs["P"].outline()[4]
            self.assertEqual(curve, ("C", 462, 275, 560, Fraction(741, 2), 560, Fraction(975, 2)))
            self.assertTrue(all(type(it) is Fraction for it in curve[1:]))

    def test_composites_have_the_outlines_of_their_parts(self):
        with Font(SANS) as font:
            base, accent, whole = (font.glyphs[name].outline() for name in ("A", "acute", "Aacute"))
            moved = tuple((letter, x + 150, y + 190) for letter, x, y in accent)
            self.assertEqual(whole, base + moved)

    def test_outline_follows_edits(self):
        with Font(SANS) as font:
            font.glyphs["acute"].body = "0 333 hsbw 0 500 rmoveto 100 1 3 div rlineto endchar"
            self.assertEqual(font.glyphs["acute"].outline(), (("M", 0, 500), ("L", 100, Fraction(1501, 3))))
            self.assertEqual(font.glyphs["Aacute"].outline()[-1][0], "L")
            with font.batch():
                font.glyphs["acute"].body = "0 333 hsbw endchar"
                self.assertEqual(len(font.glyphs["acute"].outline()), 2)
            self.assertEqual(font.glyphs["acute"].outline(), ())
            glyph = font.glyphs["V"]
            del font.glyphs["V"]
            self.assertEqual(self.refused(Missing, glyph.outline).word, "V")

    def test_outline_with_flex(self):
        flex = "1 callsubr 0 5 rmoveto 2 callsubr " + "10 0 rmoveto 2 callsubr " * 6 + "50 60 500 0 callsubr"
        with Font(SANS) as font:
            font.glyphs["V"].body = f"0 500 hsbw 0 500 rmoveto {flex} endchar"
            self.assertEqual(font.glyphs["V"].outline(), (
                ("M", 0, 500), ("C", 10, 505, 20, 505, 30, 505), ("C", 40, 505, 50, 505, 60, 505)))

    def test_boxes(self):
        with Font(SANS) as font:
            for glyph in font.glyphs.values():
                points = [it[-2:] for it in glyph.outline()]
                if points:
                    box = glyph.metrics.box
                    self.assertEqual((min(x for x, _ in points), max(y for _, y in points)), (box.left, box.top), glyph)

    def test_draw(self):
        with Font(SANS) as font:
            pen = Recording()
            font.glyphs["dieresis"].draw(pen)
            dot = [("lineTo", (150, 590)), ("lineTo", (150, 690)), ("lineTo", (50, 690)), ("closePath",)]
            self.assertEqual(pen.calls[:5], [("moveTo", (50, 590)), *dot])
            self.assertEqual(pen.calls[5], ("moveTo", (183, 590)))
            self.assertEqual(len(pen.calls), 10)
            pen = Recording()
            font.glyphs["P"].draw(pen)
            self.assertEqual(pen.calls[4], ("curveTo", (462, 275), (560, 370.5), (560, 487.5)))
            self.assertEqual({type(x) for _, *points in pen.calls for point in points for x in point}, {int, float})
            pen = Recording()
            font.glyphs["space"].draw(pen)
            self.assertEqual(pen.calls, [])


class Subrs(Room):
    def test_mapping(self):
        with Font(DEMO) as font:
            self.assertEqual(list(font.subrs), [0, 1, 2, 3, 4])
            self.assertEqual(len(font.subrs), 5)
            self.assertIn(4, font.subrs)
            self.assertNotIn(5, font.subrs)
            self.assertNotIn("4", font.subrs)
            self.assertEqual(font.subrs[4].body, "100 178 rlineto\nreturn")
            self.assertEqual(font.subrs[4], font.subrs[4])

    def test_edits(self):
        with Font(DEMO) as font:
            font.subrs[4].body = "100 200 rlineto return"
            self.assertEqual(font.glyphs["acute"].metrics.box.top, 700)
            self.assertEqual(font.subrs.add(9, "return").number, 9)
            self.assertEqual(list(font.subrs), [0, 1, 2, 3, 4, 9])
            del font.subrs[9]
            self.assertEqual(self.refused(Missing, font.subrs.__delitem__, 9).word, "9")
            self.assertEqual(self.refused(Missing, lambda: font.subrs[9]).code, "E1")
            self.assertEqual(self.refused(Refused, font.subrs.add, -1, "return").code, "E4")
            self.assertEqual(self.refused(Refused, font.subrs.__delitem__, 4).said, "F32 glyph Aacute")

    def test_font_without_subrs(self):
        with Font(SMALL) as font:
            self.assertEqual(dict(font.subrs), {})
            self.assertEqual(self.refused(Refused, font.subrs.add, 0, "return").code, "E9")


class Tables(Room):
    def test_kern(self):
        with Font(DEMO, b"KPX V A -7\nKPX A nosuch 3\n") as font:
            self.assertEqual(dict(font.kern), {("A", "nosuch"): 3, ("V", "A"): -7})
            font.kern["A", "V"] = -92
            self.assertEqual(font.kern[("A", "V")], -92)
            self.assertEqual(list(font.kern), [("A", "V"), ("A", "nosuch"), ("V", "A")])
            self.assertEqual(len(font.kern), 3)
            del font.kern["V", "A"]
            self.assertNotIn(("V", "A"), font.kern)
            self.assertNotIn("VA", font.kern)
            self.assertEqual(self.refused(Missing, font.kern.__delitem__, ("V", "A")).code, "E10")
            self.assertRaises(KeyError, lambda: font.kern["V", "A"])
            self.assertEqual(self.refused(Refused, font.kern.__setitem__, ("A", "V"), 32001).word, "32001")
            self.assertEqual(font.kern.pop(("A", "V")), -92)
            font.kern.clear()
            self.assertEqual(font.session.print("kern"), b"")

    def test_standard_encoding(self):
        with Font(DEMO) as font:
            self.assertTrue(font.encoding.is_standard)
            self.assertEqual((font.encoding[65], font.encoding[251], len(font.encoding)), ("A", "germandbls", 149))
            self.assertNotIn(0, font.encoding)
            self.assertEqual(self.refused(Refused, font.encoding.__setitem__, 65, "V").code, "E5")

    def test_array(self):
        with Font(changed(ARRAY)) as font:
            self.assertFalse(font.encoding.is_standard)
            self.assertEqual(dict(font.encoding), {32: "space", 65: "A"})
            font.encoding[66] = "V"
            self.assertEqual(font.glyphs["V"].metrics.code, 66)
            font.encoding[0] = "nosuch"
            self.assertEqual(list(font.encoding.items()), [(0, "nosuch"), (32, "space"), (65, "A"), (66, "V")])
            del font.encoding[65]
            self.assertIsNone(font.glyphs["A"].metrics.code)
            self.assertEqual(self.refused(Missing, font.encoding.__delitem__, 65).word, "65")
            self.assertEqual(self.refused(Refused, font.encoding.__setitem__, 256, "A").word, "256")
            self.assertEqual(self.refused(Refused, font.encoding.__setitem__, 66, "A;").word, "A;")


class Files(Room):
    def made(self, *words):
        return subprocess.run([PROGRAM, *words], capture_output=True, check=True).stdout

    def test_prints(self):
        with Font(DEMO) as font:
            self.assertEqual(font.pfb(), self.made("assemble", DEMO))
            self.assertEqual(font.pfb(block=100), self.made("assemble", "-l", "100", DEMO))
            self.assertEqual(font.pfa(), self.made("assemble", "-a", DEMO))
            self.assertEqual(font.afm(), self.made("measure", DEMO))
            self.assertEqual(font.source(), data(DEMO))
            self.assertEqual(self.refused(Refused, font.pfb, 0).code, "E4")

    def test_save(self):
        with Font(DEMO, b"KPX A V -92\n") as font:
            for name, wanted in (("a.pfb", font.pfb()), ("a.PFA", font.pfa()), ("a.afm", font.afm()), ("a.t1", font.source())):
                font.save(self.path(name))
                self.assertEqual(data(self.path(name)), wanted)
            font.save(self.path("pairs"), "kern")
            self.assertEqual(data(self.path("pairs")), b"KPX A V -92\n")
            for name, form in (("a.otf", None), ("a", None), ("a.pfb", "uses")):
                self.assertRaises(ValueError, font.save, self.path(name), form)
            self.assertEqual(sorted(os.listdir(self.room)), ["a.PFA", "a.afm", "a.pfb", "a.t1", "pairs"])

    def test_save_replaces_whole_files(self):
        old, link = self.path("old.pfb"), self.path("link.pfb")
        with open(old, "wb") as file:
            file.write(b"old")
        os.chmod(old, 0o640)
        os.symlink("old.pfb", link)
        with open(old, "rb") as before, Font(DEMO) as font:
            font.save(link)
            self.assertEqual(before.read(), b"old")
            self.assertEqual(data(old), font.pfb())
            self.assertTrue(os.path.islink(link))
            self.assertEqual(stat.S_IMODE(os.stat(old).st_mode), 0o640)

    def test_save_writes_into_a_pipe(self):
        path = self.path("pipe.afm")
        os.mkfifo(path)
        with Font(DEMO) as font, open(os.open(path, os.O_RDONLY | os.O_NONBLOCK), "rb") as reader:
            font.save(path)
            self.assertEqual(reader.read(), font.afm())
        self.assertTrue(stat.S_ISFIFO(os.stat(path).st_mode))

    def test_save_that_fails_at_its_end_leaves_the_old_file(self):
        path = self.path("old.pfb")
        with open(path, "wb") as file:
            file.write(b"old")
        with Font(DEMO) as font, mock.patch("t1edit.files.os.replace", side_effect=PermissionError):
            self.assertRaises(PermissionError, font.save, path)
        self.assertEqual((os.listdir(self.room), data(path)), (["old.pfb"], b"old"))

    def test_save_that_fails_leaves_nothing(self):
        folder = self.path("folder.pfb")
        os.mkdir(folder)
        with Font(DEMO) as font:
            self.assertRaises(OSError, font.save, folder)
            self.assertRaises(FileNotFoundError, font.save, self.path("nosuch/a.pfb"))
        self.assertEqual(os.listdir(self.room), ["folder.pfb"])
        self.assertEqual(os.listdir(folder), [])

    def test_save_names_the_file_that_it_was_asked_for(self):
        before = os.getcwd()
        self.addCleanup(os.chdir, before)
        os.chdir(self.room)
        for name in ("folder.pfb", "full"):
            os.mkdir(name)
        with Font(DEMO) as font:
            for path, kind in (("nosuch/a.pfb", FileNotFoundError), ("folder.pfb", IsADirectoryError), (self.path("x/a.afm"), FileNotFoundError)):
                error = self.refused(kind, font.save, path)
                self.assertEqual((error.filename, error.filename2), (path, None))
                self.assertTrue(str(error).endswith(f": {path!r}"), str(error))
            with mock.patch("t1edit.files.os.replace", side_effect=PermissionError(13, "Permission denied", "draft", None, "target")):
                self.assertEqual(str(self.refused(PermissionError, font.save, "a.t1")), "[Errno 13] Permission denied: 'a.t1'")

    def test_a_saved_source_opens_as_the_same_font(self):
        path = self.path("font.t1")
        with Font(changed(ARRAY)) as font:
            font.glyphs["A"].body = BODY
            font.encoding[200] = "A"
            font.save(path)
            with Font(path) as again:
                self.assertEqual(again.pfb(), font.pfb())
                for name, glyph in font.glyphs.items():
                    self.assertEqual(again.glyphs[name].body, glyph.body)
