"""Batches: taken, refused, left by an exception."""

from room import BODY, DEMO, PRINTED, Room

from t1edit import Font, Missing, Refused, Stopped


class Batches(Room):
    def setUp(self):
        super().setUp()
        self.font = Font(DEMO)
        self.addCleanup(self.font.close)

    def test_taken(self):
        font = self.font
        self.assertEqual(self.refused(Refused, font.glyphs.__delitem__, "acute").said, "F45 glyph Aacute")
        with font.batch():
            del font.glyphs["acute"]
            del font.glyphs["Aacute"]
            font.kern["A", "V"] = -92
        self.assertEqual(list(font.glyphs), [".notdef", "A", "V", "space"])
        self.assertEqual(dict(font.kern), {("A", "V"): -92})

    def test_refused(self):
        font, before = self.font, self.font.source()
        with self.assertRaises(Refused) as caught:
            with font.batch():
                font.glyphs["A"].body = BODY
                del font.glyphs["acute"]
        self.assertEqual(caught.exception.said, "F45 glyph Aacute")
        self.assertEqual(font.source(), before)
        self.assertEqual(font.session.changes, 0)
        with font.batch():
            pass

    def test_undo_by_abort(self):
        font, before = self.font, self.font.source()
        for error in (ZeroDivisionError, KeyboardInterrupt):
            with self.assertRaises(error):
                with font.batch():
                    font.glyphs["A"].body = BODY
                    font.kern["A", "V"] = -92
                    raise error
            self.assertEqual(font.source(), before)
            self.assertEqual(dict(font.kern), {})
        font.glyphs["A"].body = BODY
        self.assertEqual(font.glyphs["A"].body, PRINTED)

    def test_an_edit_that_is_refused_leaves_the_batch(self):
        with self.assertRaises(Missing):
            with self.font.batch():
                self.font.kern["A", "V"] = -92
                del self.font.glyphs["nosuch"]
        self.assertEqual(dict(self.font.kern), {})

    def test_an_edit_that_is_refused_and_caught_does_not(self):
        with self.font.batch():
            self.font.kern["A", "V"] = -92
            self.assertRaises(Missing, self.font.glyphs.__delitem__, "nosuch")
        self.assertEqual(dict(self.font.kern), {("A", "V"): -92})

    def test_reads_show_the_font_before(self):
        font = self.font
        before = font.glyphs["A"].body
        with font.batch():
            font.glyphs["A"].body = BODY
            added = font.glyphs.add("B", BODY)
            added.body = "0 500 hsbw endchar"
            self.assertEqual(font.glyphs["A"].body, before)
            self.assertNotIn("B", font.glyphs)
        self.assertEqual(font.glyphs["A"].body, PRINTED)
        self.assertEqual(added.metrics.width, 500)

    def test_one_in_another(self):
        with self.assertRaises(Refused) as caught:
            with self.font.batch():
                self.font.kern["A", "V"] = -92
                with self.font.batch():
                    self.fail("it was opened")
        self.assertEqual(caught.exception.code, "E11")
        self.assertEqual(dict(self.font.kern), {})

    def test_ended_within(self):
        with self.assertRaises(Refused) as caught:
            with self.font.batch():
                self.font.kern["A", "V"] = -92
                self.font.session.edit("commit")
        self.assertEqual(caught.exception.code, "E12")
        self.assertEqual(dict(self.font.kern), {("A", "V"): -92})

    def test_session_that_dies_within(self):
        with self.assertRaises(ZeroDivisionError):
            with self.font.batch():
                self.font.session._pipes.kill()
                raise ZeroDivisionError
        with self.assertRaises(Stopped):
            with self.font.batch():
                self.fail("it was opened")

    def test_changes(self):
        session, font = self.font.session, self.font
        counts = []
        for call in (
            lambda: font.kern.__setitem__(("A", "V"), 1),
            lambda: font.afm(),
            lambda: session.edit("begin"),
            lambda: font.kern.__setitem__(("A", "V"), 2),
            lambda: self.refused(Refused, session.edit, "begin"),
            lambda: font.kern.__setitem__(("A", "V"), 3),
            lambda: self.refused(Refused, session.edit, "commit", "x"),
            lambda: session.edit("commit"),
            lambda: self.refused(Refused, session.edit, "commit"),
            lambda: session.edit("begin"),
            lambda: session.edit("abort"),
            lambda: self.refused(Refused, session.edit, "abort"),
            lambda: font.kern.__setitem__(("A", "V"), 4),
        ):
            call()
            counts.append(session.changes)
        self.assertEqual(counts, [1, 1, 1, 1, 1, 1, 1, 2, 2, 2, 2, 2, 3])
