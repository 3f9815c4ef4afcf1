"""What a user typed is never performed as commands, and what is refused says why."""

import copy
import pickle

from room import BODY, DEMO, PRINTED, Room, changed, data

from t1edit import Font, Missing, NotSent, Refused, Session, Stopped

# What would end a body, and what a session would perform then.
BODIES = [
    ".",
    "10 600 hsbw\n.\nkern A V -50\nadd glyph Q",
    "10 600 hsbw endchar\r.\runkern A V",
    "10 600 hsbw endchar\r\n \t\f.\f\t \r\nremove glyph V",
    "10 600 hsbw endchar\n\0.\0\nremove glyph V",
    "\n\n.\n\n",
    "10 600 hsbw − \n.\nremove glyph V",
]
# What a session would take for two words or for none, and what follows a line end for its next command.
WORDS = ["", " ", "A B", "A ", "\tA", "A\nremove glyph V", "A\rremove glyph V", "A\0", "\fA", "A\x01", "A\x1f", "A\x0b"]
WORDS += ["−\nremove glyph V"]
# Names that it takes for one word, and refuses.
BAD_NAMES = ["a;b", "\xc4", "A\xa0", "A\x85", "−", "A\u2028B", "\U0001f600", "A\udc80", "A" * 128, "(", "A\x7f"]


class Injection(Room):
    def setUp(self):
        super().setUp()
        program, self.kept = self.listening()
        self.font = Font(DEMO, program=program)
        self.addCleanup(self.font.close)

    def written(self):
        """What was written to the session, which has performed it all."""
        self.font.close()
        return data(self.kept).decode("utf-8")

    def calls(self, name):
        """All calls that take a name."""
        font = self.font
        return [
            lambda: font.glyphs.add(name, BODY),
            lambda: font.glyphs.__delitem__(name),
            lambda: font.kern.__setitem__((name, "V"), 1),
            lambda: font.kern.__setitem__(("A", name), 1),
            lambda: font.kern.__delitem__((name, "V")),
            lambda: font.encoding.__setitem__(65, name),
            lambda: font.session.edit("remove", "glyph", name),
            lambda: font.session.edit(name),
            lambda: font.session.send("kern", "A", name, 1),
        ]

    def test_bodies(self):
        for body in BODIES:
            with self.subTest(body=body):
                for call in (
                    lambda: setattr(self.font.glyphs["A"], "body", body),
                    lambda: setattr(self.font.subrs[4], "body", body),
                    lambda: self.font.glyphs.add("B", body),
                    lambda: self.font.subrs.add(9, body),
                    lambda: self.font.session.send("replace", "glyph", "A", body=body),
                ):
                    refused = self.refused(NotSent, call)
                    self.assertEqual((refused.code, refused.place, refused.word), ("", "", "."))
        self.assertEqual(self.font.session.changes, 0)
        self.assertEqual(set(self.written().split("\n")), {"print kern", "print uses", "print source", ""})

    def test_words(self):
        for name in WORDS:
            for at, call in enumerate(self.calls(name)):
                with self.subTest(name=name, call=at):
                    self.assertEqual(self.refused(NotSent, call).word, name)
        self.assertIsInstance(self.refused(NotSent, self.calls("A B")[0]), ValueError)
        self.assertEqual(self.written(), "print kern\n")

    def test_numbers_and_prints(self):
        font = self.font
        for call in (
            lambda: font.kern.__setitem__(("A", "V"), "1\nremove glyph V"),
            lambda: font.encoding.__setitem__("65 A\nremove", "A"),
            lambda: font.subrs.add("9\n", "return"),
            lambda: font.pfb("1\nabort"),
            lambda: font.session.print("kern\nremove glyph V"),
            lambda: font.session.print(""),
            lambda: font.session.edit(),
        ):
            self.refused(NotSent, call)
        self.assertEqual(self.written(), "print kern\n")

    def test_a_body_too_many_and_one_too_few(self):
        edit = self.font.session.edit
        for call in (
            lambda: edit("replace", "glyph", "A"),
            lambda: edit("add", "subr", "9"),
            lambda: edit("add", "subr"),
            lambda: edit("remove", "glyph", "A", body=BODY),
            lambda: edit("replace", "nothing", body=BODY),
            lambda: edit("kern", "A", "V", 1, body=""),
        ):
            self.refused(NotSent, call)
        self.assertEqual(self.refused(Refused, edit, "replace", "nothing").code, "E8")
        self.assertEqual(self.written(), "print kern\nreplace nothing\n")

    def test_bad_names_are_the_sessions_to_refuse(self):
        for name in BAD_NAMES:
            with self.subTest(name=name):
                for call in self.calls(name)[:-2]:
                    refused = self.refused(Refused, call)
                    self.assertNotIsInstance(refused, NotSent)
                    self.assertIn(refused.code, ("E3", "E5") if call in self.calls(name)[5:6] else ("E3",))
        self.assertEqual(self.font.session.changes, 0)

    def test_bodies_that_do_no_harm(self):
        for body in ("% .\n" + BODY, BODY + " % .", BODY + "\n%.", f"% −\r{BODY}\r\n", BODY + "\n % \udc80"):
            with self.subTest(body=body):
                self.font.glyphs["A"].body = body
                self.assertEqual(self.font.glyphs["A"].body, PRINTED)

    def test_bodies_that_the_session_refuses(self):
        for body, code in (
            (". " + BODY, "F20"),
            ("10 600 hsbw\n.. endchar", "F20"),
            ("10 −600 hsbw endchar", "F20"),
            ("10\xa0600 hsbw endchar", "F20"),
            (BODY + " }\n.5\n", "E6"),
            (BODY + "\n\x0b.\n", "F20"),
            ("", "F35"),
        ):
            with self.subTest(body=body):
                self.assertEqual(self.refused(Refused, setattr, self.font.glyphs["A"], "body", body).code, code)
        self.assertEqual(self.font.session.changes, 0)


class Saying(Room):
    def test_what_is_said(self):
        with Font(DEMO) as font:
            refused = self.refused(Refused, setattr, font.glyphs["A"], "body", "10 600 hsbw 1 0 div hmoveto endchar")
            self.assertEqual((refused.said, refused.code, refused.place), ("F38 glyph Aacute", "F38", "glyph Aacute"))
            self.assertEqual(str(refused), "F38 glyph Aacute: division by zero: div")
            self.assertEqual((refused.text, refused.word, refused.number), ("division by zero", "div", 6))
            self.assertEqual(refused.chain, ("glyph A",))

    def test_where_a_fault_is(self):
        with Font(DEMO) as font:
            for subr, glyph, said in (
                ("50 50 rlineto return", "10 600 hsbw 4 callsubr 5 moveto endchar", ("F20 glyph A", "moveto", 7, ())),
                ("1 0 div return", "10 600 hsbw 4 callsubr endchar", ("F38 glyph Aacute", "div", 3, ("glyph A", "subr 4"))),
                ("return", "10 600 hsbw", ("F35 glyph Aacute", None, None, ("glyph A",))),
            ):
                with self.subTest(said=said):
                    refused = self.refused(Refused, self.both, font, subr, glyph)
                    self.assertEqual((refused.said, refused.word, refused.number, refused.chain), said)

    def both(self, font, subr, glyph):
        with font.batch():
            font.subrs[4].body = subr
            font.glyphs["A"].body = glyph

    def test_what_is_known_stays_known(self):
        with Font(DEMO) as font:
            refused = [self.refused(Refused, setattr, font.glyphs["A"], "body", f"{at} moveto") for at in range(3)]
            font.kern[("A", "V")] = 1
        for it in (*refused, pickle.loads(pickle.dumps(refused[0]))):
            self.assertEqual((it.number, str(it)), (2, "F20 glyph A: an unknown word: moveto"))

    def test_what_is_asked_late(self):
        with Font(DEMO) as font:
            late = font.session.send("replace", "glyph", "A", body="moveto")
            font.session.send("kern", "A", "V", 1)
            refused = self.refused(Refused, late.result)
            self.assertEqual((refused.word, refused.number, refused.chain), (None, None, ()))

    def test_words_of_rules(self):
        with Font(changed()) as font:
            for call, code, word in (
                (lambda: font.session.edit("frobnicate"), "E8", None),
                (lambda: font.glyphs.add("a;b", BODY), "E3", "a;b"),
                (lambda: font.glyphs.add("A", BODY), "E2", "A"),
                (lambda: font.kern.__setitem__(("A", "V"), 32001), "E4", "32001"),
                (lambda: font.kern.__setitem__(("A;", "V;"), 1), "E3", None),
                (lambda: font.kern.__delitem__(("A", "V")), "E10", None),
                (lambda: font.subrs.add(32001, "return"), "E4", "32001"),
                (lambda: font.session.edit("set", "leniv", 65), "E4", "65"),
                (lambda: font.pfb(0), "E4", "0"),
                (lambda: font.session.edit("commit"), "E12", None),
            ):
                refused = self.refused(Refused, call)
                self.assertEqual((refused.code, refused.word, refused.place), (code, word, ""))
                self.assertNotEqual(refused.text, "")
                self.assertEqual(str(refused), f"{code}: {refused.text}" + (f": {word}" if word else ""))

    def test_names_that_are_no_str(self):
        with Font(DEMO, b"KPX A V 5\n") as font:
            for name in (b"A", None, 5, True, ("A", "V")):
                for call in (
                    lambda: font.glyphs.add(name, BODY),
                    lambda: font.glyphs[name],
                    lambda: font.glyphs.get(name),
                    lambda: font.glyphs.__delitem__(name),
                    lambda: font.kern[name, "V"],
                    lambda: font.kern["A", name],
                    lambda: font.kern.__setitem__((name, "V"), 1),
                    lambda: font.kern.__setitem__(("A", name), 1),
                    lambda: font.kern.__delitem__((name, "V")),
                    lambda: font.encoding.__setitem__(65, name),
                ):
                    with self.subTest(name=name):
                        self.assertIn(repr(name), str(self.refused(TypeError, call)))
                self.assertFalse(name in font.glyphs or (name, "V") in font.kern)
            self.assertEqual((font.session.changes, dict(font.kern)), (0, {("A", "V"): 5}))

    def test_pairs_that_are_none(self):
        with Font(DEMO, b"KPX A V 5\n") as font:
            for pair in ("AV", "A", ["A", "V"], ("A",), ("A", "V", "A"), None):
                with self.subTest(pair=pair):
                    self.assertIn(repr(pair), str(self.refused(TypeError, font.kern.__setitem__, pair, 1)))
                    self.refused(TypeError, font.kern.__delitem__, pair)
                    self.refused(TypeError, font.kern.__getitem__, pair)
            self.assertNotIn("AV", font.kern)
            self.assertEqual(dict(font.kern), {("A", "V"): 5})

    def test_words_and_bodies_that_are_no_text(self):
        with Font(DEMO) as font:
            for word in (b"A", None, 1.0, ["A"]):
                for call in (
                    lambda: font.session.edit("remove", "glyph", word),
                    lambda: font.session.show("glyph", word),
                    lambda: font.session.send(word),
                    lambda: font.kern.__setitem__(("A", "V"), word),
                    lambda: font.encoding.__setitem__(word, "A"),
                    lambda: font.subrs.add(word, "return"),
                ):
                    with self.subTest(word=word):
                        self.assertIn(repr(word), str(self.refused(TypeError, call)))
            for body in (b"endchar", 5, ["endchar"]):
                self.refused(TypeError, setattr, font.glyphs["A"], "body", body)
                self.refused(TypeError, font.glyphs.add, "B", body)
            self.assertEqual(font.session.changes, 0)

    def test_copies(self):
        with Font(DEMO) as font:
            missing = self.refused(Missing, lambda: font.glyphs["B"])
            self.assertEqual(str(missing), "E1: replace, remove or show: no such glyph or Subr: B")
            not_sent = self.refused(NotSent, font.glyphs.add, "A B", BODY)
        for error in (missing, not_sent, Refused("F1", "text"), Stopped("text", -9)):
            for again in (copy.copy(error), pickle.loads(pickle.dumps(error))):
                self.assertIs(type(again), type(error))
                self.assertEqual((str(again), vars(again)), (str(error), vars(error)))

    def test_a_program_that_explains_nothing(self):
        program = self.program("silent", "read -r line; echo data 0; echo; read -r line; echo refused F99 glyph A; cat")
        with Session(DEMO, program=program) as session:
            refused = self.refused(Refused, session.edit, "remove", "glyph", "A")
            self.assertEqual((refused.code, refused.text, str(refused)), ("F99", "", "F99 glyph A"))

    def test_no_memory(self):
        program = self.program("full", "read -r line; echo data 0; echo; read -r line; echo refused memory")
        with Session(DEMO, program=program) as session:
            refused = self.refused(Refused, session.edit, "begin")
            self.assertEqual((refused.code, str(refused)), ("memory", "memory: there wasn't memory enough"))
