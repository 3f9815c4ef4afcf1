"""A font of 5,000 glyphs."""

import time

from room import DEMO, Room, data

from t1edit import Box, Font, Metrics, Refused

COUNT = 5000
CURVES = 20
SECONDS = 60


def large():
    """The demo font and so many glyphs more, each a box of its own width."""
    curves = "".join(f"\t{at} 10 20 30 -40 50 rrcurveto\n" for at in range(CURVES))
    entries = "".join(f"/g{at} {{\n\t10 {at} hsbw\n{curves}\tclosepath\n\tendchar\n\t}} ND\n" for at in range(COUNT))
    return data(DEMO).replace(b"/.notdef", entries.encode() + b"/.notdef", 1)


class Large(Room):
    def test_read_and_edited(self):
        began = time.monotonic()
        with Font(large()) as font:
            self.assertEqual(len(font.glyphs), COUNT + 6)
            self.assertEqual(list(font.glyphs)[:COUNT], [f"g{at}" for at in range(COUNT)])
            for at in (0, 77, COUNT - 1):
                self.assertEqual(font.glyphs[f"g{at}"].metrics.width, at)
                self.assertTrue(font.glyphs[f"g{at}"].body.startswith(f"10 {at} hsbw\n"))
            for at in range(100):
                font.glyphs["g77"].body = f"10 500 hsbw {at} hlineto 100 vlineto closepath endchar"
                self.assertEqual(font.glyphs["g77"].metrics, Metrics("g77", None, 500, Box(10, 0, 10 + at, 100)))
            with font.batch():
                for name, glyph in font.glyphs.items():
                    if name != "Aacute":
                        lines = glyph.body.split("\n")
                        glyph.body = "\n".join([lines[0].rsplit(" ", 2)[0] + " 123 hsbw", *lines[1:]])
            for name, glyph in font.glyphs.items():
                if name != "Aacute":
                    self.assertEqual(glyph.metrics.width, 123)
                    self.assertEqual(glyph.body.split("\n")[0].split(" ")[1:], ["123", "hsbw"])
            self.assertRaises(Refused, font.glyphs.add, "g77", "endchar")
        self.assertLess(time.monotonic() - began, SECONDS)
