"""What is read of a printed source, for all sources of tests/rows that can be read, beside the reference."""

import glob
import os
import sys

from room import ARRAY, DEMO, TOP, Room, changed, data

from t1edit import Font
from t1edit.printed_source import bodies, slots, without_tabs

sys.path.append(os.path.join(TOP, "tests", "reference"))

import charstrings  # noqa: E402
import source as reference  # noqa: E402
from faults import Fault  # noqa: E402

# The demo font with lines that look like entries and sections, and aren't.
LOOKS_LIKE = changed(
    ("/Subrs 5 array", "//Subrs\t5 \f array{} % /CharStrings 5 dict"),
    ("dup 3 {\n\treturn\n\t} NP", "dup 3 {\n\treturn\n\t} NP /CharStrings 5 dict\n/A {\n\t3\n\t} ND\n/CharStrings 0x5 dict"),
    ("/V {\n\t15", "dup 4 {\n\t4\n\t} NP\n/V\n{\n\t6\n/V {\n\t15"),
    ("cleartomark", "/V {\n\t7\n\t} ND\ncleartomark"),
    ("mark currentfile closefile", "currentfile closefile\nmark currentfile closefile.\n x mark currentfile closefile\t"),
    (
        "dup /Private",
        "/A {\n\t1\n\t} ND\ndup 3 {\n\t2\n\t} NP\n% /Subrs 1 array\n/Subrs 7 arrays\n/Subrs5 array\n/Subrs +5 array\n"
        "/CharStrings\n5 dict\n/CharStrings(5)dict\ndup /Private",
    ),
    ("/FontInfo 5 dict", "/CharStrings 5 dict\n/A {\n\t1 2\n\t} ND\n/Subrs 5 array\n/FontInfo 5 dict"),
)


def sources():
    """All sources of the rows and of fonts/, and some more."""
    for pattern in ("tests/rows/**/*.t1", "fonts/*.t1"):
        for name in sorted(glob.glob(os.path.join(TOP, pattern), recursive=True)):
            yield os.path.relpath(name, TOP), data(name)
    yield "an array", changed(ARRAY)
    yield "looks", LOOKS_LIKE
    yield "a short body", changed(("\t300 hlineto\n\t700 vlineto\n\tclosepath\n", ""))


def of_reference(entry):
    """A body as the reference prints it."""
    return "\n".join(line[1:].decode("latin-1") for line in reference.printed(entry)[1:-1])


class Printed(Room):
    def test_all_sources(self):
        count, arrays = 0, 0
        for name, text in sources():
            try:
                wanted = reference.read_source(text)
            except Fault:
                continue
            with self.subTest(source=name):
                printed = wanted.text().decode("latin-1")
                subrs, glyphs = bodies(printed)
                self.assertEqual(
                    [(key, without_tabs(body)) for key, body in subrs.items()],
                    [(str(key), of_reference(entry)) for key, entry in wanted.subrs().items()],
                )
                self.assertEqual(
                    [(key, without_tabs(body)) for key, body in glyphs.items()],
                    [(key.decode("latin-1"), of_reference(entry)) for key, entry in wanted.glyphs().items()],
                )
                array = wanted.encoding()
                found = array and {code: it.decode("latin-1") for _, (code, it) in sorted(array.slots.items())}
                self.assertEqual(slots(printed), found)
                count, arrays = count + 1, arrays + (array is not None)
        self.assertGreater(count, 200)
        self.assertGreater(arrays, 20)

    def test_in_a_session(self):
        for text in (LOOKS_LIKE, changed(ARRAY)):
            wanted = reference.read_source(text)
            with Font(text) as font:
                self.assertEqual({name: it.body for name, it in font.glyphs.items()},
                                 {name.decode(): of_reference(it) for name, it in wanted.glyphs().items()})
                self.assertEqual({number: it.body for number, it in font.subrs.items()},
                                 {number: of_reference(it) for number, it in wanted.subrs().items()})

    def test_standard_encoding(self):
        with Font(DEMO) as font:
            self.assertEqual(dict(font.encoding), {code: name.decode() for code, name in charstrings.STANDARD.items()})
