"""Changes and requests by chance, and the mistakes of users: what is told is what the program tells of the text from scratch."""

import os
import re
import sys
import unittest

from room import DEMO, HERE, SANS, TOP, text_of

from changes import changes  # noqa: E402
from desk import URI, Desk, back, chance, random_change  # noqa: E402

MISTAKES = os.path.join(TOP, "tests", "mistakes")
HEAD = re.compile(r"\w+\.t1:(\d+):(\d+): (?:note )?([\w-]+)")
AT_A_PLACE = ["hover", "definition", "references", "documentHighlight", "completion", "prepareRename", "rename"]
OVER_ROWS = ["inlayHint", "codeAction", "semanticTokens/range", "rangeFormatting"]
OF_ALL = ["documentSymbol", "foldingRange"]
# Answers that are no mistake of the server: a name that can't be given, a place without a name.
REFUSED = re.compile("no glyph stands here|is a part of composites|there is a glyph")
COUNT, REQUESTS, SEED = (int(os.environ.get(f"LSP_{name}", value)) for name, value in (("CHANGES", 2000), ("REQUESTS", 3000), ("SEED", 1)))


class Changes(unittest.TestCase):
    def made(self, path, count, seed):
        kinds, wrong = changes(path, count, seed)
        self.assertEqual(wrong, [])
        for kind in ("by session", "refused by it", "whole", "with faults"):
            self.assertGreater(kinds[kind], count // 50, dict(kinds))

    def test_a_font_with_composites(self):
        self.made(SANS, COUNT // 2, SEED)

    def test_a_small_font(self):
        self.made(DEMO, COUNT - COUNT // 2, SEED + 1)


class Requests(unittest.TestCase):
    """Requests at random places of sound and of broken texts."""

    def test_all_are_answered(self):
        pick, text = chance(SEED), text_of(SANS)
        desk = Desk(text, "utf-16", pictures=True)
        self.addCleanup(desk.close)
        for n in range(REQUESTS):
            if n % 6 == 0:
                before = list(desk.document.lines)
                desk.change(random_change(pick, desk.document))
                if pick.random() < 0.4:
                    desk.change(back(before, desk.document))
                elif pick.random() < 0.1:
                    desk.change({"text": text})
            method, params = self.request(pick, desk)
            try:
                desk.ask(f"textDocument/{method}", **params)
            except ValueError as error:
                self.assertRegex(str(error), REFUSED, (method, params))
            del desk.wire.told[:]

    def request(self, pick, desk):
        lines = desk.document.lines
        row = pick.randrange(len(lines) + 1)
        column = pick.randint(0, len(lines[row]) + 2 if row < len(lines) else 3)
        method = pick.choice(AT_A_PLACE + OVER_ROWS + OF_ALL)
        params = {"textDocument": {"uri": URI}, "options": {}, "newName": "another"}
        if method in AT_A_PLACE:
            params.update(position={"line": row, "character": column}, context={"includeDeclaration": True})
        else:
            params["range"] = {"start": {"line": row, "character": 0}, "end": {"line": row + 60, "character": 0}}
        return method, params


class Mistakes(unittest.TestCase):
    """The mistakes of tests/mistakes, each told at its place."""

    def setUp(self):
        self.base = text_of(os.path.join(MISTAKES, "base.t1"))
        self.desk = Desk(self.base)
        self.addCleanup(self.desk.close)
        self.assertEqual(self.desk.diagnostics(), [])

    def told(self, text):
        """What is told of a text: severity, row, column and code of each."""
        self.desk.change({"text": text})
        self.desk.rest()
        where = [(it["severity"], it["range"]["start"], it["code"]) for it in self.desk.diagnostics()]
        return [(severity, at["line"] + 1, at["character"] + 1, code) for severity, at, code in where]

    def blocks(self, name):
        with open(os.path.join(MISTAKES, name), encoding="latin-1") as file:
            found = [[row for row in block.strip().split("\n") if not row.startswith("#")] for block in file.read().split("\n\n")]
        return [it for it in found if it]

    def test_each_alone(self):
        for name, *rows in self.blocks("table"):
            with self.subTest(name):
                old, new = (unescaped(row.partition(" ")[2]) for row in rows[:2])
                told = self.told(self.base.replace(old, new))
                wanted = [(1 if row.startswith("faults ") else 2, *place_of(row)) for row in rows[2:] if row != "passes"]
                self.assertLessEqual(set(wanted), set(told))
                self.assertEqual(bool(wanted), bool(told))
                self.assertEqual([it for it in told if it[0] == 1][:1], [it for it in wanted if it[0] == 1])

    def test_twenty_in_one_source(self):
        lines = text_of(SANS).split("\n")
        rows = self.blocks("twenty")
        for change, _ in rows:
            number, _, text = change.partition(" ")
            lines[int(number) - 1] = unescaped(text)
        told = [it for it in self.told("\n".join(lines)) if it[0] == 1]
        self.assertEqual(told, [(1, *place_of(fault)) for _, fault in rows])


def unescaped(text):
    return text.encode("latin-1").decode("unicode_escape")


def place_of(row):
    line, column, code = HEAD.search(row).groups()
    return int(line), int(column), code


if __name__ == "__main__":
    sys.path.insert(0, HERE)
    unittest.main()
