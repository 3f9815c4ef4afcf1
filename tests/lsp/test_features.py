"""What the server answers on fonts/demo.t1, beside what a reader of that file expects."""

import os
import subprocess
import time

from room import DEMO, PROGRAM, TOP, Room, text_of

HIERARCHY = {"textDocument": {"documentSymbol": {"hierarchicalDocumentSymbolSupport": True}}}
WEIGHT = "100 178 rlineto"


def starts(found):
    """Where ranges start, as rows and columns."""
    return [(it["range"]["start"]["line"], it["range"]["start"]["character"]) for it in found]


def said(answer):
    return answer and answer["contents"]["value"]


class Reading(Room):
    """Requests on a sound source."""

    def setUp(self):
        super().setUp()
        self.c = self.opened(capabilities=HIERARCHY)
        self.assertEqual(self.c.diagnostics(1), [])

    def hover(self, word, by=0, nth=0):
        row, column = self.c.spot(word, nth)
        return said(self.c.ask("textDocument/hover", **self.c.at(row, column + by)))

    def define(self, word, by=0):
        row, column = self.c.spot(word)
        found = self.c.ask("textDocument/definition", **self.c.at(row, column + by))
        return found and (found["range"]["start"]["line"], found["range"]["start"]["character"])

    def refer(self, word, by=0, with_declaration=True):
        context = {"includeDeclaration": with_declaration}
        row, column = self.c.spot(word)
        return starts(self.c.ask("textDocument/references", **self.c.at(row, column + by, context=context)))

    def test_hover_of_glyphs(self):
        self.assertEqual(self.hover("/Aacute {", 2), "**Aacute**  \nwidth 600, box 10 0 310 892  \ncomposite of A and acute")
        self.assertEqual(self.hover("/A {", 1), "**A**, code 65  \nwidth 600, box 10 0 310 700  \ncomposites on it: Aacute")
        self.assertIn("**A**, code 65", self.hover("65 194 seac"))
        self.assertIn("**acute**", self.hover("194 seac"))

    def test_hover_of_subrs(self):
        wanted = "**Subr 4**, 4 words; entered by the runs of 1 glyphs: acute\n```\n100 178 rlineto return\n```"
        self.assertEqual(self.hover("4 callsubr"), wanted)
        self.assertEqual(self.hover("4 callsubr", 4), wanted)
        self.assertEqual(self.hover("4 {\n"), wanted)

    def test_hover_of_commands_and_numbers(self):
        self.assertEqual(self.hover("hlineto", 2), "`dx hlineto`  \nrlineto dx 0\n\nthe pen goes from (10, 0) to (310, 0)")
        self.assertEqual(self.hover("700 vlineto"), "dy of `vlineto`  \nthe pen goes from (310, 0) to (310, 700)")
        self.assertEqual(self.hover("-700 rlineto"), "dy of `rlineto`  \nthe pen goes from (15, 700) to (115, 0)")
        self.assertEqual(self.hover(WEIGHT), "dx of `rlineto`  \nthe pen goes from (93, 500) to (193, 678), as acute is run")
        self.assertIn("sbx of `hsbw`", self.hover("93 333 hsbw"))
        self.assertIsNone(self.hover("/RD {"))

    def test_hover_with_a_picture(self):
        c = self.opened(pictures=True)
        c.diagnostics(1)
        row, column = c.spot("/V {")
        self.assertIn("![V](data:image/svg+xml;base64,", said(c.ask("textDocument/hover", **c.at(row, column + 1))))
        self.ended(c)

    def test_definition(self):
        subr, base, accent = self.c.spot("4 {\n"), self.c.spot("A {"), self.c.spot("acute {\n\t93")
        self.assertEqual([self.define("4 callsubr"), self.define("4 callsubr", 4)], [subr, subr])
        self.assertEqual([self.define("65 194 seac"), self.define("194 seac")], [base, accent])
        self.assertIsNone(self.define("500 vmoveto"))

    def test_references(self):
        head, called = self.c.spot("acute {\n\t93"), self.c.spot("194 seac")
        self.assertEqual(self.refer("acute {\n\t93"), [head, called])
        self.assertEqual(self.refer("194 seac", 0, False), [called])
        self.assertEqual(self.refer("4 {\n"), [self.c.spot("4 {\n"), self.c.spot("4 callsubr")])
        row, column = self.c.spot("4 callsubr")
        found = self.c.ask("textDocument/documentHighlight", **self.c.at(row, column))
        self.assertEqual(starts(found), [self.c.spot("4 {\n"), (row, column)])

    def test_symbols_and_folds(self):
        found = self.c.ask("textDocument/documentSymbol", textDocument={"uri": self.c.uri})
        names = [(it["name"], [child["name"] for child in it["children"]]) for it in found]
        glyphs = [".notdef", "Aacute", "A", "acute", "V", "space"]
        self.assertEqual(names, [("Subrs", [f"Subr {n}" for n in range(5)]), ("CharStrings", glyphs)])
        self.assertEqual(found[1]["children"][2]["detail"], "600  [10 0 310 700]")
        self.assertEqual(len(self.c.ask("textDocument/foldingRange", textDocument={"uri": self.c.uri})), 11)
        found = self.c.ask("workspace/symbol", query="acute")
        self.assertEqual([it["name"] for it in found], ["Aacute", "acute"])

    def test_hints_and_tokens(self):
        row, _ = self.c.spot("acute {\n\t93")
        found = self.c.ask("textDocument/inlayHint", **self.c.over(row, row + 2))
        self.assertEqual([(it["label"], it["position"]["line"]) for it in found], [("width 333, box 93 500 193 678", row)])
        data = self.c.ask("textDocument/semanticTokens/range", **self.c.over(row, row + 1))["data"]
        self.assertEqual(data, [row, 1, 5, 2, 0, 1, 1, 2, 1, 0, 0, 3, 3, 1, 0, 0, 4, 4, 0, 0])

    def test_rename(self):
        row, column = self.c.spot("V {")
        wanted = {"range": {"start": {"line": row, "character": column}, "end": {"line": row, "character": column + 1}}, "placeholder": "V"}
        self.assertEqual(self.c.ask("textDocument/prepareRename", **self.c.at(row, column)), wanted)
        self.assertIsNone(self.c.ask("textDocument/prepareRename", **self.c.at(*self.c.spot("65 194 seac"))))
        found = self.c.ask("textDocument/rename", **self.c.at(row, column, newName="W"))["changes"]
        self.assertEqual({uri: [it["newText"] for it in its] for uri, its in found.items()}, {self.c.uri: ["W"]})
        for name, why in (("A", "already"), ("a b", "no name"), ("", "no name"), ("x" * 128, "no name")):
            with self.assertRaisesRegex(ValueError, why):
                self.c.ask("textDocument/rename", **self.c.at(row, column, newName=name))
        with self.assertRaisesRegex(ValueError, "Aacute"):
            self.c.ask("textDocument/rename", **self.c.at(*self.c.spot("A {"), newName="B"))

    def test_no_such_things(self):
        self.assertEqual(self.c.answer("textDocument/nosuch")["error"]["code"], -32601)
        for method in ("hover", "definition", "rename"):
            params = {"textDocument": {"uri": "file:///nosuch"}, "position": {"line": 0, "character": 0}, "newName": "B"}
            self.assertIn("not open", self.c.answer(f"textDocument/{method}", **params)["error"]["message"])
        with self.assertRaisesRegex(ValueError, "no command"):
            self.c.ask("workspace/executeCommand", command="nosuch")


class Writing(Room):
    """Changes, what is told of them, and what is done about it."""

    def setUp(self):
        super().setUp()
        self.c = self.opened()
        self.assertEqual(self.c.diagnostics(1), [])

    def mend(self, diagnostics, title):
        """Does what an action of these diagnostics says, and gives what is told then."""
        found = self.c.ask("textDocument/codeAction", **{**self.c.over(0, 0), "range": diagnostics["range"], "context": {"diagnostics": []}})
        edits = [it["edit"]["changes"][self.c.uri] for it in found if it["title"] == title]
        self.assertEqual(len(edits), 1, [it["title"] for it in found])
        self.c.changes(*({"range": it["range"], "text": it["newText"]} for it in edits[0]))
        return self.c.diagnostics()

    def replace(self, old, new):
        """Types a text in place of another, and gives what is told then."""
        row, column = self.c.spot(old)
        rows = old.split("\n")
        self.c.change(row, column, row + len(rows) - 1, len(rows[-1]) + (column if len(rows) == 1 else 0), new)
        return self.c.diagnostics()

    def told(self, diagnostics):
        return [(it["code"], it["message"], it["range"]["start"]["line"], it["range"]["start"]["character"], it["range"]["end"]["character"]) for it in diagnostics]

    def test_a_typo(self):
        row, _ = self.c.spot("300 hlineto")
        found = self.replace("300 hlineto", "300 hlneto")
        message = "glyph A: an unknown word: hlneto (hlineto?)\ncomposites on it: Aacute"
        self.assertEqual(self.told(found), [("F20", message, row, 5, 11)])
        self.assertTrue(found[0]["codeDescription"]["href"].endswith("docs/FAULTS.md#f20-an-unknown-word"))
        hovered = said(self.c.ask("textDocument/hover", **self.c.at(row, 6)))
        self.assertTrue(hovered.startswith("```text\nF20: an unknown word"), hovered)
        hovered = said(self.c.ask("textDocument/hover", **self.c.at(*self.c.spot("V {"))))
        self.assertTrue(hovered.endswith("*(of the last font without a fault)*"), hovered)
        self.assertEqual(self.mend(found[0], "write hlineto"), [])
        self.ended(self.c)

    def test_a_fault_in_a_subr(self):
        found = self.replace(WEIGHT, "100 0 div 178 rlineto")
        self.assertEqual([(it["code"], it["relatedInformation"][0]["message"]) for it in found], [("F38", "glyph acute, subr 4")])
        self.assertEqual(found[0]["relatedInformation"][0]["location"]["range"]["start"], {"line": self.c.spot("4 callsubr")[0], "character": 3})

    def test_what_each_hint_mends(self):
        tries = [
            ("4 callsubr", "9 callsubr", "F32", "add an empty Subr 9"),
            ("65 194 seac", "67 194 seac", "F45", "add an empty glyph C"),
            ("/V {", "/A {", "F10", "take this entry out"),
            ("dup 4 {", "dup 3 {", "F9", "take this entry out"),
            ("100 -700 rlineto\n\tclosepath\n\tendchar", "100 -700 rlineto\n\tclosepath", "F35", "write endchar"),
            ("100 -700 rlineto\n\tclosepath\n\tendchar", "100 -700 rlineto\n\tclosepath\n\treturn", "F34", "write endchar"),
            ("endchar\n\t} ND\n/acute", "endchar\n/acute", "F7", "write the missing }"),
        ]
        for old, new, code, title in tries:
            with self.subTest(title, code=code):
                found = self.replace(old, new)
                self.assertEqual(found[0]["code"], code)
                left = self.mend(found[0], title)
                self.assertNotIn(code, [it["code"] for it in left])
            self.c.changes({"text": self.c.text})
            self.assertEqual(self.c.diagnostics(), [])

    def test_notes_and_what_mends_them(self):
        tries = [
            ("CharStrings 6 dict", "CharStrings 60 dict", "count", "write the count 6"),
            ("/V {", "/V", "no-entry", "write {"),
            ("/V {", "/V\n{", "no-entry", "write {"),
            ("-700 rlineto\n\tclosepath", "-700 rlineto", "open-path", "write closepath"),
        ]
        for old, new, kind, title in tries:
            with self.subTest(title):
                self.replace(old, new)
                found = self.c.diagnostics(None, bool)
                note = next(it for it in found if it["code"] == kind)
                self.assertEqual(note["severity"], 2)
                self.mend(note, title)
                time.sleep(0.4)
            self.c.changes({"text": self.c.text})
            self.c.diagnostics()

    def test_a_brace_is_gone(self):
        row, _ = self.c.spot("/A {")
        found = self.replace("} ND\n/acute", "ND\n/acute")
        self.assertEqual([(it["code"], it["range"]["start"]["line"]) for it in found], [("F7", row)])
        self.c.changes({"text": self.c.text})
        self.assertEqual(self.c.diagnostics(), [])

    def test_completion(self):
        row, _ = self.c.spot("4 callsubr")
        self.c.change(row, 0, row, 0, "\t10 rl\n")
        found = self.c.ask("textDocument/completion", **self.c.at(row, 6))
        self.assertEqual([(it["label"], it["detail"]) for it in found], [("rlineto", "dx dy rlineto")])
        found = self.c.ask("textDocument/completion", **self.c.at(self.c.spot("/A {")[0], 2))
        self.assertEqual([it["label"] for it in found], ["Aacute", "A"])
        self.assertEqual(self.c.ask("textDocument/completion", **self.c.at(0, 1)), [])

    def test_formatting_keeps_comments(self):
        row, _ = self.c.spot("/V {")
        end, _ = self.c.spot("/space {")
        text = "/V { % the V\n15 722 hsbw 0 700 rmoveto % up\n% down\n 100 % x\n-700 rlineto closepath   endchar }  ND % done\n"
        self.c.change(row, 0, end, 0, text)
        self.assertEqual(self.c.diagnostics(), [])
        (edit,) = self.c.ask("textDocument/rangeFormatting", **self.c.over(row + 1, row + 1, options={"tabSize": 8, "insertSpaces": False}))
        wanted = "/V {\n\t% the V\n\t15 722 hsbw\n\t0 700 rmoveto % up\n\t% down\n\t100 % x\n\t-700 rlineto\n\tclosepath\n\tendchar\n\t} ND % done"
        self.assertEqual(edit["newText"], wanted)
        self.c.changes({"range": edit["range"], "text": edit["newText"]})
        self.assertEqual(self.c.diagnostics(), [])
        self.assertEqual(self.c.ask("textDocument/formatting", textDocument={"uri": self.c.uri}, options={}), [])

    def test_changes_that_come_together(self):
        row, column = self.c.spot("300 hlineto")
        for _ in range(5):
            self.c.change(row, column, row, column, "1")
        found = self.c.diagnostics()
        self.assertEqual([it["code"] for it in found], ["F37"])


class Encodings(Room):
    """Columns in the units of the client, and bytes that no source has."""

    def test_all(self):
        for unit, width in (("utf-8", 4), ("utf-16", 2), ("utf-32", 1)):
            with self.subTest(unit):
                c = self.opened(encodings=(unit,))
                c.diagnostics(1)
                row, _ = c.spot("300 hlineto")
                c.change(row, 0, row, 0, "% \U0001d538\u0151\n\t5 \U0001d538 5 \u0151 % \U0001d538\n")
                found = c.diagnostics()
                columns = [(it["range"]["start"]["character"], it["range"]["end"]["character"]) for it in found]
                second = 3 + width + 3
                self.assertEqual(columns, [(3, 3 + width), (second, second + (2 if unit == "utf-8" else 1))])
                c.change(row + 1, 3, row + 1, 3 + width, "1")
                self.assertEqual([it["range"]["start"]["character"] for it in c.diagnostics()], [7])
                c.change(row, 0, row + 2, 0, "")
                self.assertEqual(c.diagnostics(), [])
                self.ended(c)

    def test_line_ends(self):
        for end in ("\r\n", "\r"):
            c = self.client()
            c.greet()
            c.open(DEMO, text_of(DEMO).replace("\n", end))
            self.assertEqual(c.diagnostics(1), [])
            row = text_of(DEMO)[: text_of(DEMO).index("300 hlineto")].count("\n")
            c.change(row, 1, row, 4, f"300 {end}")
            self.assertEqual(c.diagnostics(), [])
            c.change(row + 1, 1, row + 1, 1, "x")
            self.assertEqual([it["range"]["start"]["line"] for it in c.diagnostics()], [row + 1])


class Broken(Room):
    """A source that has faults from the first: all but the entries with faults can be asked."""

    def test_all(self):
        c = self.client()
        c.greet()
        text = text_of(DEMO).replace("300 hlineto", "300 hlinto").replace(WEIGHT, "100 0 div 178 rlineto")
        c.open(self.write("typo.t1", text))
        self.assertEqual([it["code"] for it in c.diagnostics(1)], ["F38", "F20"])
        hovered = said(c.ask("textDocument/hover", **c.at(*c.spot("V {"))))
        self.assertEqual(hovered, "**V**, code 86  \nwidth 722, box 15 0 115 700  \n*(of the last font without a fault)*")
        hovered = said(c.ask("textDocument/hover", **c.at(*c.spot("A {"))))
        self.assertEqual(hovered, "**A** has a fault, and none of its texts was without")
        row, column = c.spot("hlinto")
        c.change(row, column, row, column + 6, "hlineto")
        self.assertEqual([it["code"] for it in c.diagnostics()], ["F38"])
        row, column = c.spot("0 div ")
        c.change(row, column, row, column + 6, "")
        self.assertEqual(c.diagnostics(), [])
        time.sleep(0.3)
        hovered = said(c.ask("textDocument/hover", **c.at(*c.spot("A {"))))
        self.assertEqual(hovered, "**A**, code 65  \nwidth 600, box 10 0 310 700  \ncomposites on it: Aacute")
        self.ended(c)


class Files(Room):
    """Files that are written, shown and served."""

    def made(self, *words):
        return subprocess.run([PROGRAM, *words], capture_output=True, check=True).stdout

    def data(self, name):
        with open(self.path(name), "rb") as file:
            return file.read()

    def test_written(self):
        c = self.opened()
        self.write("demo.kern", "KPX A V -92\n")
        found = c.ask("workspace/executeCommand", command="t1edit.write", arguments=[c.uri, "pfb", "pfa", "afm"])
        self.assertEqual(found, ["demo.pfb", "demo.pfa", "demo.afm"])
        self.assertEqual(self.data("demo.pfb"), self.made("assemble", DEMO))
        self.assertEqual(self.data("demo.pfa"), self.made("assemble", "-a", DEMO))
        self.assertEqual(self.data("demo.afm"), self.made("measure", "--kern", self.path("demo.kern"), DEMO))
        self.assertEqual(c.next("window/showMessage")["message"], "t1edit wrote demo.pfb demo.pfa demo.afm")
        with self.assertRaisesRegex(ValueError, "no form"):
            c.ask("workspace/executeCommand", command="t1edit.write", arguments=[c.uri, "otf"])

    def test_written_at_a_save(self):
        c = self.opened(writeOnSave=["pfb"])
        c.notify("textDocument/didSave", textDocument={"uri": c.uri})
        c.next("window/showMessage")
        self.assertEqual(self.data("demo.pfb"), self.made("assemble", DEMO))
        with open(self.path("demo.t1"), "wb") as file:
            file.write(b"no font\n")
        c.notify("textDocument/didSave", textDocument={"uri": c.uri})
        self.assertEqual(c.next("window/showMessage")["message"], "demo.pfb isn't written: F1")
        c.notify("workspace/didChangeConfiguration", settings={"t1edit": {"writeOnSave": []}})
        c.notify("textDocument/didSave", textDocument={"uri": c.uri})
        c.ask("textDocument/foldingRange", textDocument={"uri": c.uri})
        self.assertEqual([it for it in c.told if it.get("method") == "window/showMessage"], [])

    def test_rename_in_the_kerning_file(self):
        self.write("demo.kern", "StartData\nKPX A V -92\nKPX V V 4\nKPX Aacute VV 5\n")
        c = self.opened()
        c.diagnostics(1)
        found = c.ask("textDocument/rename", **c.at(*c.spot("V {"), newName="W"))["changes"]
        places = [(it["range"]["start"]["line"], it["range"]["start"]["character"]) for it in found["file://" + self.path("demo.kern")]]
        self.assertEqual(places, [(1, 6), (2, 4), (2, 6)])

    def test_rename_in_the_encoding(self):
        array = "/Encoding 256 array\ndup 86 /V put\ndup 8#101 /V put\nreadonly def"
        c = self.client()
        c.greet()
        c.open(self.write("array.t1", text_of(DEMO).replace("/Encoding StandardEncoding def", array)))
        c.diagnostics(1)
        found = c.ask("textDocument/rename", **c.at(*c.spot("V put"), newName="W"))["changes"][c.uri]
        self.assertEqual(len(found), 3)
        for row, column in ((c.spot("V {")), c.spot("V put", 1)):
            self.assertEqual(len(c.ask("textDocument/references", **c.at(row, column, context={"includeDeclaration": True}))), 3)

    def test_the_source_of_a_font(self):
        c = self.opened()
        with open(self.path("font.pfb"), "wb") as file:
            file.write(self.made("assemble", DEMO))
        uri = "file://" + self.path("font.pfb")
        wanted = self.made("disassemble", self.path("font.pfb")).decode("latin-1")
        self.assertEqual(c.ask("workspace/executeCommand", command="t1edit.source", arguments=[uri]), wanted)
        self.assertEqual(c.ask("workspace/textDocumentContent", uri=f"t1edit-source://{self.path('font.pfb')}")["text"], wanted)
        c.notify("textDocument/didOpen", textDocument={"uri": uri, "languageId": "t1", "version": 1, "text": "\x80"})
        self.assertIn("t1edit.source", c.next("window/showMessage")["message"])
        c.open(self.path("font.pfb"), wanted.replace("endchar", "endcher"))
        self.assertEqual({it["code"] for it in c.diagnostics(1, bool)}, {"F20"})
        self.assertEqual(c.ask("workspace/executeCommand", command="t1edit.write", arguments=[uri, "pfa"]), ["font.pfa"])
        self.assertEqual(self.data("font.pfa"), self.made("assemble", "--font", "--pfa", self.path("font.pfb")))
        self.assertEqual(c.ask("workspace/executeCommand", command="t1edit.explain", arguments=["F20"])[:4], "F20:")

    def test_a_page(self):
        c = self.opened(capabilities={"window": {"showDocument": {"support": True}}})
        c.diagnostics(1)
        row, _ = c.spot("500 vmoveto")
        address = c.ask("workspace/executeCommand", command="t1edit.page", arguments=[c.uri, row, 1])
        self.assertRegex(address, r"^http://127.0.0.1:\d+/#acute$")
        shown = c.next("window/showDocument")
        self.assertEqual(shown, {"uri": address, "external": True})
        self.ended(c)


class Starting(Room):
    """How the server begins and ends."""

    def test_its_help(self):
        for words, status in ((("--help",), 0), (("--nosuch",), 2)):
            c = self.client(*words)
            out, error = c.process.communicate(timeout=20)
            self.assertEqual(c.process.returncode, status)
            self.assertIn(b"usage: t1edit-lsp", out if status == 0 else error)

    def test_before_and_after(self):
        c = self.client("--stdio")
        self.assertEqual(c.answer("textDocument/hover")["error"]["code"], -32002)
        answer = c.greet(("utf-8", "utf-16"))
        self.assertEqual(answer["capabilities"]["positionEncoding"], "utf-8")
        c.raw(b"Content-Length: 5\r\nContent-Type: x\r\n\r\n{oh n")
        self.assertEqual(c.read()["error"]["code"], -32700)
        c.write({"id": "an answer", "result": None})
        c.ask("shutdown")
        self.assertEqual(c.answer("textDocument/hover")["error"]["code"], -32600)
        c.notify("exit")
        self.assertEqual(c.process.wait(20), 0)

    def test_a_client_that_goes_away(self):
        c = self.opened()
        c.diagnostics(1)
        c.process.stdin.close()
        self.assertEqual(c.process.wait(20), 1)

    def test_no_program(self):
        c = self.client(T1EDIT=self.path("nosuch"))
        c.greet()
        c.open(DEMO)
        self.assertIn("nosuch", c.next("window/showMessage")["message"])
        c.change(0, 0, 0, 0, "%")
        c.change(0, 0, 0, 0, "%")
        status, said = c.close()
        self.assertEqual((status, [it for it in c.told if it.get("method") == "window/showMessage"]), (0, []), said)

    def test_names(self):
        self.assertTrue(os.path.exists(os.path.join(TOP, "python", "t1edit", "lsp", "__main__.py")))
