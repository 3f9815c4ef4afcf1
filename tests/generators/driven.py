# Generators of random inputs for the tests; no part of the product.
"""A session of the program with random edits, held against the program's own files made from the printed texts."""

import os
import subprocess

from generators.recount import Recount
from generators.sessions import Chooser
from generators.unjudged import Unjudged
from edits import form_of
from session import commands
from source import kern_text

SECONDS = 60


class Program:
    """The program's session, a command and its answer at a time."""

    def __init__(self, program, path):
        words = [program, "session", path]
        self.running = subprocess.Popen(words, stdin=subprocess.PIPE, stdout=subprocess.PIPE, stderr=subprocess.PIPE)

    def ask(self, text):
        """The answer without its line end; of a print the bytes."""
        self.running.stdin.write(text)
        self.running.stdin.flush()
        line = self.running.stdout.readline()
        if not line.startswith(b"data "):
            return line[:-1]
        return self.running.stdout.read(int(line[5:]) + 1)[:-1]

    def close(self):
        _, complaint = self.running.communicate(timeout=SECONDS)
        return self.running.returncode, complaint


class Driver:
    """Makes edits on a font, and collects what differs."""

    def __init__(self, program, counter, source, room, chance):
        self.program, self.counter, self.room, self.failures, self.counts = program, counter, room, [], {}
        self.edited = 0
        self.model, self.recount = Unjudged(source, {}), Recount(source)
        self.chooser = Chooser(chance, self.model)
        self.write("font.t1", source.text())
        self.session = Program(program, os.path.join(room, "font.t1"))

    def write(self, name, text):
        with open(os.path.join(self.room, name), "wb") as file:
            file.write(text)

    def made(self, verb, *options):
        """What the program makes of the files: its output, or its complaint."""
        words = [self.program, verb, *options, os.path.join(self.room, "edited.t1")]
        ran = subprocess.run(words, capture_output=True, timeout=SECONDS)
        return ran.stdout if ran.returncode == 0 else ran.stderr

    def measured(self):
        self.write("edited.t1", self.model.source.text())
        self.write("edited.kern", kern_text(self.model.pairs))
        return self.made("measure", "--kern", os.path.join(self.room, "edited.kern"))

    def edits(self, count):
        """Goes on until so many edits were answered, with batches opened and ended between them."""
        while self.edited < count and not self.failures:
            text = self.chooser.command()
            if not text.startswith((b"print", b"show")):
                self.edit(text, *commands(text)[0])
        if self.model.batch is not None:
            self.edit(b"abort\n", (b"abort",), b"", False)
        status, complaint = self.session.close()
        if status or complaint:
            self.failures.append(f"the session ended with status {status}: {complaint.decode(errors='replace')}")
        self.failures += self.recount.differences(self.counter, os.path.join(self.room, "font.t1"))

    def edit(self, text, words, body, is_open):
        """Compares what is printed after each edit, accepted or refused, in a batch too, and after a commit."""
        before, is_edit = self.model.state(), form_of(words) is not None
        self.edited += is_edit
        wanted = self.model.answer(words, body, is_open).rstrip()
        found = self.session.ask(text)
        kind = found.split()[0].decode() if found else "none"
        self.counts[kind] = self.counts.get(kind, 0) + 1
        self.recount.note(words, body, found)
        if found != wanted and found.startswith(b"refused F") and wanted == b"ok":
            self.refused_by_fault(text, words, found, before)
        elif found != wanted:
            self.failures.append(f"{text!r} is answered {found!r}, and not {wanted!r}")
        elif is_edit or words == (b"commit",):
            self.compare(text)

    def refused_by_fault(self, text, words, found, before):
        """The fault must be that of the edited texts from scratch, and the session the one from before."""
        if before[2] is not None and words != (b"commit",):
            self.failures.append(f"{text!r} in a batch is answered {found!r}")
        elif self.measured() != b"t1edit: " + found[8:] + b"\n":
            self.failures.append(f"{text!r} is answered {found!r}; from scratch it is {self.measured()[:60]!r}")
        self.model.restore((before[0], before[1], None))
        self.compare(text)

    def compare(self, text):
        """The prints, and the files that the program makes of the texts printed."""
        afm = self.measured()
        texts = {"source": self.model.source.text(), "kern": kern_text(self.model.pairs), "afm": afm}
        texts["pfb"] = self.made("assemble")
        texts["pfb 4096"] = self.made("assemble", "--block", "4096")
        texts["pfa"] = self.made("assemble", "--pfa")
        for name, wanted in texts.items():
            found = self.session.ask(b"print " + name.encode() + b"\n")
            if found != wanted:
                self.failures.append(f"after {text[:60]!r} the {name} printed differs")
