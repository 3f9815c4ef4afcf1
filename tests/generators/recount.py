# Generators of random inputs for the tests; no part of the product.
"""The runs of glyphs that the edits of a session make: as a script for t1_runs, and as the reference counts them."""

import subprocess

from generators.unjudged import Unjudged
from edits import form_of
from faults import Fault
from session import BATCHES
from source import body_words
from stale import edited_keys, font_after, stale

SECONDS = 60
NO_STEP = (b"refused E7", b"refused E8")
ACCEPTED, RULE, FAULT = "accepted", "refused by a rule", "refused for a fault"
IN_BATCH = b"in a batch: "


def ending(answer):
    """What comes of a command with this answer."""
    if answer == b"ok":
        return ACCEPTED
    return FAULT if answer.startswith(b"refused F") else RULE


class Recount:
    """A session's edits and their answers. Each is a line of a script, with how many runs it makes, or at most makes."""

    def __init__(self, source):
        self.model, self.font = Unjudged(source, {}), font_after(None, source)
        self.glyphs, self.keys = len(self.font.glyphs), set()
        self.script, self.wanted, self.found = [], [], []

    def note(self, words, body, answer):
        """Takes a command that the session was given, with its answer; what is no edit and opens or ends no batch is
        passed over."""
        if answer in NO_STEP or form_of(words) is None and words not in BATCHES:
            return
        self.script.append(b" ".join([*words, *body_words(body)]) + b"\n")
        before, end = self.model.state(), ending(answer)
        self.model.answer(words, body, False)
        told = (IN_BATCH if self.model.batch is not None else b"") + answer
        self.wanted.append((end, told, len(stale(self.font, self.judged_keys(words, end), self.model.source))))
        if end == FAULT:
            self.model.restore((before[0], before[1], None))
        elif self.model.source != before[0]:
            self.run_again()

    def run_again(self):
        try:
            self.font = font_after(self.font, self.model.source)
        except Fault as fault:
            self.found.append(f"{self.script[-1][:60]!r} is accepted with a glyph of {fault.code}")

    def judged_keys(self, words, end):
        """What the edits that are judged now name; those of an open batch wait for its end."""
        if end != RULE and words not in BATCHES:
            self.keys |= edited_keys(words)
        if self.model.batch is not None:
            return set()
        keys, self.keys = self.keys, set()
        return keys if words != (b"abort",) else set()

    def line(self):
        """How many runs there are to be compared."""
        runs = [count for end, _, count in self.wanted if end == ACCEPTED]
        return f"runs after the opening {sum(runs)}, by one edit or commit up to {max(runs, default=0)}"

    def differences(self, program, path):
        """Where t1_runs counts other runs, or answers otherwise, for the script on the source at this path."""
        ran = subprocess.run([program, path], input=b"".join(self.script), capture_output=True, timeout=SECONDS)
        lines = [line.partition(b" ") for line in ran.stdout.splitlines()]
        if ran.returncode or len(lines) != 1 + len(self.wanted):
            return [f"t1_runs ended with status {ran.returncode} after {len(lines)} lines: {ran.stderr!r}"]
        counts, ends = [int(line[0]) for line in lines], [line[2] for line in lines]
        found = self.found + ([f"{counts[0]} runs at the opening"] if counts[0] != self.glyphs else [])
        for at, (end, told, runs) in enumerate(self.wanted):
            made = counts[at + 1] - counts[at]
            if ends[at + 1] != told:
                found.append(f"t1_runs: {self.script[at][:60]!r} is {ends[at + 1]!r}, and not {told!r}")
            elif not (runs if end == ACCEPTED else 0) <= made <= (0 if end == RULE else runs):
                found.append(f"{self.script[at][:60]!r}, {end}, makes {made} runs, and not {runs}")
        return found
