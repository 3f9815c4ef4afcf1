# How the tests are run and counted; no part of the product.
"""The steps of the gate: commands whose last line is 'N passed, N failed', run in turn or side by side, and their sums."""

import os
import re
import subprocess
import sys
import threading
import time

from gate.skips import NOT_INSTALLED, closing

TOP = os.path.dirname(os.path.dirname(os.path.dirname(os.path.abspath(__file__))))
CLOSING = re.compile(r"(\d+) passed, (\d+) failed(?:, (\d+) skipped)?(?: \(.*\))?")
# What is to be seen of a program, the dearest first.
BESIDE = [
    "tests/disassemble",
    "tests/outlines",
    "tests/library --count 50 c",
    "tests/random --all-changes",
    "tests/alloc-failures --every 25",
    "tests/clients",
    "tests/lsp/run",
    "tests/python/run",
    "tests/exit-status",
    "tests/library python",
    "tests/notes",
    "tests/pages --but-times",
    "tests/random --sessions --count 100",
    "tests/random --runs --count 100",
    "tests/interop",
    "tests/hostile --quick",
    "tests/documents",
    "tests/memory",
    "tests/package",
    "tests/pipes",
    "tests/wrapper",
    "tests/run",
    "tests/many-pairs",
    "tests/random --measure --count 300",
    "tests/damaged",
    "tests/t1asm",
    "tests/gate-times --try",
    "tests/session-api",
    "tests/files",
    "tests/random --faults --count 150",
    "tests/random --count 300",
    "tests/faults",
    "tests/completions",
    "tests/short-writes",
    "tests/each-fault",
    "tests/mistakes/run",
    "tests/editors",
    "tests/reference/check",
]
# What is held of the sources alone.
OF_SOURCES = ["tests/belief/check", "tests/edits/check", "tests/believed", "tests/places", "tests/walk"]
# What judges a time, and so runs by itself.
ALONE = ["tests/pages --times"]


class Stopped(Exception):
    """A step has failed, so that none is begun any more."""


def clock():
    return time.strftime("%H:%M")


class Step:
    """A command that runs, what it has said, and what its last line counts."""

    def __init__(self, command, environment):
        self.command, self.began, self.at, self.lines = command, time.monotonic(), clock(), []
        how = {"stdin": subprocess.DEVNULL, "stdout": subprocess.PIPE, "stderr": subprocess.STDOUT, "text": True}
        self.child = subprocess.Popen(command.split(), cwd=TOP, env=environment, errors="replace", **how)

    def head(self):
        return f"== {self.at} {self.command}"

    def listen(self, show=None):
        """Takes what it says until it has ended."""
        for line in self.child.stdout:
            self.lines.append(line.rstrip("\n"))
            if show:
                show(self.lines[-1])
        self.child.wait()
        self.minutes = (time.monotonic() - self.began) / 60
        self.passed, self.failed, self.skipped, self.faults = self.counts()

    def counts(self):
        """What passed, failed and was skipped, and lines on what is wrong with the step itself."""
        found = CLOSING.fullmatch(self.lines[-1]) if self.lines else None
        if not found:
            return 0, 1, 0, [f"{self.command}: no closing line; it ended with status {self.child.returncode}"]
        passed, failed, skipped = (int(it or 0) for it in found.groups())
        if self.child.returncode and not failed:
            return passed, 1, skipped, [f"{self.command}: ended with status {self.child.returncode}"]
        lacking = [line for line in self.lines if line.startswith(NOT_INSTALLED)]
        if lacking and os.environ.get("CI") == "true":
            why = "what was skipped above isn't installed, and CI is to have it"
            return passed, failed + len(lacking), max(0, skipped - len(lacking)), [why]
        return passed, failed, skipped, []

    def end(self):
        counts = closing(self.passed, self.failed, self.skipped)
        return [*self.faults, f"-- {clock()} {self.command}: {self.minutes:.1f} minutes: {counts}"]


class Steps:
    """What steps have come to so far."""

    def __init__(self):
        self.passed, self.failed, self.skipped, self.lost, self.printing = 0, 0, 0, [], threading.Lock()

    def say(self, *lines):
        with self.printing:
            print("\n".join(lines), flush=True)

    def add(self, step):
        self.passed += step.passed
        self.failed += step.failed
        self.skipped += step.skipped
        if step.failed:
            self.lost.append(step.command)

    def one(self, command, environment=None):
        """Runs a step, which is shown as it goes on."""
        step = Step(command, environment)
        self.say(step.head())
        step.listen(self.say)
        self.say(*step.end())
        self.add(step)
        self.stop_at_failure()

    def beside(self, commands, environment=None):
        """Runs steps side by side, three for two processors, since many wait for what they start or for a clock; each is shown once
        it has ended. Where one fails, no other is begun."""
        left, taking = list(commands), threading.Lock()

        def lane():
            while True:
                with taking:
                    if not left or self.failed:
                        return
                    step = Step(left.pop(0), environment)
                step.listen()
                with taking:
                    self.add(step)
                    self.say(step.head(), *step.lines, *step.end())

        lanes = [threading.Thread(target=lane) for _ in range(len(os.sched_getaffinity(0)) * 3 // 2)]
        for it in lanes:
            it.start()
        for it in lanes:
            it.join()
        self.stop_at_failure()

    def of_sources(self):
        """All steps that need no program."""
        self.beside(OF_SOURCES)

    def of_programs(self, programs, others=()):
        """All steps on the programs, which stand where these environment variables say, and others beside them."""
        environment = {**os.environ, **programs}
        self.beside([*BESIDE, *others], environment)
        for command in ALONE:
            self.one(command, environment)

    def skip(self, line):
        self.skipped += 1
        self.say(line)

    def stop_at_failure(self):
        if self.failed:
            raise Stopped

    def end(self):
        """The last line, and the status."""
        if self.lost:
            self.say(f"failed: {', '.join(self.lost)}")
        self.say(closing(self.passed, self.failed, self.skipped))
        return 1 if self.failed else 0


# The quick, unproved programs.

PROGRAMS = {"T1EDIT": "t1edit", "T1RUNS": "t1_runs"}
# where ./t1edit has its own, too
QUICK = os.path.join(TOP, "out", "quick")
# The library's archive, as tools/prove-library leaves it, and the quick one.
PROVED_ARCHIVE, QUICK_ARCHIVE = os.path.join(TOP, "crates", "t1_c", "out", "libt1_c.a"), os.path.join(QUICK, "libt1_c.a")
LIBRARY = "t1_c"
UNKNOWN_KIT = 3


def is_current(program):
    """Whether a program or an archive is there and no source is newer; a folder is newer that lost one."""
    if not os.path.exists(program):
        return False
    made = os.stat(program).st_mtime
    crates = os.path.join(TOP, "crates")
    for top in [os.path.join(crates, name, "src") for name in os.listdir(crates)]:
        for folder, _, names in os.walk(top):
            if any(os.stat(it).st_mtime > made for it in [folder, *(os.path.join(folder, name) for name in names)]):
                return False
    return os.stat(os.path.join(TOP, "crates.txt")).st_mtime <= made


def on_quick_programs(steps):
    """The steps of the sources, and all steps on the quick programs. Where these aren't there they are made first, once the sources have
    passed; none is on a kit that makes none."""
    found = {variable: os.environ.get(variable) or os.path.join(QUICK, crate) for variable, crate in PROGRAMS.items()}
    lacking = {PROGRAMS[it]: found[it] for it in PROGRAMS if not os.environ.get(it) and not is_current(found[it])}
    if not any([os.environ.get("T1C"), is_current(PROVED_ARCHIVE), is_current(QUICK_ARCHIVE)]):
        lacking[LIBRARY] = QUICK_ARCHIVE
    if lacking:
        steps.of_sources()
        if not make(steps, lacking):
            return
    steps.say(f"the steps on {found['T1EDIT']}")
    steps.of_programs(found, () if lacking else OF_SOURCES)


def make(steps, lacking):
    """Makes quick programs, by their crates; false where this kit makes none."""
    os.makedirs(QUICK, exist_ok=True)
    began = time.monotonic()
    steps.say(f"== {clock()} tools/quick-build: makes {', '.join(lacking)} without a proof, in some minutes")
    made = {crate: quick_build(crate, program) for crate, program in lacking.items()}
    logs = {crate: child.communicate()[0] for crate, child in made.items()}
    steps.say(f"-- {clock()} tools/quick-build: {(time.monotonic() - began) / 60:.1f} minutes")
    for crate, child in made.items():
        if child.returncode == UNKNOWN_KIT and crate == LIBRARY:
            continue  # (tests/library says so)
        if child.returncode == UNKNOWN_KIT:
            steps.skip(f"skipped on this machine: the steps on a quick program: {logs[crate].strip()}")
            return False
        if child.returncode:
            steps.say(logs[crate].rstrip(), f"{crate} could not be made")
            steps.failed += 1
            steps.lost.append("tools/quick-build")
    steps.stop_at_failure()
    return True


def quick_build(crate, program):
    """Begins to make a program."""
    how = {"stdin": subprocess.DEVNULL, "stdout": subprocess.PIPE, "stderr": subprocess.STDOUT, "text": True, "errors": "replace"}
    return subprocess.Popen([os.path.join(TOP, "tools", "quick-build"), crate, program], **how)


def proved_programs():
    """Where rt ci leaves the programs."""
    return {variable: os.path.join(TOP, "crates", crate, "out", crate) for variable, crate in PROGRAMS.items()}
