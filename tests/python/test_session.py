"""Sessions: many answers that nobody takes, sessions that die, fonts that are refused, and the end."""

import gc
import os
import signal
import subprocess
import sys
import threading
import time
import warnings

from room import BODY, DEMO, PACKAGE, PRINTED, PROGRAM, Room, changed

from t1edit import Font, Missing, Refused, Session, Stopped

MANY = 20000
LONG = "\n".join(["0 250 hsbw", *["0 hmoveto"] * 20000, "endchar"])
TYPO = ("300 hlineto", "300 hlinto")


class Answers(Room):
    def test_many_that_nobody_takes(self):
        with Session(DEMO) as session:
            uses = session.print("uses")
            replies = [session.send("print", "uses") for _ in range(MANY)]
            edit = session.send("add", "glyph", "B", body=LONG)
            self.assertFalse(session._pipes.has_unwritten)
            self.assertEqual({reply.result() for reply in replies}, {uses})
            self.assertEqual(edit.result(), b"")

    def test_more_than_a_pipe_holds(self):
        with Font(DEMO) as font:
            font.glyphs.add("B", LONG)
            self.assertEqual(font.glyphs["B"].body, LONG)
            self.assertGreater(len(font.source()), 200000)

    def test_in_any_order(self):
        with Session(DEMO) as session:
            kern, wrong, uses = session.send("print", "kern"), session.send("kern"), session.send("print", "uses")
            self.assertTrue(uses.result().startswith(b"U .notdef"))
            self.assertEqual(kern.result(), b"")
            for _ in range(2):
                self.assertEqual(self.refused(Refused, wrong.result).code, "E8")

    def test_shows(self):
        with Session(DEMO) as session:
            shown, wrong = session.send("show", "glyph", "space"), session.send("show", "glyph", "nosuch")
            self.assertEqual(shown.result(), b"\t0 250 hsbw\n\tendchar\n")
            missing = self.refused(Missing, wrong.result)
            self.assertEqual((missing.code, missing.word), ("E1", "nosuch"))
            self.assertEqual(session.show("subr", 3), b"\treturn\n")
            self.assertEqual(session.show("outline", "space"), b"")
            self.assertEqual(session.show("encoding").split(b"\n")[0], b"32 space")
            self.assertEqual(self.refused(Refused, session.show, "subr", "x").word, "x")

    def test_edits_under_way_are_seen(self):
        with Font(DEMO) as font:
            self.assertNotIn("B", font.glyphs)
            font.session.send("add", "glyph", "B", body=BODY)
            self.assertIn("B", font.glyphs)
            self.assertEqual(font.glyphs["B"].body, PRINTED)

    def test_all_that_was_sent_is_performed_at_the_end(self):
        program, kept = self.listening()
        session = Session(DEMO, program=program)
        replies = [session.send("print", "afm") for _ in range(1000)]
        session.close()
        self.assertEqual(len({reply.result() for reply in replies}), 1)
        with open(kept, encoding="latin-1") as file:
            self.assertEqual(file.read(), "print kern\n" + 1000 * "print afm\n")


class Interrupts(Room):
    def setUp(self):
        super().setUp()
        # keeps what it reads, and answers to some of it once a file is there
        self.go, self.seen = self.path("go"), self.path("seen")
        answer = f'case $line in slow|begin) while [ ! -e "{self.go}" ]; do sleep 0.01; done;; esac; echo ok'
        words = f'while read -r line; do echo "$line" >>"{self.seen}"; {answer}; done'
        self.slow = self.program("slow", "read -r line; echo data 0; echo; " + words)
        # (a gate that runs in the background ignores interrupts, and so would this process)
        self.addCleanup(signal.signal, signal.SIGINT, signal.signal(signal.SIGINT, self.interrupted))

    def interrupted(self, *_):
        """An interrupt is there; a moment later the session is let go."""
        self.start(threading.Timer(0.1, self.let_go))
        raise KeyboardInterrupt

    def let_go(self):
        with open(self.go, "w", encoding="utf-8"):
            pass

    def start(self, thread):
        thread.start()
        self.addCleanup(thread.join)

    def interrupt(self):
        """Interrupts this thread, as Ctrl-C does, a moment after the program has been seen at work."""
        this = threading.get_ident()

        def wait():
            while not os.path.exists(self.seen):
                time.sleep(0.01)
            time.sleep(0.1)
            signal.pthread_kill(this, signal.SIGINT)

        self.start(threading.Thread(target=wait))

    def test_an_interrupt_loses_nothing(self):
        with Session(DEMO, program=self.slow) as session:
            self.interrupt()
            self.assertRaises(KeyboardInterrupt, session.edit, "slow")
            session.edit("quick")
            self.assertEqual(session.changes, 2)

    def test_an_interrupt_leaves_no_batch_open(self):
        with Session(DEMO, program=self.slow) as session:
            self.interrupt()
            with self.assertRaises(KeyboardInterrupt):
                with session.batch():
                    self.fail("it was opened")
            session.edit("quick")
        with open(self.seen, encoding="utf-8") as file:
            self.assertEqual(file.read(), "begin\nabort\nquick\n")

    def test_an_interrupt_at_the_end_kills(self):
        session = Session(DEMO, program=self.slow)
        self.interrupt()
        session.send("slow")
        self.assertRaises(KeyboardInterrupt, session.close)
        self.assertRaises(ChildProcessError, os.waitpid, session.pid, os.WNOHANG)

    def test_an_interrupt_at_the_opening_kills(self):
        program = self.program("sleeping", f'touch "{self.seen}"; exec sleep 100')
        self.interrupt()
        self.assertRaises(KeyboardInterrupt, Session, DEMO, program=program)
        self.assertRaises(ChildProcessError, os.waitpid, -1, os.WNOHANG)

    def test_what_an_exception_tore_is_given_up(self):
        with Session(DEMO) as session:
            session._answers.feed = None  # (as an interrupt between a read and what is done with it)
            self.assertRaises(TypeError, session.print, "kern")
            self.assertIn("interrupted", str(self.refused(Stopped, session.print, "kern")))
            self.assertRaises(ChildProcessError, os.waitpid, session.pid, os.WNOHANG)

    def test_the_terminal_does_not_reach_the_session(self):
        with Session(DEMO, program=PROGRAM) as session:
            self.assertNotEqual(os.getpgid(session.pid), os.getpgrp())


class Threads(Room):
    """A font that threads share: each waits for the answer to another one's command, and no session is lost."""

    def on_threads(self, *calls):
        """Has calls made at once, each on a thread of its own; what they raise."""
        raised, begin = [], threading.Barrier(len(calls))

        def made(call):
            begin.wait()
            try:
                call()
            except Exception as error:
                raised.append(error)

        threads = [threading.Thread(target=made, args=(call,)) for call in calls]
        for thread in threads:
            thread.start()
        for thread in threads:
            thread.join()
        return raised

    def test_edits(self):
        with Font(DEMO) as font:
            def edit(number):
                name = font.glyphs.add(f"g{number}", BODY).name
                for at in range(100):
                    font.glyphs[name].body = f"10 {at} hsbw 400 hlineto {number + 1} vlineto closepath endchar"
                    self.assertEqual(font.glyphs[name].metrics.width, at)

            self.assertEqual(self.on_threads(*(lambda it=it: edit(it) for it in range(4))), [])
            self.assertEqual(font.session.changes, 4 * 101)
            self.assertEqual([font.glyphs[f"g{it}"].metrics.box.top for it in range(4)], [1, 2, 3, 4])

    def test_refusals_and_reads(self):
        with Font(DEMO) as font:
            def refuse(word):
                for _ in range(100):
                    refused = self.refused(Refused, setattr, font.glyphs["A"], "body", f"10 600 hsbw {word} endchar")
                    self.assertEqual((refused.word, refused.number), (word, 4))

            def read():
                for at in range(100):
                    font.kern["A", "V"] = at
                    self.assertEqual((font.kern["A", "V"], len(font.glyphs), font.afm()[:5]), (at, 6, b"Start"))

            self.assertEqual(self.on_threads(*(lambda it=it: refuse(it) for it in ("moveto", "lineto", "x")), read), [])

    def test_prints_and_their_ends(self):
        with Session(DEMO) as session:
            uses = session.print("uses")

            def print_all():
                for reply in [session.send("print", "uses") for _ in range(500)]:
                    self.assertEqual(reply.result(), uses)

            self.assertEqual(self.on_threads(print_all, print_all, print_all), [])

    def test_a_batch_is_one_threads(self):
        with Font(DEMO) as font:
            began = threading.Event()

            def give_up():
                with font.batch():
                    font.kern["A", "V"] = 1
                    began.set()
                    time.sleep(0.1)
                    raise ZeroDivisionError

            def edit():
                began.wait()
                font.kern["V", "A"] = 2
                with font.batch():
                    font.kern["A", "A"] = 3

            self.assertEqual([type(it) for it in self.on_threads(give_up, edit)], [ZeroDivisionError])
            self.assertEqual(dict(font.kern), {("V", "A"): 2, ("A", "A"): 3})

    def test_a_close_waits(self):
        font = Font(DEMO)
        font.glyphs.add("B", LONG)
        raised = self.on_threads(font.close, *[lambda: [font.afm() for _ in range(50)]] * 3)
        self.assertEqual({str(it) for it in raised}, {"the session is closed"} if raised else set())

    def test_a_fork_waits_for_no_thread(self):
        with Session(DEMO) as session, session.held():
            child = []

            def fork():
                child.append(os.fork())
                if child[0] == 0:
                    signal.signal(signal.SIGALRM, signal.SIG_DFL)
                    signal.alarm(10)  # (which ends it, where it waits)
                    try:
                        self.refused(Stopped, session.print, "kern")
                        session.close()
                    finally:
                        os._exit(0)

            self.assertEqual(self.on_threads(fork), [])
            self.assertEqual(os.waitpid(child[0], 0)[1], 0)


class Ends(Room):
    def test_killed(self):
        with Font(DEMO, program=PROGRAM) as font:
            font.kern["A", "V"] = 1
            os.kill(font.session.pid, signal.SIGKILL)
            for call in (font.afm, font.pfb, lambda: font.kern.__setitem__(("A", "V"), 2), lambda: font.glyphs.add("B", LONG)):
                stopped = self.refused(Stopped, call)
                self.assertEqual((stopped.status, str(stopped)), (-9, "the session ended with signal 9"))
            self.assertRaises(ChildProcessError, os.waitpid, font.session.pid, os.WNOHANG)

    def test_killed_in_the_midst_of_answers(self):
        with Session(DEMO, program=PROGRAM) as session:
            afm = session.print("afm")
            replies = [session.send("print", "afm") for _ in range(3000)]
            self.assertEqual(replies[0].result(), afm)
            os.kill(session.pid, signal.SIGKILL)
            found = []
            for reply in replies:
                try:
                    found.append(reply.result())
                except Stopped as stopped:
                    self.assertEqual(stopped.status, -9)
                    found.append(None)
            there = found.index(None)
            self.assertEqual(found, [afm] * there + [None] * (len(found) - there))

    def test_killed_in_the_midst_of_one_answer(self):
        program = self.program("dying", 'read -r line; echo data 0; echo; read -r line; echo data 9; echo half; kill -9 $$')
        with Session(DEMO, program=program) as session:
            self.assertEqual(self.refused(Stopped, session.print, "afm").status, -9)

    def test_killed_while_a_body_is_written(self):
        program = self.program("deaf", "read -r line; echo data 0; echo; sleep 0.2; kill -9 $$")
        with Session(DEMO, program=program) as session:
            self.assertEqual(self.refused(Stopped, session.edit, "add", "glyph", "B", body=LONG).status, -9)

    def test_status_and_line(self):
        program = self.program("full", "read -r line; echo data 0; echo; read -r line; echo t1edit: out of memory >&2; exit 4")
        with Session(DEMO, program=program) as session:
            stopped = self.refused(Stopped, session.edit, "begin")
            self.assertEqual((stopped.status, str(stopped)), (4, "the session ended with status 4: out of memory"))

    def test_much_on_standard_error(self):
        words = "read -r line; echo data 0; echo; read -r line; head -c 1000000 /dev/zero >&2; echo ok; read -r line; exit 3"
        with Session(DEMO, program=self.program("loud", words)) as session:
            session.edit("begin")
            self.assertEqual(self.refused(Stopped, session.edit, "begin").status, 3)

    def test_another_program(self):
        texts = ["data x", "data -1", "ok", "refused", "data 1; echo long", "OK"]
        for answer in ('cat "$2"', *(f"echo {text}" for text in texts)):
            with self.subTest(answer=answer):
                program = self.program("another", f"read -r line; {answer}; cat")
                self.assertIn("isn't t1edit", str(self.refused(Stopped, Session, DEMO, program=program)))
        self.assertEqual(self.refused(Stopped, Session, DEMO, program="/bin/true").status, 0)

    def test_closed(self):
        font = Font(DEMO)
        font.close()
        font.close()
        self.assertEqual(str(self.refused(Stopped, font.afm)), "the session is closed")
        self.assertRaises(ChildProcessError, os.waitpid, font.session.pid, os.WNOHANG)

    def test_what_is_lost_is_told_and_ended(self):
        session = Session(DEMO)
        pid = session.pid
        with warnings.catch_warnings(record=True) as caught:
            warnings.simplefilter("always")
            del session
            gc.collect()
        self.assertEqual([it.category for it in caught], [ResourceWarning])
        self.assertRaises(ChildProcessError, os.waitpid, pid, os.WNOHANG)

    def test_interpreters_end(self):
        script = "from t1edit import Font; font = Font(%r); font.kern['A', 'V'] = 1; print(font.session.pid)" % DEMO
        environment = {**os.environ, "PYTHONPATH": PACKAGE}
        ran = subprocess.run([sys.executable, "-c", script], env=environment, capture_output=True, text=True)
        self.assertEqual((ran.returncode, ran.stderr), (0, ""))
        for _ in range(500):
            if not os.path.exists(f"/proc/{int(ran.stdout)}"):
                break
            time.sleep(0.01)
        self.assertFalse(os.path.exists(f"/proc/{int(ran.stdout)}"))

    def test_a_fork_leaves_it_alone(self):
        session = Session(DEMO)
        self.addCleanup(session.close)
        for how in ("closed", "used", "lost"):
            child = os.fork()
            if child == 0:
                status = 1
                try:
                    if how == "used":
                        self.refused(Stopped, session.print, "kern")
                    elif how == "closed":
                        session.close()
                    else:
                        session.__del__()
                    status = 0
                finally:
                    os._exit(status)
            self.assertEqual(os.waitpid(child, 0)[1], 0, how)
            self.assertEqual(session.print("kern"), b"")

    def test_two_at_once(self):
        with Font(DEMO) as one, Font(DEMO) as other:
            one.kern["A", "V"] = 1
            other.kern["A", "V"] = 2
            one.close()
            self.assertEqual(other.kern["A", "V"], 2)


class Openings(Room):
    def test_refused_fonts(self):
        path = self.path("typo.t1")
        with open(path, "wb") as file:
            file.write(changed(TYPO))
        for source in (path, changed(TYPO)):
            refused = self.refused(Refused, Font, source)
            self.assertEqual(str(refused), "F20 glyph A: an unknown word")
            self.assertEqual((refused.code, refused.place), ("F20", "glyph A"))
        self.assertEqual(self.refused(Refused, Font, DEMO, b"\nKPX A V\n").said, "F12 line 2")
        self.assertEqual(self.refused(Refused, Font, b"").said, "F1")

    def test_files_that_cannot_be_read(self):
        missing = self.refused(FileNotFoundError, Font, self.path("nosuch.t1"))
        self.assertEqual(missing.filename, self.path("nosuch.t1"))
        self.refused(FileNotFoundError, Font, DEMO, self.path("nosuch.afm"))
        self.refused(IsADirectoryError, Font, self.room)

    def test_names_that_look_like_options(self):
        before = os.getcwd()
        os.chdir(self.room)
        try:
            for name in ("-", "--help", "-o"):
                self.refused(FileNotFoundError, Font, name)
                self.refused(FileNotFoundError, Font, DEMO, name)
                with open(name, "wb") as file:
                    file.write(changed())
                with Font(name, name) as font:
                    self.assertEqual(len(font.glyphs), 6)
        finally:
            os.chdir(before)

    def test_temporary_files_are_removed(self):
        before = os.environ.get("TMPDIR")
        script = (
            "import os, sys; from t1edit import Font, Refused\n"
            f"with Font({changed()!r}, b'KPX A V -92'): print(os.listdir({self.room!r}))\n"
            "try: Font(b'no font')\n"
            f"except Refused: print(os.listdir({self.room!r}))"
        )
        environment = {**os.environ, "PYTHONPATH": PACKAGE, "TMPDIR": self.room}
        ran = subprocess.run([sys.executable, "-c", script], env=environment, capture_output=True, text=True)
        self.assertEqual((ran.stdout, ran.stderr), ("[]\n[]\n", ""))
        self.assertEqual(before, os.environ.get("TMPDIR"))

    def test_program_that_is_not_there(self):
        self.assertEqual(self.refused(FileNotFoundError, Font, DEMO, program="/nosuch").filename, "/nosuch")

    def test_wrong_words(self):
        program = self.program("wrong", f'exec "{PROGRAM}" "$1"')
        stopped = self.refused(Stopped, Font, DEMO, program=program)
        self.assertEqual(stopped.status, 2)
        self.assertIn("required", str(stopped))
