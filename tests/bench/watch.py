# Measuring programs from outside, for the tests; no part of the product.
"""Runs programs, and says what each took."""

import collections
import marshal
import os
import subprocess
import sys

# A process that does nothing but start programs and wait for them. It is small, since Linux counts what the process which
# starts a program has in memory among the program's own.
STARTER = r"""
import marshal, os, resource, sys, time

def watched(words, environment, files, seconds):
    flags = os.O_RDONLY, os.O_WRONLY | os.O_CREAT | os.O_TRUNC, os.O_WRONLY | os.O_CREAT | os.O_TRUNC
    actions = [(os.POSIX_SPAWN_OPEN, at, files[at], flags[at], 0o600) for at in range(3)]
    pid = os.posix_spawnp(words[0], words, environment, file_actions=actions)
    end, pause, found = time.monotonic() + seconds, 0.0005, 0
    while not found and time.monotonic() < end:
        time.sleep(pause)
        found, status, used = os.wait4(pid, os.WNOHANG)
        pause = min(pause * 1.2, 0.005)
    if not found:
        os.kill(pid, 9)
        _, _, used = os.wait4(pid, 0)
    status = os.waitstatus_to_exitcode(status) if found else "hang"
    return status, used.ru_utime + used.ru_stime, used.ru_maxrss * 1024, used.ru_minflt

addresses = int(sys.argv[1])
if addresses:
    resource.setrlimit(resource.RLIMIT_AS, (addresses, addresses))
while True:
    try:
        asked = marshal.load(sys.stdin.buffer)
    except EOFError:
        break
    marshal.dump(watched(*asked), sys.stdout.buffer)
    sys.stdout.buffer.flush()
"""

# Status, processor time in seconds, peak memory in bytes (not less than that of a small Python), page faults.
Taken = collections.namedtuple("Taken", "status seconds peak faults")


class Watch:
    """Starts programs and measures them."""

    def __init__(self, addresses=0, seconds=120):
        """Each may take so many bytes of addresses (0: any), and so many seconds."""
        words = [sys.executable, "-S", "-E", "-c", STARTER, str(addresses)]
        self.seconds = seconds
        self.process = subprocess.Popen(words, stdin=subprocess.PIPE, stdout=subprocess.PIPE)

    def __enter__(self):
        return self

    def __exit__(self, *_):
        self.process.communicate()

    def run(self, words, given=os.devnull, output=os.devnull, complaint=os.devnull, **variables):
        """Runs a program, with these files and these environment variables beside its own."""
        asked = [*words], {**os.environ, **variables}, [given, output, complaint], self.seconds
        marshal.dump(asked, self.process.stdin)
        self.process.stdin.flush()
        return Taken(*marshal.load(self.process.stdout))
