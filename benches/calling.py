"""Runs a built program, one process at a time, and says how it ended. The other scripts of this folder import it."""
import os
import signal
import subprocess
import tempfile
import time
from pathlib import Path
from typing import NamedTuple

TOP = Path(__file__).resolve().parent.parent

# Seconds after which a program is killed.
LIMIT = 120


def program_of(words):
    """The path of the program: the first of the words, or where there is none that which `rt run` leaves."""
    return os.path.abspath(words[0] if words else TOP / "crates/canely/out/canely")


class Ended(NamedTuple):
    """How a run ended: its status, or minus the number of the signal, what it wrote, its seconds and those of the processor."""

    status: int
    out: bytes
    err: bytes
    seconds: float
    work: float

    @property
    def is_silent(self):
        return not self.err

    @property
    def is_report(self):
        return self.status == 0 and self.is_silent and self.out.startswith(b"canely report ") and self.out.endswith(b"\nend\n")

    @property
    def is_refusal(self):
        return self.status == 3 and self.is_silent and self.out.startswith(b"refused ") and self.out.find(b"\n") == len(self.out) - 1

    def is_complaint(self, status):
        """Whether it ended with this status and one line on standard error, as every status but 0, 3, 9 and 10 has."""
        return self.status == status and self.err.startswith(b"canely: ") and self.err.find(b"\n") == len(self.err) - 1


class Caller:
    """Calls a program on texts by files that are kept, so that a call costs little beside the program's own time."""

    def __init__(self, program):
        self.program = program
        self.files = [tempfile.TemporaryFile(dir="/dev/shm" if os.path.isdir("/dev/shm") else None) for _ in range(3)]

    def call(self, words, text, environment=None):
        for file in self.files:
            file.seek(0)
            file.truncate()
        self.files[0].write(text)
        self.files[0].flush()
        self.files[0].seek(0)
        actions = [(os.POSIX_SPAWN_DUP2, file.fileno(), at) for at, file in enumerate(self.files)]
        started = time.perf_counter()
        child = os.posix_spawn(self.program, [self.program, *words], {**os.environ, **(environment or {})}, file_actions=actions)
        signal.signal(signal.SIGALRM, lambda *_: os.kill(child, signal.SIGKILL))
        signal.alarm(LIMIT)
        _, ended, used = os.wait4(child, 0)
        signal.alarm(0)
        seconds = time.perf_counter() - started
        for file in self.files[1:]:
            file.seek(0)
        return Ended(os.waitstatus_to_exitcode(ended), self.files[1].read(), self.files[2].read(), seconds, used.ru_utime + used.ru_stime)


def run(program, words, **streams):
    """A call with streams of its own, as those of `subprocess.run`."""
    started = time.perf_counter()
    ran = subprocess.run([program, *words], **{"stdout": subprocess.PIPE, "stderr": subprocess.PIPE, **streams}, timeout=LIMIT)
    return Ended(ran.returncode, ran.stdout or b"", ran.stderr or b"", time.perf_counter() - started, 0.0)
