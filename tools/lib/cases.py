"""A folder of cases: FOLDER/000/000123.toml is the scenario of case 123, beside it .check the text that `canely check` wrote of it, and
.status its exit status. A case is done once it was judged or refused, so a run that was cut off goes on where it was."""
import errno
import fcntl
import multiprocessing
import os
import signal
import subprocess
import sys
import time
from pathlib import Path
from typing import NamedTuple

from . import command
from .scenario import scenario_text
from .verdict import BROKEN, HELD, OPEN
from .words import TABLES

CASES_IN_FOLDER = 1000
# The exit statuses that a case has for good. One that ended otherwise, as where memory or the disk was full, is tried again.
DONE = (HELD, BROKEN, OPEN, command.REFUSED)
# How long the progress line stands, in seconds, on a terminal and elsewhere.
PAUSE, LONG_PAUSE = 0.5, 30
KILLED = 128


def folder_failure(error, folder):
    return command.Failure(command.WRITE_FAILED, f"cannot write to {folder}: {command.cause(error)}")


class Made(NamedTuple):
    """How the cases of a folder were made."""

    count: int
    given: dict
    """By table how many entries each case has of the scenario that was given; the entries after them were made. None where none was."""


def write_cases(folder, scenarios, made_by, given=None):
    """Writes the scenarios, and at last by which words they were made, and how many entries of each table the given scenario has."""
    folder = Path(folder)
    count = -1
    try:
        folder.mkdir(parents=True, exist_ok=True)
        if any(folder.iterdir()):
            raise command.Failure(command.WRONG_ARGUMENTS, f"{folder} is not empty")
        for count, scenario in enumerate(scenarios):
            path = folder / f"{count // CASES_IN_FOLDER:03}" / f"{count:06}.toml"
            path.parent.mkdir(exist_ok=True)
            path.write_text(scenario_text(scenario), encoding="ascii")
        words = " ".join(f"{table} {len(given.get(table, []))}" for table in TABLES) if given else "none"
        (folder / "made").write_text(f"cases {count + 1}\ngiven {words}\nby {' '.join(made_by)}\n", encoding="utf-8")
    except OSError as error:
        raise folder_failure(error, folder) from None
    return count + 1


def read_made(folder):
    """How the cases of a folder were made."""
    try:
        first, second = (Path(folder) / "made").read_text(encoding="utf-8").splitlines()[:2]
        words = second.removeprefix("given ").split()
        given = dict(zip(words[::2], map(int, words[1::2])))
        return Made(int(first.removeprefix("cases ")), given)
    except (OSError, ValueError):
        raise command.Failure(command.READ_FAILED, f"{folder} is no folder of cases, or was not made to its end") from None


def case_paths(folder):
    """The paths of all cases without their suffix, in their order."""
    return [f"{folder}/{number // CASES_IN_FOLDER:03}/{number:06}" for number in range(read_made(folder).count)]


def status_of(path):
    """The exit status with which a case was judged, and what was said beside it; None where it is not done."""
    try:
        with open(f"{path}.status", encoding="utf-8", errors="replace") as source:
            status, _, said = source.readline().strip().partition(" ")
    except FileNotFoundError:
        return None
    return (int(status), said) if status.isdecimal() else None


def done_status(path):
    """The exit status of a case that is done, or None. One whose text is gone is not done."""
    found = status_of(path)
    return found[0] if found and found[0] in DONE and has_text(path) else None


def has_text(path):
    try:
        return os.path.getsize(f"{path}.check") > 0
    except FileNotFoundError:
        return False


def wait_for(file):
    """Takes the file of a case for this process, and waits while another run has it. Not all file systems can do that."""
    try:
        fcntl.flock(file, fcntl.LOCK_EX)
    except OSError as error:
        if error.errno not in (errno.ENOLCK, errno.ENOTSUP, errno.ENOSYS):
            raise


class Counts(NamedTuple):
    """What the workers share: the next case, and how many are done, are broken, and ended otherwise."""

    next: object
    done: object
    broken: object
    failed: object
    stop: object

    def note(self, status):
        """Counts a case that ended with a status."""
        add(self.done)
        if status == BROKEN:
            add(self.broken)
        elif status not in (HELD, OPEN):
            add(self.failed)


def add(value):
    with value.get_lock():
        value.value += 1
        return value.value - 1


class Worker:
    """Runs cases, one at a time, until there are no more. What keeps it from going on it says by a pipe."""

    def __init__(self, words, paths, limit, counts, complaints):
        self.words, self.paths, self.limit, self.counts, self.complaints = words, paths, limit, counts, complaints
        self.parent, self.child = os.getpid(), None

    def __call__(self):
        # an interrupt is for the parent, which lets the cases that run come to their end
        signal.signal(signal.SIGINT, signal.SIG_IGN)
        signal.signal(signal.SIGALRM, lambda *_: self.child.kill())
        try:
            while not self.counts.stop.value and os.getppid() == self.parent:
                place = add(self.counts.next)
                if place >= len(self.paths):
                    return
                self.counts.note(self.run(self.paths[place]))
        except OSError as error:
            self.counts.stop.value = 1
            self.complaints.send(f"{error.filename or 'a case'}: {command.cause(error)}")

    def run(self, path):
        """Judges a case, unless another run has done it by now, and returns its status."""
        with open(f"{path}.toml", "rb") as source, open(f"{path}.check", "ab") as sink:
            wait_for(sink)
            done = done_status(path)
            if done is None:
                sink.truncate(0)
                done = self.judge(source, sink, path)
        return done

    def judge(self, source, sink, path):
        """Has the program judge a case, and leaves its text and its status. The status is written last and by one call."""
        self.child = subprocess.Popen(self.words, stdin=source, stdout=sink, stderr=subprocess.PIPE, start_new_session=True)
        signal.setitimer(signal.ITIMER_REAL, self.limit)
        said = self.child.stderr.read().decode(errors="replace")
        status = self.child.wait()
        signal.setitimer(signal.ITIMER_REAL, 0)
        self.child.stderr.close()
        status = status if status >= 0 else KILLED - status
        line = "" if status in (HELD, BROKEN, OPEN) else f" {' '.join(said.split())[:200]}".rstrip()
        with open(f"{path}.status", "w", encoding="utf-8") as sink:
            sink.write(f"{status}{line}\n")
        return status


def clock(seconds):
    return f"{seconds // 3600:.0f}:{seconds % 3600 // 60:02.0f}:{seconds % 60:02.0f}"


def progress(counts, before, total, seconds):
    """How far a run is; what was done before it counts, but for the rate."""
    done = counts.done.value
    rate = (done - before) / seconds if seconds else 0
    left = total - done
    time_left = f", {clock(left / rate) if rate else 'unknown time'} left" if left else ""
    failed = f", {counts.failed.value} ended otherwise" if counts.failed.value else ""
    return f"{done} of {total} cases, {rate:.0f} a second, {counts.broken.value} broken{failed}{time_left}"


def show(line, is_last=False):
    is_terminal = sys.stderr.isatty()
    print(f"\r{line}\x1b[K" if is_terminal else line, end="" if is_terminal and not is_last else "\n", file=sys.stderr, flush=True)


def watch(workers, counts, before, total):
    """Shows how far the workers are until they have ended."""
    start = shown = time.monotonic()
    try:
        while any(it.is_alive() for it in workers):
            for it in workers:
                it.join(PAUSE / len(workers))
            now = time.monotonic()
            if sys.stderr.isatty() or now - shown >= LONG_PAUSE:
                show(progress(counts, before, total, now - start))
                shown = now
    finally:
        show(progress(counts, before, total, time.monotonic() - start), True)


def run_cases(words, paths, jobs, limit):
    """Runs the command on each case that is not done, so many at a time."""
    context = multiprocessing.get_context("fork")
    counts = Counts(*(context.Value("q", 0) for _ in Counts._fields))
    left = []
    for path in paths:
        done = done_status(path)
        left.append(path) if done is None else counts.note(done)
    before = counts.done.value
    said, complaints = context.Pipe(False)
    workers = [context.Process(target=Worker(words, left, limit, counts, complaints)) for _ in range(max(1, min(jobs, len(left))))]
    for it in workers:
        it.start()
    try:
        watch(workers, counts, before, len(paths))
    except KeyboardInterrupt:
        counts.stop.value = 1
        for it in workers:
            it.join()
        raise command.Failure(command.INTERRUPTED, f"interrupted; {counts.done.value - before} cases were run, and the same command goes on") from None
    if said.poll() or any(it.exitcode for it in workers):
        why = said.recv() if said.poll() else "a worker was ended"
        raise command.Failure(command.WRITE_FAILED, f"cannot go on: {why}; the same command does, where it was")
