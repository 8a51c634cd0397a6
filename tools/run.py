#!/usr/bin/env python3
"""Runs the program from the sources of this tree: tools/run.py check < SCENARIO > VERDICT

Where `tools/build.py`, `rt run` or `rt ci` has left a program of these sources, that one is run. Else `rt try` builds one without a
proof, which takes one to four minutes, more on a loaded machine, and runs it at once. That is for short runs: it stops a program after
60 seconds, or past a megabyte of output. The words after the script's name are those of `canely`. The exit status is that of the
program, and 1 where there is none and no `rt`. A command that reads a scenario from standard input and is given a file is answered as
the program answers it, without a build."""
import os
import shutil
import subprocess
import sys
import threading
import time
from pathlib import Path

sys.dont_write_bytecode = True

from lib import command

ROOT = Path(__file__).resolve().parent.parent
PROGRAMS = (ROOT / "build/canely", ROOT / "crates/canely/out/canely")
# Seconds between two signs of life.
PAUSE = 10
# The commands that take no words and read standard input, and the longest word that the program repeats (`complaint.rt` of canely).
READERS = ("replay", "check", "run", "replica", "tail")
MOST_SHOWN = 40


def built():
    """The newest program that is no older than a file of code, or None."""
    newest = max(it.stat().st_mtime for it in [ROOT / "crates.txt", *ROOT.glob("crates/*/src/**/*.rt")])
    fresh = [it for it in PROGRAMS if it.is_file() and it.stat().st_mtime >= newest]
    return max(fresh, key=lambda it: it.stat().st_mtime, default=None)


def say(line):
    print(f"run.py: {line}", file=sys.stderr, flush=True)


def tell(ended):
    """Says on standard error that the build goes on, until it has ended."""
    began = time.monotonic()
    while not ended.wait(PAUSE):
        say(f"still building, {time.monotonic() - began:.0f} s")


def copy(source, ended):
    """Hands on what the program writes, as it comes. The first of it says that the build has ended."""
    while piece := source.read1(65536):
        ended.set()
        command.write_bytes([piece])


def complaint(words):
    """What the program says where a file is given to a command that reads standard input, or None."""
    if len(words) != 2 or words[0] not in READERS or not is_text(words[1]):
        return None
    shown = words[1] if len(words[1]) <= MOST_SHOWN and all("!" <= it <= "~" for it in words[1]) else "FILE"
    return f"canely: {words[0]} reads the scenario from standard input: canely {words[0]} < {shown}"


def is_text(word):
    """Whether a word is valid UTF-8: Python keeps other bytes as halves of pairs."""
    return not any("\ud800" <= it <= "\udfff" for it in word)


def build_and_run(words):
    if shutil.which("rt") is None:
        raise command.Failure(command.NOT_BUILT, "no rt on the path: put the folder bin of the Rattle kit there")
    say("building the program without a proof, which takes one to four minutes, more on a loaded machine")
    ended = threading.Event()
    threading.Thread(target=tell, args=(ended,), daemon=True).start()
    with subprocess.Popen(["rt", "try", "--", *words], cwd=ROOT / "crates/canely", stdout=subprocess.PIPE) as ran:
        copy(ran.stdout, ended)
    ended.set()
    return ran.returncode


def run(words):
    program = built()
    if program is not None:
        os.execv(program, [str(program), *words])
    if (line := complaint(words)) is not None:
        print(line, file=sys.stderr)
        return command.WRONG_ARGUMENTS
    return build_and_run(words)


def main():
    return command.run("run.py", lambda: run(sys.argv[1:]))


if __name__ == "__main__":
    sys.exit(main())
