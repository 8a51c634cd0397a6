#!/usr/bin/env python3
"""Proves and builds the program as build/canely: tools/build.py

It copies the tree into a folder of its own, by default one below ~/.cache/canely, writes the commit and the kit's logic into the copy,
and has `rt run` prove every crate below the program and build it. A later build proves only what has changed. `build/canely --version`
tells the commit and the logic. It says which crate is proved as it goes."""
import hashlib
import os
import re
import shutil
import subprocess
import sys
import time
from pathlib import Path

sys.dont_write_bytecode = True

from lib import command

ROOT = Path(__file__).resolve().parent.parent
PROGRAM = ROOT / "build/canely"
VERSION = "crates/canely/src/version.rt"
# Seconds between two looks at what is proved.
PAUSE = 1


def failure(line):
    return command.Failure(command.NOT_BUILT, line)


def output(*words):
    """What a command at the top writes."""
    ran = subprocess.run(words, cwd=ROOT, stdout=subprocess.PIPE, stderr=subprocess.PIPE, text=True)
    if ran.returncode:
        raise failure(f"{' '.join(words)}: {' '.join(ran.stderr.split())}")
    return ran.stdout.strip()


def copy_tree(place):
    """Makes the folder hold the files of code as they are, but for the one with the version. What earlier builds keep in out/ stays."""
    files = [it for it in output("git", "ls-files", "crates", "crates.txt", "HANDLES").splitlines() if (ROOT / it).is_file()]
    for old in [it for it in place.glob("crates/*/*") if it.name != "out"]:
        for file in [old] if old.is_file() else [it for it in old.rglob("*") if it.is_file()]:
            if str(file.relative_to(place)) not in files:
                file.unlink()
    for name in files:
        if name != VERSION:
            write(place / name, (ROOT / name).read_bytes())


def write(file, data):
    """Writes a file, unless it has these bytes already: a file that is written anew may be proved anew."""
    if not file.is_file() or file.read_bytes() != data:
        file.parent.mkdir(parents=True, exist_ok=True)
        file.write_bytes(data)


def write_version(place):
    """Writes the commit and the kit's logic into the copy."""
    commit = output("git", "rev-parse", "HEAD") + (" with changes" if output("git", "status", "--porcelain", "--", "crates", "crates.txt") else "")
    logic = re.search(r"logic (\S+)", output("rt", "version"))[1]
    text = (ROOT / VERSION).read_text(encoding="utf-8")
    for name, value in (("COMMIT", commit), ("LOGIC", logic)):
        text, count = re.subn(rf'(const {name}: &str = )"[^"]*"', rf'\1"{value}"', text)
        if count != 1:
            raise failure(f"{VERSION} has no constant {name}")
    write(place / VERSION, text.encode())


def below(root, name):
    """The crates that the crate stands on, by crates.txt."""
    uses = {}
    for line in (root / "crates.txt").read_text(encoding="utf-8").splitlines():
        head, _, libraries = line.partition("#")[0].partition(":")
        if head.split():
            uses[head.split()[0]] = libraries.split()
    found, left = set(), [name]
    while left:
        more = [it for it in uses.get(left.pop(), []) if it in uses and it not in found]
        found.update(more)
        left += more
    return found


def stamp_time(place, crate):
    """When the library of a crate was built, or None. The clock of files may run behind the system's, so such times are only compared with one another."""
    stamp = place / f"crates/{crate}/out/rlib/stamp"
    return stamp.stat().st_mtime_ns if stamp.is_file() else None


def prove(place):
    """Proves and builds the program in the copy, and says of each crate below it when it is proved. Returns the exit status of rt."""
    began, told, is_running = time.time(), set(), True
    crates = below(place, "canely")
    before = {it: stamp_time(place, it) for it in crates}
    with open(place / "build.log", "w", encoding="utf-8") as log:
        ran = subprocess.Popen(["rt", "run", "--", "--version"], cwd=place / "crates/canely", stdin=subprocess.DEVNULL, stdout=log, stderr=log)
        while is_running:
            time.sleep(PAUSE)
            # looked at before the stamps: what was proved at the end is told too
            is_running = ran.poll() is None
            for crate in sorted(it for it in crates - told if stamp_time(place, it) not in (None, before[it])):
                told.add(crate)
                command.write([f"{(time.time() - began) / 60:5.1f} min  {crate} is proved, {len(told)} of at most {len(crates)}"])
    return ran.returncode


def build():
    for tool in ("rt", "git"):
        if shutil.which(tool) is None:
            raise failure(f"no {tool} on the path{': put the folder bin of the Rattle kit there' if tool == 'rt' else ''}")
    cache = Path(os.environ.get("XDG_CACHE_HOME") or Path.home() / ".cache")
    place = cache / "canely" / hashlib.sha256(str(ROOT).encode()).hexdigest()[:16]
    place.mkdir(parents=True, exist_ok=True)
    began = time.time()
    copy_tree(place)
    write_version(place)
    command.write([f"build.py: proving in {place}; from nothing this takes some 50 minutes of processor time"])
    status = prove(place)
    program = place / "crates/canely/out/canely"
    if status != 0 or not program.is_file():
        raise failure(f"rt run ended with status {status}; its words are in {place / 'build.log'}")
    PROGRAM.parent.mkdir(exist_ok=True)
    shutil.copy2(program, PROGRAM)
    # it is the program of the files as they were copied: one that has changed since is newer
    os.utime(PROGRAM, (began, began))
    command.write([f"build.py: built {PROGRAM}"])
    return subprocess.run([PROGRAM, "--version"]).returncode


def main():
    command.Parser(prog="build.py", description="Proves and builds the program as build/canely.").parse_args()
    return command.run("build.py", build)


if __name__ == "__main__":
    sys.exit(main())
