#!/usr/bin/env python3
"""Runs `rt ci` at the top, and prints the processor time that it took of each crate, as the table of docs/gate.md.

Usage: benches/gate.py [NAME..]

What a kit has kept of an earlier run costs nothing, and what else the machine does makes the figures higher: for the whole
table nothing may be kept, and nothing run beside. The processes of the gate are read from /proc twice a second, so this
runs on Linux alone. `rt ci` writes to standard error.
"""

import collections
import os
import re
import subprocess
import sys
import time
from pathlib import Path

ROOT = Path(__file__).resolve().parent.parent
TICKS = os.sysconf("SC_CLK_TCK")
KINDS = ["proof", "tests", "edits"]


def crates():
    """The crates, in the order of crates.txt."""
    lines = (ROOT / "crates.txt").read_text(encoding="utf-8").splitlines()
    return [found[0] for line in lines if (found := re.match(r"\w+", line))]


def processes():
    """Of each process its parent, when it began, and its processor time so far, in ticks."""
    found = {}
    for entry in filter(str.isdigit, os.listdir("/proc")):
        try:
            stat = Path(f"/proc/{entry}/stat").read_text(errors="replace")
        except OSError:
            continue
        fields = stat[stat.rindex(")") + 2 :].split()
        found[int(entry)] = (int(fields[1]), int(fields[19]), int(fields[11]) + int(fields[12]))
    return found


def below(top, found):
    """The processes that come of one, itself left out."""
    children = collections.defaultdict(list)
    for process, (parent, _, _) in found.items():
        children[parent].append(process)
    waiting, out = [top], []
    while waiting:
        out += (new := children[waiting.pop()])
        waiting += new
    return out


def work_of(process):
    """The crate that a process of rattle works on, and what for; nothing of other processes."""
    try:
        words = Path(f"/proc/{process}/cmdline").read_text(errors="replace").split("\0")
        folder = os.readlink(f"/proc/{process}/cwd")
    except OSError:
        return None
    if not words[0].endswith("/rattle") or "--crate-name" not in words:
        return None
    is_edit = "rt-edit" in folder or any("seed" in word for word in [folder, *words])
    kind = "edits" if is_edit else "tests" if "--test" in words else "proof"
    return words[words.index("--crate-name") + 1], kind


def watched(gate):
    """Looks at the gate until it ends. The ticks of each process, by what it worked on."""
    work, ticks = {}, {}
    while gate.poll() is None:
        found = processes()
        for process in below(gate.pid, found):
            key = (process, found[process][1])
            work[key] = work.get(key) or work_of(process)
            ticks[key] = found[process][2]
        time.sleep(0.5)
    return [(work[key], ticks[key]) for key in ticks if work[key]]


def minutes(ticks):
    return f"{ticks / TICKS / 60:.1f}" if ticks / TICKS >= 3 else ""


def main():
    began = time.monotonic()
    gate = subprocess.Popen(["rt", "ci", *sys.argv[1:]], cwd=ROOT, stdout=sys.stderr)
    sums = collections.Counter()
    for work, ticks in watched(gate):
        sums[work] += ticks
    print(f"| crate | {' | '.join(KINDS)} | how many |\n|---|---|---|---|---|")
    for crate in crates():
        edits = len(list((ROOT / "crates" / crate / "must-fail").glob("*.edit")))
        print(f"| `{crate}` | {' | '.join(minutes(sums[crate, kind]) for kind in KINDS)} | {edits} |")
    print(f"\n{sum(sums.values()) / TICKS / 60:.1f} minutes of processor, {(time.monotonic() - began) / 60:.1f} by the clock")
    return gate.returncode


if __name__ == "__main__":
    sys.exit(main())
