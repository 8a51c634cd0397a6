#!/usr/bin/env python3
"""Counts by callgrind, and times, what a verdict of `canely check` costs beside the report that `canely replay` writes of the same run.

Usage: benches/verdicts.py [PROGRAM]

PROGRAM is the built program, by default crates/canely/out/canely, which `rt run` in crates/canely leaves there. `valgrind`
has to be there. The largest scenarios of both formats are run by both commands, each TIMES times for the seconds that it takes of a
processor, of which the least are told.
"""

import os
import subprocess
import sys
import tempfile
import time

import instructions
import tables
import world

WORDS = ("replay", "check")
TIMES = 5


def runs():
    for service in ["ed", "rel", "tot"]:
        yield world.largest([service], 10)
    yield instructions.everything()
    for services in [["ed"], ["ed", "rel", "tot"]]:
        yield instructions.second_format(services, 10)


def measured(command, source):
    """The seconds of a processor, and the peak memory in MB, of one run."""
    source.seek(0)
    process = subprocess.Popen(command, stdin=source, stdout=subprocess.DEVNULL)
    _, status, usage = os.wait4(process.pid, 0)
    if os.waitstatus_to_exitcode(status) not in tables.ENDED:
        sys.exit(f"{' '.join(command)}: status {os.waitstatus_to_exitcode(status)}")
    return usage.ru_utime + usage.ru_stime, usage.ru_maxrss / 1024


def timed(commands, text):
    """Of each command the least seconds of a processor of several runs, which take turns, and the peak memory in MB."""
    with tempfile.TemporaryFile() as source:
        source.write(text.encode())
        found = [[measured(command, source) for command in commands] for _ in range(TIMES)]
    return [(min(it[0] for it in times), max(it[1] for it in times)) for times in zip(*found)]


def main():
    program = sys.argv[1] if len(sys.argv) > 1 else world.PROGRAM
    commands = [[program, word] for word in WORDS]
    print(f"{os.cpu_count()} cores, {time.strftime('%Y-%m-%d')}")
    print("| run | command | reading | running | the rest | all | seconds | peak MB |")
    print("|---|---|---|---|---|---|---|---|")
    for name, _, _, text in runs():
        times = timed(commands, text)
        for word, command, (seconds, peak) in zip(WORDS, commands, times):
            cost = tables.counted(command, text)
            parts = [cost[part] for part in ("reading", "running", "writing")]
            cells = " | ".join(f"{it / 1e6:,.1f}" for it in [*parts, sum(parts)])
            print(f"| {name} | {word} | {cells} | {seconds:.2f} | {peak:.0f} |", flush=True)


if __name__ == "__main__":
    main()
