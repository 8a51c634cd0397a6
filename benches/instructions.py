#!/usr/bin/env python3
"""Counts the instructions of `canely` by callgrind, and times the same runs.

Usage: benches/instructions.py [PROGRAM]

PROGRAM is the built program, by default crates/canely/out/canely, which `rt run` in crates/canely leaves there. `valgrind`
has to be there. Each run is made twice: once alone, for its seconds and its peak memory, and once under callgrind, for its
instructions, which do not depend on what else the machine does.

Of each largest run a tenth is run too, with as many slots to a message: where the instructions of a slot do not grow with
the length of the run, both say the same number.
"""

import os
import re
import subprocess
import sys
import tempfile
import time

import world

PROGRAM = world.PROGRAM


def idle():
    """8 nodes, 20,000 slots, 200 EDCAN messages, and no life sign and no cycle in the run."""
    name, slots, sends, text = world.storm_sized(["ed"])
    return "idle run", slots, sends, text.replace("cycle = 20000", "cycle = 20000\nlife = 20000")


def second_format(services, tenths):
    """So many tenths of the largest run of format two: 64 nodes and 400,000 slots, 20,000 messages."""
    name = f"{world.PARTS[tenths]}largest of format two {'+'.join(services)}"
    slots, sends = 40000 * tenths, 2000 * tenths
    text = world.scenario(64, slots, sends, services, [f"cycle = {slots}"])
    return name, slots, sends, text.replace("format = 1", "format = 2", 1)


def everything():
    """The largest run with everything in it: three services, joins, leaves, rules, stops and restarts."""
    name, slots, sends, text = world.with_views()
    lines = []
    for index in range(1000):
        lines += [
            "[[fault]]",
            f"slot = {90 * index + 45}",
            f'verdict = "{["lost", "partial", "silent"][index % 3]}"',
            f"reject = [{index % 32}]",
        ]
    for index in range(32):
        slot = 3000 * (index + 1)
        lines += ["[[fault]]", f"slot = {slot + 1}", 'verdict = "clean"', f"stop = [{index}]"]
        lines += ["[[restart]]", f"slot = {slot + 500}", f"node = {index}"]
    return "largest with everything", slots, sends, text + "\n".join(lines) + "\n"


def cycles():
    """A tenth of the largest run, of the three services in turn, with a view in each cycle."""
    slots, sends = 10000, 2000
    return "a tenth of largest ed+rel+tot, with cycles", slots, sends, world.scenario(32, slots, sends, ["ed", "rel", "tot"], [])


def runs():
    yield idle()
    yield world.storm_sized(["ed", "rel", "tot"])
    for service in ["ed", "rel", "tot"]:
        for tenths in [1, 10]:
            yield world.largest([service], tenths)
    yield cycles()
    for tenths in [1, 10]:
        yield second_format(["ed", "rel", "tot"], tenths)
    yield everything()


def instructions(command, source):
    """What callgrind counts of one run."""
    with tempfile.NamedTemporaryFile() as out:
        source.seek(0)
        made = subprocess.run(
            ["valgrind", "--tool=callgrind", f"--callgrind-out-file={out.name}", *command],
            stdin=source,
            stdout=subprocess.DEVNULL,
            stderr=subprocess.PIPE,
            check=False,
        )
    found = re.search(rb"Collected : (\d+)", made.stderr)
    return int(found.group(1)) if found else None


def timed(command, source):
    """Seconds, peak memory in MB and status of one run."""
    source.seek(0)
    start = time.perf_counter()
    process = subprocess.Popen(command, stdin=source, stdout=subprocess.DEVNULL)
    _, status, usage = os.wait4(process.pid, 0)
    return time.perf_counter() - start, usage.ru_maxrss / 1024, os.waitstatus_to_exitcode(status)


def line(name, slots, command, text):
    """One line of the table."""
    with tempfile.TemporaryFile() as source:
        source.write(text.encode())
        seconds, peak, status = timed(command, source)
        counted = instructions(command, source)
    a_slot = counted / slots
    print(
        f"| {name} | {counted / 1e6:,.1f} | {a_slot:,.0f} | {seconds:.2f} | {slots / seconds:,.0f} | {peak:.0f} | {status} |",
        flush=True,
    )


def main():
    program = sys.argv[1] if len(sys.argv) > 1 else PROGRAM
    print(f"{os.cpu_count()} cores, {time.strftime('%Y-%m-%d')}")
    print("| run | millions of instructions | instructions a slot | seconds | slots a second | peak MB | status |")
    print("|---|---|---|---|---|---|---|")
    line("storm 7", 20000, [program, "storm", "7"], "")
    for name, slots, _, text in runs():
        line(name, slots, [program, "replay"], text)


if __name__ == "__main__":
    main()
