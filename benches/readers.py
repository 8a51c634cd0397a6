#!/usr/bin/env python3
"""Watches nodes of many runs, and checks that each text has just the entries that the report of the run has of that node.

usage: benches/readers.py [PROGRAM] [RUNS]

PROGRAM is the built program, by default crates/canely/out/canely, which `rt run` in crates/canely leaves there. RUNS is 1000 where
absent. Each run has 3 to 64 nodes, messages of all three protocols, and nodes that stop and start again, some of the messages early
enough for their first incarnations and some late enough for the second; the node is one of those that start again, or any other,
in turn. At the end the script prints the seconds of both commands, of these runs and of the largest run of format two.
"""

import random
import subprocess
import sys
import time
from pathlib import Path

import world

# How many nodes the runs have, in turn: one in twenty has as many as there can be.
SIZES = [3, 4, 5, 6, 8, 10, 12, 16, 20, 3, 4, 5, 6, 8, 10, 12, 16, 24, 32, 64]

SERVICES = ["ed", "rel", "tot"]

# How many messages are sent before the first stop, and as many after the last restart.
MESSAGES = 10


def bound(nodes):
    """How many slots a node that starts again waits until it takes part: the least legal `bound`."""
    return 3 * nodes * nodes + 2 * nodes + 3


def scenario(number):
    """A text, how many nodes it has, and those that start again in it."""
    draw = random.Random(number)
    nodes = SIZES[number % len(SIZES)]
    restarted = draw.sample(range(nodes), 1 + nodes // 8)
    # the stops come after the early messages, and the late messages when all who stopped take part again
    late = 200 + 40 * len(restarted) + bound(nodes)
    parts = [f"format = 2\nnodes = {nodes}\nslots = {late + 200}\n"]
    for begin in (0, late):
        for _ in range(MESSAGES):
            send = (begin + draw.randrange(100), draw.randrange(nodes), draw.choice(SERVICES), draw.randrange(256))
            parts.append('[[send]]\nslot = {}\nnode = {}\nservice = "{}"\ndata = "{:02x}"\n'.format(*send))
    for index, node in enumerate(restarted):
        slot = 200 + 40 * index + draw.randrange(10)
        parts.append(f"[[fault]]\nslot = {slot}\nstop = [{node}]\n")
        parts.append(f"[[restart]]\nslot = {slot + draw.randrange(1, 30)}\nnode = {node}\n")
    return "\n".join(parts).encode(), nodes, restarted


def largest():
    """The largest run of format two: 64 nodes, 400,000 slots and 20,000 messages, and each node stops once and starts again."""
    slots, sends = 400000, 20000
    text = world.scenario(64, slots, sends, ["ed", "rel", "tot"], ["cycle = 32767"])
    parts = [text.replace("format = 1", "format = 2", 1)]
    for node in range(64):
        slot = (node + 1) * (slots // 70)
        parts.append(f"[[fault]]\nslot = {slot}\nstop = [{node}]\n")
        parts.append(f"[[restart]]\nslot = {slot + 20}\nnode = {node}\n")
    return "\n".join(parts).encode()


def entries_of(report, node):
    """The lines of the entries that a report has of all incarnations of a node."""
    found, is_inside = [], False
    for line in report.decode().splitlines():
        words = line.split()
        if words[0] == "node":
            is_inside = int(words[1]) == node
        elif words[0] in ("message", "end"):
            is_inside = False
        elif is_inside:
            found.append(line)
    return found


def call(program, words, text):
    begin = time.perf_counter()
    ended = subprocess.run([program, *words], input=text, capture_output=True, check=False)
    return ended.returncode, ended.stdout, time.perf_counter() - begin


def watched(program, text, node):
    """How many entries the line of a node has, and the seconds of `watch` and of `replay`."""
    status, report, replaying = call(program, ["replay"], text)
    if status != 0:
        sys.exit(f"replay ends with status {status}: {report[:200]!r}")
    lines = entries_of(report, node)
    status, found, watching = call(program, ["watch", str(node)], text)
    wanted = "".join(f"{line}\n" for line in ["canely watch 1", f"node {node}", *lines, "end"])
    if (status, found) != (0, wanted.encode()):
        sys.exit(f"watch {node} ends with status {status} and writes another text than the report has")
    return len(lines), watching, replaying


def main():
    program = Path(sys.argv[1] if len(sys.argv) > 1 else "crates/canely/out/canely").resolve()
    runs = int(sys.argv[2]) if len(sys.argv) > 2 else 1000
    watching = replaying = entries = 0
    for number in range(runs):
        text, nodes, restarted = scenario(number)
        node = number % nodes if number % 3 == 0 else restarted[number % len(restarted)]
        found, watch, replay = watched(program, text, node)
        entries, watching, replaying = entries + found, watching + watch, replaying + replay
    print(f"{runs} runs of {min(SIZES)} to {max(SIZES)} nodes: {entries} entries, all as in the reports")
    print(f"seconds: {watching:.1f} by watch, {replaying:.1f} by replay")
    entries, watching, replaying = watched(program, largest(), 1)
    print(f"largest run: {entries} entries, seconds: {watching:.1f} by watch, {replaying:.1f} by replay")


if __name__ == "__main__":
    main()
