#!/usr/bin/env python3
"""Runs a scenario by threads many times, and checks that each report's journal, replayed, gives the same report.

usage: benches/threads.py [PROGRAM] [RUNS]

PROGRAM is the built program, by default crates/canely/out/canely, which `rt run` in crates/canely leaves there. RUNS is 1000 where
absent. The scenario has messages of all three protocols, nodes that stop, a restart, joins and a lag of 3. After the runs the script
prints the seconds of `run` beside those of `replay`, which works the same scenario by the round robin journal, for 8 and 32 nodes.

What the threads leave the caller makes at the end, always the turn of the least node with something unread, or else the next slot.
So of a journal at most the longest end in which the turns after each slot ascend can be the caller's, and the share of the threads
that is printed is the least that it can be.
"""

import subprocess
import sys
import time
from pathlib import Path

SERVICES = ["ed", "rel", "tot"]

# The letters of the turns in a journal, from node 0 on.
TURNS = "0123456789abcdefghijklmnopqrstuvwxyzABCDEFGHIJKLMNOPQRSTUVWXYZ+-"


def scenario(nodes, slots):
    """A text in two parts, between which a journal may stand. The last node joins, node 1 stops and starts again, node 2 stops."""
    members = ", ".join(str(node) for node in range(nodes - 1))
    head = f"format = 1\nnodes = {nodes}\nslots = {slots}\nlag = 3\nmembers = [{members}]\n"
    entries = []
    for index in range(3 * nodes):
        slot = index * (slots // 2) // (3 * nodes)
        service = SERVICES[index % 3]
        entries.append(f'[[send]]\nslot = {slot}\nnode = {index % nodes}\nservice = "{service}"\ndata = "{index:04x}"\n')
    entries.append(f"[[fault]]\nslot = {slots // 8}\nverdict = \"partial\"\nreject = [0]\nstop = [1]\n")
    entries.append(f"[[fault]]\nslot = {slots // 5}\nstop = [2]\n")
    entries.append(f"[[restart]]\nslot = {slots // 4}\nnode = 1\n")
    entries.append(f"[[join]]\nslot = {slots // 3}\nnode = 1\n")
    entries.append(f"[[join]]\nslot = 1\nnode = {nodes - 1}\n")
    return head, "\n" + "\n".join(entries)


def journal_lines(report):
    """The texts of the report's journal."""
    return [line[len("journal "):] for line in report.decode().splitlines() if line.startswith("journal ")]


def by_threads_at_least(lines):
    """How many steps the journal of these texts has, and how many of them at least the threads made."""
    steps = "".join(lines)
    left, next_turn = 0, len(TURNS)
    for step in reversed(steps):
        turn = TURNS.find(step)
        if turn > next_turn:
            break
        next_turn = len(TURNS) if turn < 0 else turn
        left += 1
    return len(steps), len(steps) - left


def call(program, word, text):
    """The report of a call, and its seconds."""
    started = time.perf_counter()
    done = subprocess.run([program, word], input=text.encode(), capture_output=True)
    seconds = time.perf_counter() - started
    if done.returncode != 0:
        sys.exit(f"canely {word} ended with status {done.returncode}: {done.stdout.decode()}{done.stderr.decode()}")
    return done.stdout, seconds


def replays(program, parts, report):
    """Whether the report's journal, given to `replay`, gives the same bytes."""
    texts = ", ".join(f'"{steps}"' for steps in journal_lines(report))
    again, _ = call(program, "replay", parts[0] + f"journal = [{texts}]\n" + parts[1])
    return again == report


def check_runs(program, runs):
    """Makes the runs and checks each report."""
    parts = scenario(5, 400)
    journals = set()
    for index in range(runs):
        report, _ = call(program, "run", "".join(parts))
        if not replays(program, parts, report):
            sys.exit(f"run {index}: its journal, replayed, gives another report")
        journals.add(tuple(journal_lines(report)))
    counts = [by_threads_at_least(journal) for journal in journals]
    share = sum(made for _, made in counts) / sum(steps for steps, _ in counts)
    print(f"{runs} runs by threads, {len(journals)} journals: each report is that of its journal.")
    print(f"The threads made {share:.1%} of the steps at least.\n")


def main():
    top = Path(__file__).resolve().parent.parent
    program = sys.argv[1] if len(sys.argv) > 1 else str(top / "crates/canely/out/canely")
    check_runs(program, int(sys.argv[2]) if len(sys.argv) > 2 else 1000)
    print("| nodes | slots | seconds of `run` | seconds of `replay` | share of the threads |\n|---|---|---|---|---|")
    for nodes in [8, 32]:
        text = "".join(scenario(nodes, 2000))
        report, by_threads = call(program, "run", text)
        _, in_order = call(program, "replay", text)
        steps, made = by_threads_at_least(journal_lines(report))
        print(f"| {nodes} | {2000:,} | {by_threads:.2f} | {in_order:.2f} | {made / steps:.1%} |")


if __name__ == "__main__":
    main()
