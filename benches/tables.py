#!/usr/bin/env python3
"""Counts by callgrind what the tables of `canely replica` cost beside the run that they are of.

Usage: benches/tables.py [PROGRAM]

PROGRAM is the built program, by default crates/canely/out/canely, which `rt run` in crates/canely leaves there. `valgrind`
has to be there. A scenario of 20,000 TOTCAN messages, which all nodes apply, is run by `replay` and by `replica`.
"""

import re
import subprocess
import sys
import tempfile

import world

# The calls whose cost is shown: reading the scenario, and running it. What is left is written.
PARTS = {"reading": "cany_command::reading::scenario_in", "running": "cany_command::running::run"}

# The exit statuses with which a run is made: `canely check` has others for what is broken or open.
ENDED = (0, 9, 10)

# What the messages ask for in rotation.
PAYLOADS = ["01{:02x}aabbccddeeff", "03{:02x}0102", "01{:02x}01", "03{:02x}0102", "02{:02x}"]


def scenario(nodes, slots, sends):
    lines = ["format = 2", f"nodes = {nodes}", f"slots = {slots}", "omit = 0", "errors = 0"]
    for index in range(sends):
        payload = PAYLOADS[index % len(PAYLOADS)].format(index // len(PAYLOADS) % 256)
        slot = index * (slots - 3000) // sends
        lines += ["[[send]]", f"slot = {slot}", f"node = {index % nodes}", 'service = "tot"', f'data = "{payload}"']
    return "\n".join(lines) + "\n"


def counted(command, text):
    """The instructions of a run, in all and of each part."""
    with tempfile.NamedTemporaryFile() as out:
        tool = ["valgrind", "--tool=callgrind", f"--callgrind-out-file={out.name}"]
        ran = subprocess.run([*tool, *command], input=text.encode(), stdout=subprocess.DEVNULL, stderr=subprocess.DEVNULL, check=False)
        if ran.returncode not in ENDED:
            sys.exit(f"{' '.join(command)}: status {ran.returncode}")
        words = ["callgrind_annotate", "--inclusive=yes", out.name]
        found = subprocess.run(words, stdout=subprocess.PIPE, text=True, check=True).stdout
    count = lambda name: int(re.search(rf"(?m)^\s*([0-9,]+) .*{re.escape(name)}", found)[1].replace(",", ""))
    whole = count("PROGRAM TOTALS")
    parts = {part: count(name) for part, name in PARTS.items()}
    return {**parts, "writing": whole - sum(parts.values())}


def main():
    program = sys.argv[1] if len(sys.argv) > 1 else world.PROGRAM
    text = scenario(3, 400000, 20000)
    print("| command | reading | running | writing |")
    print("|---|---|---|---|")
    for command in ("replay", "replica"):
        cost = counted([program, command], text)
        print(f"| {command} | " + " | ".join(f"{cost[part] / 1e6:,.1f}" for part in ("reading", "running", "writing")) + " |")


if __name__ == "__main__":
    main()
