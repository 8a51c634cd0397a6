#!/usr/bin/env python3
"""Counts by callgrind what two lines of `canely media` cost beside the run of one bus.

Usage: benches/lines.py [PROGRAM]

PROGRAM is the built program, by default crates/canely/out/canely, which `rt run` in crates/canely leaves there. `valgrind`
has to be there. The largest scenario of format one, with 20,000 EDCAN messages, is run by `replay`, and by `media` with 1,000
faults: of one line at a time, in all slots, and of both lines together, in 2,000 slots.
"""

import sys

import tables
import world

FAULTS = 1000


def one_at_a_time(slots):
    """One line is down in each slot, and the other is whole."""
    each = slots // FAULTS
    return [f"{index % 2}:{index * each}-{index * each + each - 1}:down" for index in range(FAULTS)]


def both_together(slots, each):
    """No line is whole in so many slots at the begin of each stretch."""
    apart = 2 * slots // FAULTS
    begins = range(0, slots, apart)
    return [f"{line}:{begin}-{begin + each - 1}:down" for begin in begins for line in (0, 1)]


def main():
    program = sys.argv[1] if len(sys.argv) > 1 else world.PROGRAM
    _, slots, _, text = world.largest(["ed"], 10)
    rows = {
        "replay": ["replay"],
        "media, no fault": ["media"],
        "media, one line at a time": ["media", *one_at_a_time(slots)],
        "media, both together": ["media", *both_together(slots, 4)],
    }
    print("| command | reading | running | the rest |")
    print("|---|---|---|---|")
    for name, words in rows.items():
        cost = tables.counted([program, *words], text)
        print(f"| {name} | " + " | ".join(f"{cost[part] / 1e6:,.1f}" for part in ("reading", "running", "writing")) + " |")


if __name__ == "__main__":
    main()
