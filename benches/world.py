#!/usr/bin/env python3
"""Times `canely replay` on generated scenarios and prints the time per slot and per message, and peak memory.

Usage: benches/world.py [PROGRAM]

PROGRAM is the built program, by default crates/canely/out/canely, which `rt run` in crates/canely leaves there. Each
scenario is run once; the figure is the time of the whole call, with reading the text and writing the report.

Of each service a tenth and a half of the largest run are run too, with as many slots to a message. Where a message costs
the same early and late in a run, the time per message is that of the whole.
"""

import os
import subprocess
import sys
import tempfile
import time

HERE = os.path.dirname(os.path.abspath(__file__))
PROGRAM = os.path.join(HERE, "..", "crates", "canely", "out", "canely")

PARTS = {1: "a tenth of ", 5: "half of ", 10: ""}


def scenario(nodes, slots, sends, services, extra):
    """A text in which `sends` messages are spread evenly over the run, their origins and services in rotation."""
    lines = ["format = 1", f"nodes = {nodes}", f"slots = {slots}", *extra]
    for index in range(sends):
        slot = index * (slots - 100) // sends
        service = services[index % len(services)]
        lines += [
            "[[send]]",
            f"slot = {slot}",
            f"node = {index % nodes}",
            f'service = "{service}"',
            f'data = "{index % 65536:04x}"',
        ]
    return "\n".join(lines) + "\n"


def storm_sized(services):
    name = "storm-sized " + "+".join(services)
    extra = ["omit = 2", "errors = 2", "bound = 211", "cycle = 20000"]
    return name, 20000, 200, scenario(8, 20000, 200, services, extra)


def largest(services, tenths):
    """So many tenths of the largest run."""
    name = PARTS[tenths] + "largest " + "+".join(services)
    slots, sends = 10000 * tenths, 2000 * tenths
    return name, slots, sends, scenario(32, slots, sends, services, [f"cycle = {slots}"])


def dense(tenths):
    """So many tenths of a run that carries as many TOTCAN messages as the slots have room for. An origin waits `bound` slots
    from one to the next, and `bound` grows with the square of the nodes, so that two nodes send most."""
    name = PARTS[tenths] + "dense tot"
    slots, sends = 10000 * tenths, 1000 * tenths
    return name, slots, sends, scenario(2, slots, sends, ["tot"], [f"cycle = {slots}"])


def with_views():
    """The largest run with views: a new one in each cycle, and in each half of a cycle joins and leaves of many nodes. Nodes 24 and
    above are no members at first."""
    slots, sends, asks = 100000, 20000, 1000
    members = ", ".join(str(node) for node in range(24))
    lines = [scenario(32, slots, sends, ["ed", "rel", "tot"], [f"members = [{members}]"])]
    for table, first in [("join", 0), ("leave", 16)]:
        for index in range(asks):
            slot = index * (slots - 100) // asks
            lines += [f"[[{table}]]", f"slot = {slot}", f"node = {(first + index) % 32}"]
    return "largest with views", slots, sends, "\n".join(lines) + "\n"


def runs():
    """The name, slots, messages and text of each run."""
    for service in ["ed", "rel", "tot"]:
        yield storm_sized([service])
        for tenths in PARTS:
            yield largest([service], tenths)
    for tenths in PARTS:
        yield dense(tenths)
    yield storm_sized(["ed", "rel"])
    yield largest(["ed", "rel"], 10)
    yield with_views()


def measure(program, text):
    """Seconds, peak memory in MB (ru_maxrss is in kB on Linux), status and output of one run."""
    with tempfile.TemporaryFile() as source, tempfile.TemporaryFile() as sink:
        source.write(text.encode())
        source.seek(0)
        start = time.perf_counter()
        process = subprocess.Popen([program, "replay"], stdin=source, stdout=sink)
        _, status, usage = os.wait4(process.pid, 0)
        seconds = time.perf_counter() - start
        sink.seek(0)
        report = sink.read()
    return seconds, usage.ru_maxrss / 1024, os.waitstatus_to_exitcode(status), report


def main():
    program = sys.argv[1] if len(sys.argv) > 1 else PROGRAM
    print(f"{os.cpu_count()} cores, {time.strftime('%Y-%m-%d')}")
    print("| run | messages | seconds | slots per second | ms per message | peak MB | report MB | settled |")
    print("|---|---|---|---|---|---|---|---|")
    for name, slots, sends, text in runs():
        seconds, peak, status, report = measure(program, text)
        if status == 3:
            print(f"| {name} | refused: {report.decode().strip()} | | | | | | |")
            continue
        if status != 0:
            sys.exit(f"{name}: status {status}")
        settled = report.count(b" settled\n")
        print(
            f"| {name} | {sends} | {seconds:.2f} | {slots / seconds:,.0f} | {1000 * seconds / sends:.3f} | {peak:.0f} "
            f"| {len(report) / 1e6:.1f} | {settled} |"
        )


if __name__ == "__main__":
    main()
