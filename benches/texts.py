#!/usr/bin/env python3
"""Times how long `canely replay` takes to read texts, and prints a table.

usage: benches/texts.py [PROGRAM]

Each text is refused at its end, or as soon as it may be, so nothing is run: the seconds are those of reading alone. Of each text
there is also one of a tenth of its size. Linear time shows as ten times the seconds.
"""

import resource
import subprocess
import sys
import time
from pathlib import Path

HEAD = "format = 1\nnodes = 32\nslots = 100000\n"


def sends(count):
    """Entries of `send`, of which the last names no node."""
    entries = [f'[[send]]\nslot = {i % 100000}\nnode = {i % 32}\nservice = "ed"\ndata = "{i:016x}"\n' for i in range(count - 1)]
    return HEAD + "".join(entries) + '[[send]]\nslot = 0\nnode = 32\nservice = "ed"\n'


def rules(count):
    """Fault rules, of which the last has the place of the first."""
    entries = [f'[[fault]]\nslot = {i}\nverdict = "partial"\nreject = [{i % 32}, {i % 31}]\n' for i in range(count - 1)]
    return HEAD + "".join(entries) + "[[fault]]\nslot = 0\n"


def journal(size):
    """A journal of so many bytes, of which the last is no step."""
    line = '    ".' + "".join("0123456789abcdefghijklmnopqrstuv") * 3 + '",\n'
    return HEAD + "journal = [\n" + line * (size // len(line)) + '    "*"\n]\n'


def one_line_journal(size):
    """The same in one text."""
    return HEAD + 'journal = ["' + ".012" * (size // 4) + '*"]\n'


def nested(depth):
    """Arrays in arrays."""
    return HEAD + "members = " + "[" * depth + "]" * depth + "\n"


def unknown_keys(count):
    """Keys that no table has."""
    return HEAD + "".join(f"key{i} = {i}\n" for i in range(count))


def members(count):
    """An array of node numbers, of which the last is no node."""
    return HEAD + "members = [" + "0, " * count + "32]\n"


TEXTS = [
    ("sends", sends, 20_000),
    ("rules", rules, 20_000),
    ("a journal of many texts", journal, 33_000_000),
    ("a journal of one text", one_line_journal, 33_000_000),
    ("nested arrays", nested, 1_000),
    ("unknown keys", unknown_keys, 100_000),
    ("members", members, 1_000_000),
]


def call(program, text):
    """The seconds of a call on the text, its peak in MB, its status and its line."""
    started = time.perf_counter()
    done = subprocess.run([program, "replay"], input=text, capture_output=True)
    seconds = time.perf_counter() - started
    peak = resource.getrusage(resource.RUSAGE_CHILDREN).ru_maxrss // 1024
    return seconds, peak, done.returncode, done.stdout.decode().strip()


def main():
    top = Path(__file__).resolve().parent.parent
    program = sys.argv[1] if len(sys.argv) > 1 else str(top / "crates/canely/out/canely")
    print("| text | count | MB | seconds of a tenth | seconds | status | line |\n|---|---|---|---|---|---|---|")
    for name, text_of, count in TEXTS:
        small = call(program, text_of(count // 10).encode())
        text = text_of(count).encode()
        seconds, _, status, line = call(program, text)
        print(f"| {name} | {count:,} | {len(text) / 1e6:.1f} | {small[0]:.2f} | {seconds:.2f} | {status} | `{line}` |")


if __name__ == "__main__":
    main()
