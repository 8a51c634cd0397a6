#!/usr/bin/env python3
"""Lets whatever the program asks of the system fail, and checks its exit status, what it wrote, and its line on standard error.

usage: benches/refusals.py [PROGRAM]

`faults.c`, which `cc` builds, goes between the program and the C library, so that each allocation, each read, each write and each
thread can be refused in turn, and reads and writes can be short. Then come streams that are closed, full or given up, and words that
are none. What is not as it has to be is printed; at the end there is a table of how many calls ended with which status.
"""
import collections
import errno
import os
import re
import subprocess
import sys
import tempfile

from calling import TOP, Caller, program_of, run

# Bytes that a short read or write takes: about the lengths at which something is read or put together in pieces.
SHORT = [1, 7, 1_023, 1_024, 1_025, 65_535, 65_536, 65_537]

# Three nodes, of which one may lag, and a sender that stops after a partial slot.
LAGGING = b"""format = 1
nodes = 3
slots = 6
lag = 1

[[send]]
slot = 0
node = 0
service = "ed"
data = "01"

[[fault]]
slot = 1
verdict = "partial"
reject = [2]
stop = [0]
"""


class Refusals:
    def __init__(self, program, faults):
        self.program, self.faults, self.caller = program, faults, Caller(program)
        self.counts, self.wrong = collections.Counter(), 0

    def call(self, words, text, **settings):
        """A call in which something fails, as `faults.c` has it."""
        given = {f"FAULTS_{name.upper()}": str(value) for name, value in settings.items()}
        return self.caller.call(words, text, {"LD_PRELOAD": self.faults, **given})

    def asked(self, words, text):
        """How many allocations, reads, writes and threads a call asks for."""
        return [int(it) for it in self.call(words, text, counts=2).err.split()[-4:]]

    def note(self, subject, what, ended, holds):
        self.counts[subject, ended.status] += 1
        if not holds:
            self.wrong += 1
            print(f"{subject}: {what}: status {ended.status}, wrote {ended.out[:80]!r}, said {ended.err[:200]!r}", flush=True)

    def is_same(self, words, text, plain, ended):
        """Whether a call ended as it does where nothing fails: of `run`, whose threads make the journal, that its journal gives it."""
        if words == ["run"] and plain.status == 0:
            steps = "".join(re.findall(r"(?m)^journal (.*)$", ended.out.decode()))
            ended, plain = self.caller.call(["replay"], f'journal = ["{steps}"]\n'.encode() + text), ended
        return ended[:3] == plain[:3]

    def allocations(self, name, words, text):
        """Each allocation is refused, alone and with all after it: status 6 with nothing written, or the same as with memory."""
        plain = self.caller.call(words, text)
        allocations = self.asked(words, text)[0]
        for rest in (0, 1):
            for k in range(1, allocations + 1):
                ended = self.call(words, text, allocation=k, rest=rest)
                holds = ended.is_complaint(6) and not ended.out or self.is_same(words, text, plain, ended)
                if not plain.is_silent:
                    # the line on standard error says less where there is no memory for it
                    holds = ended.is_complaint(6) and not ended.out or ended.is_complaint(plain.status) and ended.out == plain.out
                self.note("allocations", f"{name}: {k} of {allocations}, rest {rest}", ended, holds)
        return allocations

    def streams(self, name, words, text):
        """Each read fails, and each write, for two causes; reads and writes are short; no thread starts."""
        plain = self.caller.call(words, text)
        _, reads, writes, threads = self.asked(words, text)
        for error in (errno.EIO, errno.EINTR, errno.ENOSPC, errno.EPIPE):
            for k in range(1, reads + 1):
                ended = self.call(words, text, read=k, error=error)
                self.note("reads that fail", f"{name}: {k} of {reads}, error {error}", ended, ended.is_complaint(4) and not ended.out)
            for k in range(1, writes + 1):
                ended = self.call(words, text, write=k, error=error)
                is_start = words == ["run"] or plain.out.startswith(ended.out)
                # a write that was interrupted is made again, and the report is whole
                holds = self.is_same(words, text, plain, ended) if error == errno.EINTR else ended.is_complaint(5) and is_start
                self.note("writes that fail", f"{name}: {k} of {writes}, error {error}", ended, holds)
        for most in SHORT:
            ended = self.call(words, text, bytes=most)
            self.note("short reads and writes", f"{name}: {most}", ended, self.is_same(words, text, plain, ended))
        for k in range(1, threads + 1):
            ended = self.call(words, text, thread=k)
            self.note("threads that do not start", f"{name}: {k} of {threads}", ended, self.is_same(words, text, plain, ended))


def try_streams(refusals, long_text):
    """Standard streams that are closed, full, or given up by who reads."""
    program, text = refusals.program, next((TOP / "scenarios").rglob("one_message_no_fault.toml")).read_bytes()
    readers = [["replay"], ["run"], ["check"], ["watch", "0"]]
    commands = [(words, text) for words in readers] + [(["storm", "7"], b""), (["--help"], b""), (["--version"], b"")]

    def try_shell(subject, what, line, holds, given=text):
        # a shell closes streams, and starts the program as a user does
        ended = run("/bin/bash", ["-c", line, program], input=given)
        refusals.note(subject, what, ended, holds(ended))

    for words, given in commands:
        name = " ".join(words)
        try_shell("closed streams", f"{name} >&-", f'"$0" {name} >&-', lambda it: it.is_complaint(5), given)
        try_shell("closed streams", f"{name} 2>&-", f'"$0" {name} 2>&-', lambda it: it.status == 0 and it.out, given)
        try_shell("closed streams", f"{name} >&- 2>&-", f'"$0" {name} >&- 2>&-', lambda it: it.status == 5, given)
        try_shell("full disks", f"{name} > /dev/full", f'"$0" {name} > /dev/full', lambda it: it.is_complaint(5), given)
        try_shell("full disks", f"{name} > /dev/full 2> /dev/full", f'"$0" {name} > /dev/full 2> /dev/full', lambda it: it.status == 5, given)
        read, write = os.pipe()
        os.close(read)
        ended = run(program, words, input=given, stdout=write)
        os.close(write)
        refusals.note("pipes given up", name, ended, ended.is_complaint(5))
    for name in map(" ".join, readers):
        try_shell("closed streams", f"{name} <&-", f'"$0" {name} <&-', lambda it: it.is_complaint(4) and not it.out)
        try_shell("closed streams", f"{name} < .", f'"$0" {name} < .', lambda it: it.is_complaint(4) and not it.out)
        for lines in (1, 10):
            line = f'"$0" {name} | head -{lines} > /dev/null; exit ${{PIPESTATUS[0]}}'
            try_shell("pipes given up", f"{name} | head -{lines}", line, lambda it: it.is_complaint(5), long_text)
    try_shell("closed streams", "storm 7 <&-", '"$0" storm 7 <&-', lambda it: it.status == 0 and it.is_silent)
    try_shell("closed streams", "play 2>&-", '"$0" play 2>&-', lambda it: it.status == 2)


def try_words(refusals):
    """Words that are no text, that are many, or long."""
    odd = [b"", b"\xff", b"\xc3\x28", b"\xed\xa0\x80", b"\xf5\x80\x80\x80", b"replay\xff", b"-", b"--", b"--help=", b"-h", b"replay\n", "réplay".encode()]
    odd += [b"\x1b[2J", b"x" * 131_000, b"\xff" * 131_000]
    lists = [[it] for it in odd] + [["storm", it] for it in [*odd, b"1" * 131_000, "٧".encode()]]
    lists += [[word, it] for word in ("replay", "run", "check", "watch") for it in odd]
    lists += [[word] * 100_000 for word in ("replay", "storm", "", "--help", b"\xff")] + [["storm"] + ["7"] * 99_999, [], ["storm"]]
    for words in lists:
        ended = run(refusals.program, words, input=b"")
        name = f"{len(words)} words, {words[:1]!r:.40}"
        refusals.note("other words", name, ended, ended.is_complaint(2) and not ended.out and len(ended.err) < 160)
    allocations = 0
    for words in ([], ["play"], ["storm", "x"], ["storm", "1", "2"], [b"\xff"], ["--help"], ["--version"]):
        allocations += refusals.allocations(f"{words!r}", words, b"")
    return allocations


def long_scenario():
    """A scenario of which the report has more bytes than a pipe takes."""
    sends = "".join(f'[[send]]\nslot = {10 * i}\nnode = {i % 3}\nservice = "ed"\ndata = "{i:08x}"\n' for i in range(2_000))
    return f"format = 1\nnodes = 3\nslots = 20100\n{sends}".encode()


def main():
    scenarios = {it.stem: it.read_bytes() for it in sorted((TOP / "scenarios").rglob("*.toml"))}
    long_text = long_scenario()
    with tempfile.TemporaryDirectory() as folder:
        faults = f"{folder}/faults.so"
        subprocess.run(["cc", "-O1", "-shared", "-fPIC", "-o", faults, TOP / "benches/faults.c"], check=True)
        refusals = Refusals(program_of(sys.argv[1:]), faults)
        print("| allocations of | each refused, alone and with all after it |\n|---|---|")
        for name, words, text in [
            ("`replay` of `one_message_no_fault`", ["replay"], scenarios["one_message_no_fault"]),
            ("`storm 7`", ["storm", "7"], b""),
            ("`run` of `one_message_no_fault`", ["run"], scenarios["one_message_no_fault"]),
            ("`run` with a lag and a stop", ["run"], LAGGING),
            ("`replica` of `table_order_decides`", ["replica"], scenarios["table_order_decides"]),
            ("`media` of `blind_slot`", ["media", "0:1-1:down", "1:0-2:split:0"], scenarios["blind_slot"]),
            ("`tail` of `tail_enough`", ["tail"], scenarios["tail_enough"]),
            ("`watch 2` of `one_message_no_fault`", ["watch", "2"], scenarios["one_message_no_fault"]),
            ("`check` of `brake_commands`", ["check"], scenarios["brake_commands"]),
            ("`check` of `silent_omission_is_outside`", ["check"], scenarios["silent_omission_is_outside"]),
        ]:
            print(f"| {name} | {refusals.allocations(name, words, text):,} |", flush=True)
            refusals.streams(name, words, text)
        number = sum(refusals.allocations(name, ["replay"], text) for name, text in scenarios.items())
        print(f"| `replay` of the {len(scenarios)} scenarios | {number:,} |")
        for name, text in scenarios.items():
            refusals.streams(name, ["replay"], text)
        refusals.streams("a long report", ["replay"], long_text)
        refusals.streams("`run` with a long report", ["run"], long_text)
        print(f"| other words and `--help` | {try_words(refusals):,} |\n")
        try_streams(refusals, long_text)
    statuses = sorted({status for _, status in refusals.counts})
    print(f"| what fails | {' | '.join(map(str, statuses))} |\n|---|{'---|' * len(statuses)}")
    for subject in dict.fromkeys(subject for subject, _ in refusals.counts):
        print(f"| {subject} | {' | '.join(f'{refusals.counts[subject, it]:,}' if refusals.counts[subject, it] else '' for it in statuses)} |")
    print(f"\n{refusals.wrong} wrong")
    sys.exit(refusals.wrong > 0)


if __name__ == "__main__":
    main()
