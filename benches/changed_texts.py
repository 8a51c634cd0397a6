#!/usr/bin/env python3
"""Changes the scenarios at random, cuts them at each byte, and checks that `canely replay` runs or refuses each text.

usage: benches/changed_texts.py [PROGRAM [COUNT [SEED]]]

Each changed text is a scenario of `scenarios/` with one byte, one key or one number changed; COUNT, by default 100,000, is how many
there are, and SEED tells which. The exit status has to be 0, with a whole report, or 3, with the line of a refusal, nothing may be
on standard error, and a call may take less than a second of the processor. Of those that give a short report every twentieth is run
by `canely run` too. What ends otherwise is written into a file, which the script names.
"""
import collections
import random
import re
import sys
import tempfile

from calling import TOP, Caller, program_of

# Numbers at the edges of the ranges of a text, of identifiers, and of what a number of a text can be.
EDGES = sorted(
    {
        sign * (edge + step)
        for edge in [0, 1, 2, 8, 10, 15, 16, 31, 32, 63, 64, 127, 255, 1_000, 20_000, 32_767, 100_000, 400_000, 1_000_000, 2**31, 2**32, 2**53]
        for step in (-1, 0, 1)
        for sign in (1, -1)
    }
    | {2**63 - 1, 2**63, -(2**63), -(2**63) - 1, 2**64, 10**30}
)

# The keys and the words of the texts.
KEYS = """format nodes slots lag omit errors bound cycle life silence confirm members send fault join leave restart journal slot node
service data class number nth verdict reject stop""".split()
VALUES = """true 1.0 1_0 0x10 "" "ed" "rel" "tot" "0102030405060708" "clean" "lost" "partial" "silent" "tot" "accept" "els" "fds" "rha" "join" [] [0]
[0,1] ["x"] [[]] {} {a=1} 1979-05-27 inf nan '''x'''""".split()

# Bytes that mean something to TOML or to UTF-8, beside any byte.
BYTES = b'\x00\t\n\r "\'#=.,[]{}\\-+_0:\x7f\x80\xc0\xe0\xf0\xf4\xff'


def with_byte(chance, text):
    """One byte changed, taken out, doubled, or set between two others."""
    at = chance.randrange(len(text))
    byte = bytes([chance.choice(BYTES) if chance.random() < 0.5 else chance.randrange(256)])
    return chance.choice([text[:at] + byte + text[at + 1 :], text[:at] + text[at + 1 :], text[: at + 1] + text[at:], text[:at] + byte + text[at:]])


def spans(pattern, text):
    """The places of what the pattern finds, in the lines that are no comments."""
    lines = re.finditer(rb"(?m)^[^#\n]*", text)
    return [it.span() for line in lines for it in re.compile(pattern).finditer(text, *line.span())]


def with_number(chance, text):
    """One number replaced by one at an edge, or by one next to it."""
    start, end = chance.choice(spans(rb"\b[0-9]+\b", text))
    near = [int(text[start:end]) + step for step in (-1, 1)]
    return text[:start] + str(chance.choice(EDGES + 10 * near)).encode() + text[end:]


def with_key(chance, text):
    """One key renamed, or its line taken out, doubled, moved or given another value."""
    start, end = chance.choice(spans(rb"\b[a-z]+\b(?=\s*(?:=|\]\]))", text))
    line_end = text.find(b"\n", end) + 1 or len(text)
    line_start = text.rfind(b"\n", 0, start) + 1
    line = text[line_start:line_end]
    without = text[:line_start] + text[line_end:]
    place = chance.choice([0, *[it.end() for it in re.finditer(rb"\n", without)]])
    value = text.find(b"=", end, line_end) + 1
    changed = [text[:start] + chance.choice(KEYS).encode() + text[end:], without, text[:line_end] + line + text[line_end:], without[:place] + line + without[place:]]
    if value:
        changed += 3 * [text[:value] + chance.choice(VALUES).encode() + text[line_end - 1 :]]
    return chance.choice(changed)


class Tried:
    """What became of the texts."""

    def __init__(self, program):
        self.caller = Caller(program)
        self.counts = collections.Counter()
        self.wrong, self.most_seconds, self.most_work, self.lines = 0, 0.0, 0.0, set()

    def try_text(self, kind, text, word="replay"):
        ended = self.caller.call([word], text)
        self.counts[kind, ended.status] += 1
        self.most_seconds, self.most_work = max(self.most_seconds, ended.seconds), max(self.most_work, ended.work)
        if ended.is_refusal:
            self.lines.add(re.sub(rb"[0-9]+", b"N", ended.out))
        if not (ended.is_report or ended.is_refusal) or ended.work >= 1:
            self.wrong += 1
            with tempfile.NamedTemporaryFile(prefix="canely-", suffix=".toml", delete=False) as kept:
                kept.write(text)
            print(f"{kind}: canely {word} < {kept.name}: status {ended.status}, {ended.work:.2f} s, {ended.err[:200]!r}", flush=True)
        return ended


def try_changed(tried, texts, count, seed):
    kinds = [("one byte", with_byte), ("one key", with_key), ("one number", with_number)]
    for index in range(count):
        # each text has a chance of its own, so that one can be made again without the others
        chance = random.Random(f"{seed} {index}")
        kind, change = kinds[index % len(kinds)]
        text = change(chance, chance.choice(texts))
        ended = tried.try_text(kind, text)
        if ended.status == 0 and len(ended.out) < 4096 and index % 20 == 0 and b"\njournal" not in text:
            tried.try_text("by threads", text, "run")


def main():
    texts = [it.read_bytes() for it in sorted((TOP / "scenarios").rglob("*.toml"))]
    tried = Tried(program_of(sys.argv[1:2]))
    count, seed = int(sys.argv[2]) if len(sys.argv) > 2 else 100_000, sys.argv[3] if len(sys.argv) > 3 else "1"
    for text in texts:
        for end in range(len(text)):
            tried.try_text("cut at a byte", text[:end])
    # one of them has no key at all
    try_changed(tried, [it for it in texts if b"\nformat" in it], count, seed)
    print("| texts | run | refused | else |\n|---|---|---|---|")
    for kind in dict.fromkeys(kind for kind, _ in tried.counts):
        of_kind = {status: number for (its, status), number in tried.counts.items() if its == kind}
        rest = sum(of_kind.values()) - of_kind.get(0, 0) - of_kind.get(3, 0)
        print(f"| {kind} | {of_kind.get(0, 0):,} | {of_kind.get(3, 0):,} | {rest} |")
    print(f"{len(tried.lines)} kinds of lines of refusals; at most {tried.most_work:.2f} s of the processor and {tried.most_seconds:.2f} s by the clock; {tried.wrong} wrong")
    sys.exit(tried.wrong > 0)


if __name__ == "__main__":
    main()
