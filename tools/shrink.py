#!/usr/bin/env python3
"""Makes the smallest scenario in which the same part of the promise is broken, and writes it:

    tools/shrink.py [SCENARIO] [--part PART] [--program COMMAND]

Whatever can go goes: entries, nodes of sets, nodes, slots; what is left comes earlier and from lower nodes, until nothing more helps. The
hypothesis is broken in the same way, or holds, throughout.
"""
import sys
from typing import NamedTuple

sys.dont_write_bytecode = True

from lib import command
from lib.canely import called, check_words, said_by
from lib.cases import show
from lib.lines import Malformed
from lib.scenario import read_scenario, scenario_lines, scenario_text
from lib.smaller import WAYS
from lib.verdict import BROKEN, HEAD, HEAD_LINES, HELD, OPEN, Check, read_check
from lib.words import TABLES


class Verdict(NamedTuple):
    check: Check
    lines: list

    @property
    def kind(self):
        """How the hypothesis is broken first, or None."""
        return self.check.first_break and self.check.first_break[0]

    @property
    def witnesses(self):
        """The lines that say who lacks what."""
        words = ("entry ", "parted ", "view ", "accused ")
        return [line for line in self.lines[HEAD_LINES:] if line.startswith(words) or " apart has " in line]


class Judge:
    """Judges scenarios by the program's command `check`, each text once."""

    def __init__(self, words):
        self.words, self.known, self.runs = words, {}, 0

    def verdict(self, text):
        """The verdict on a text, or why there is none."""
        ran = called(self.words, text)
        if ran.returncode not in (HELD, BROKEN, OPEN):
            return said_by(ran)
        try:
            return Verdict(read_check(ran.stdout), ran.stdout.decode().splitlines())
        except Malformed as error:
            return str(error)

    def is_broken(self, scenario, part, kind):
        text = scenario_text(scenario).encode()
        if text not in self.known:
            self.runs += 1
            found = self.verdict(text)
            self.known[text] = isinstance(found, Verdict) and part in found.check.broken and found.kind == kind
        return self.known[text]


def step(scenario, judge, part, kind):
    """The scenario made smaller in each of the ways, as often as it stays broken so."""
    for way in WAYS:
        smaller = scenario
        while smaller is not None:
            scenario = smaller
            if sys.stderr.isatty():
                show(f"{judge.runs} runs: {size(scenario)}")
            smaller = next((it for it in way(scenario) if judge.is_broken(it, part, kind)), None)
    return scenario


def size(scenario):
    """What a scenario has, in words."""
    entries = [f"{len(scenario[table])} {table}" for table in TABLES if scenario.get(table)]
    return ", ".join([f"{scenario['nodes']} nodes", f"{scenario['slots']} slots", *entries])


def smallest(scenario, judge, part, kind):
    while True:
        found = step(scenario, judge, part, kind)
        if found == scenario:
            return scenario
        scenario = found


def part_of(verdict, given, place):
    """The part that is to stay broken."""
    broken = verdict.check.broken
    if given.part and given.part not in broken:
        raise command.Failure(command.REFUSED, f"{place}: {given.part} is not broken, but {', '.join(broken) or 'nothing'}")
    if not broken:
        raise command.Failure(command.REFUSED, f"{place}: nothing is broken")
    return given.part or broken[0]


def shrink(given):
    place = "standard input" if given.file in (None, "-") else given.file
    data = command.read_bytes(given.file)
    judge = Judge(check_words(given.program))
    verdict = judge.verdict(data)
    if not isinstance(verdict, Verdict):
        raise command.Failure(command.REFUSED, f"{place}: {verdict}")
    part = part_of(verdict, given, place)
    scenario = read_scenario(data, place)
    found = smallest(scenario, judge, part, verdict.kind)
    if sys.stderr.isatty():
        show(f"{judge.runs} runs: {size(found)}", True)
    last = judge.verdict(scenario_text(found).encode())
    command.write(
        [
            f"# {part} is broken, {last.lines[1]}; {judge.runs} runs made this of {size(scenario)}",
            *(f"# {line}" for line in last.witnesses),
            "# its picture: canely replay < THIS | tools/draw.py",
            *scenario_lines(found),
        ]
    )


def main():
    parser = command.Parser(prog="shrink.py", description="Makes the smallest scenario in which the same part of the promise is broken.")
    parser.add_argument("file", nargs="?", metavar="SCENARIO", help="the scenario; without it standard input")
    parser.add_argument("--part", choices=tuple(HEAD), metavar="PART", help="the part, as in the text of check; without it the first that is broken")
    parser.add_argument("--program", default="canely", metavar="COMMAND", help="the program, canely where not given")
    given = parser.parse_args()
    return command.run("shrink.py", lambda: shrink(given))


if __name__ == "__main__":
    sys.exit(main())
