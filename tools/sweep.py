#!/usr/bin/env python3
"""Makes many scenarios, has each judged, and sums up what came of them:

    tools/sweep.py faults SCENARIO FOLDER   one scenario with each fault that its run can meet, or with two
    tools/sweep.py seeds FOLDER             small scenarios that are drawn from numbers
    tools/sweep.py storms FOLDER            the scenarios of storms
    tools/sweep.py run FOLDER               has the program judge each that is not judged yet
    tools/sweep.py sum FOLDER               a table by part of the promise, or JUnit XML
"""
import argparse
import functools
import os
import re
import sys

sys.dont_write_bytecode = True

from lib import command
from lib.canely import check_words, replayed
from lib.cases import case_paths, read_made, run_cases, write_cases
from lib.faults import STOPS, Shape, rules_of, with_rule
from lib.outcome import junit, outcomes, table
from lib.scenario import read_scenario, scenario_text
from lib.seeds import Draw, Shapes, scenario_of
from lib.storm import storm
from lib.verdict import BROKEN, OPEN
from lib.words import CLASSES, FAULTY, FORMATS, LIMITS, MOST_NODES

MOST_CASES, MOST_JOBS = 1_000_000, 1024
# How often a pair of faults is drawn anew that was drawn before, until there seem to be no more.
MOST_DRAWS = 1000
# Of how many runs with a first fault the second ones are kept at a time.
MOST_RUNS = 4096
# The counts of a drawn scenario: the argument, the range where it is not given, and the most.
RANGES = {
    "nodes": ((2, 4), MOST_NODES),
    "slots": ((20, 200), FORMATS[1].slots),
    "omit": ((0, 2), LIMITS.omit),
    "errors": ((2, 4), LIMITS.errors),
    "sends": ((1, 4), 1_000),
    "faults": ((0, 3), 1_000),
    "joins": ((0, 0), LIMITS.joins),
    "leaves": ((0, 0), LIMITS.leaves),
    "restarts": ((0, 0), LIMITS.restarts_of_node),
}
LEAST = {"nodes": LIMITS.least_nodes, "slots": 1}


def words_of(known):
    """Reads an argument that is a list of these words, with commas."""

    def read(text):
        words = tuple(text.split(","))
        if not set(words) <= set(known):
            raise argparse.ArgumentTypeError(f"{text!r} is no list of {', '.join(known)}")
        return words

    return read


def range_between(least, most):
    """Reads an argument that is a number or two, as 3 or 2-5, in this range."""

    def read(text):
        found = re.fullmatch(r"([0-9]{1,9})(?:-([0-9]{1,9}))?", text)
        ends = found and (int(found[1]), int(found[2] or found[1]))
        if not ends or not least <= ends[0] <= ends[1] <= most:
            raise argparse.ArgumentTypeError(f"{text!r} is no number or range from {least} to {most}")
        return ends

    return read


def rejects(text):
    return MOST_NODES if text == "all" else command.number_between(1, MOST_NODES)(text)


# ---- making


class Pairs:
    """Two faults: the second is one that the run with the first can meet after it, since before it nothing has changed."""

    def __init__(self, scenario, singles, shape, program):
        self.scenario, self.singles, self.shape, self.program = scenario, singles, shape, program
        self.seconds = functools.lru_cache(MOST_RUNS)(self.seconds)

    def seconds(self, place):
        slot, rule = self.singles[place]
        scenario = with_rule(self.scenario, rule)
        report = replayed(self.program, scenario_text(scenario).encode())
        return rules_of(scenario, report, self.shape, slot)

    def scenario_of(self, place, second):
        return with_rule(with_rule(self.scenario, self.singles[place][1]), second)

    def all(self):
        for place in range(len(self.singles)):
            yield from (self.scenario_of(place, second) for _, second in self.seconds(place))

    def sample(self, count, seed):
        """So many different pairs, or fewer where there seem to be no more."""
        draw, drawn = Draw(seed), set()
        while len(drawn) < count:
            for _ in range(MOST_DRAWS if self.singles else 0):
                place = draw.between(0, len(self.singles) - 1)
                seconds = self.seconds(place)
                pair = place, draw.between(0, len(seconds) - 1) if seconds else None
                if seconds and pair not in drawn:
                    drawn.add(pair)
                    yield self.scenario_of(place, seconds[pair[1]][1])
                    break
            else:
                return


def sampled(count, of, seed):
    """So many of the numbers below one, each at most once, in their order."""
    draw, left = Draw(seed), list(range(of))
    for first in range(min(count, of)):
        other = draw.between(first, of - 1)
        left[first], left[other] = left[other], left[first]
    return sorted(left[:count])


def limited(scenarios):
    for count, scenario in enumerate(scenarios):
        if count == MOST_CASES:
            raise command.Failure(command.REFUSED, f"these are more than {MOST_CASES} cases; --sample makes fewer")
        yield scenario


def make_faults(given):
    data = command.read_bytes(given.scenario)
    report = replayed(given.program, data)
    scenario = read_scenario(data, "standard input" if given.scenario == "-" else given.scenario)
    shape = Shape(given.verdicts, given.reject, given.stop, given.classes)
    singles = rules_of(scenario, report, shape)
    if len(singles) > MOST_CASES:
        raise command.Failure(command.REFUSED, f"{len(singles)} cases are more than {MOST_CASES}; --reject, --verdicts, --stop and --class make fewer")
    if given.faults == 1:
        chosen = sampled(given.sample, len(singles), given.seed) if given.sample else range(len(singles))
        scenarios = (with_rule(scenario, singles[place][1]) for place in chosen)
    else:
        pairs = Pairs(scenario, singles, shape, given.program)
        scenarios = pairs.sample(given.sample, given.seed) if given.sample else pairs.all()
    made(given, limited(scenarios), scenario)


def make_seeds(given):
    shapes = Shapes(*(getattr(given, name) for name in RANGES), given.verdicts)
    made(given, (scenario_of(given.first + number, shapes) for number in range(given.count)))


def make_storms(given):
    made(given, (storm(given.first + number & LIMITS.storm) for number in range(given.count)))


def made(given, scenarios, scenario=None):
    count = write_cases(given.folder, scenarios, sys.argv[1:], scenario)
    has_journal = scenario is not None and "journal" in scenario
    command.write([f"{count} cases in {given.folder}", *(["the scenario has a journal: a case whose run it does not fit is refused"] if has_journal else [])])


# ---- judging


def run(given):
    words = check_words(given.program)
    part, parts = given.part
    run_cases(words, case_paths(given.folder)[part::parts], given.jobs, given.limit)


def part_of(text):
    found = re.fullmatch(r"([0-9]{1,6})/([0-9]{1,6})", text)
    if not found or not int(found[1]) < int(found[2]):
        raise argparse.ArgumentTypeError(f"{text!r} is no part as 0/4 is, the first of four")
    return int(found[1]), int(found[2])


def sum_up(given):
    """Broken is what is promised and broken, open what is not judged yet."""
    found = outcomes(given.folder)
    command.write(junit(found, given.folder.rstrip("/")) if given.junit else table(found, read_made(given.folder).given))
    if any(it.check and it.is_promised for it in found):
        return BROKEN
    failed = sum(it.failure is not None for it in found)
    if failed:
        raise command.Failure(command.REFUSED, f"{failed} cases ended otherwise than judged")
    return 0 if all(it.check for it in found) else OPEN


# ---- arguments


def program(parser):
    parser.add_argument("--program", default="canely", metavar="COMMAND", help="the program, canely where not given")


def folder(parser):
    parser.add_argument("folder", metavar="FOLDER", help="the folder of the cases")


def number(parser, name, most, default, words):
    parser.add_argument(name, type=command.number_between(0, most), default=default, metavar="N", help=words)


def faults_arguments(parser):
    parser.add_argument("scenario", metavar="SCENARIO", help="the scenario")
    folder(parser)
    program(parser)
    parser.add_argument("--faults", type=command.number_between(1, 2), default=1, metavar="N", help="how many faults each case has more, 1 or 2")
    parser.add_argument("--verdicts", type=words_of(FAULTY), default=FAULTY, metavar="LIST", help="lost,partial,silent where not given")
    parser.add_argument("--reject", type=rejects, default=1, metavar="N", help="the most receivers that reject together, 1 where not given, or all")
    parser.add_argument("--stop", type=words_of(STOPS), default=STOPS, metavar="LIST", help="none,senders where not given: with and without a stop of the senders")
    parser.add_argument("--class", type=words_of(CLASSES), default=(), dest="classes", metavar="LIST", help="frames of these classes alone")
    parser.add_argument("--sample", type=command.number_between(1, MOST_CASES), metavar="N", help="so many of them alone")
    number(parser, "--seed", LIMITS.storm, 1, "the number from which the sample is drawn")
    parser.set_defaults(work=make_faults)


def drawn_arguments(parser, work):
    folder(parser)
    number(parser, "--first", LIMITS.storm, 0, "the first number, 0 where not given")
    number(parser, "--count", MOST_CASES, 100, "how many, 100 where not given")
    parser.set_defaults(work=work)


def seeds_arguments(parser):
    drawn_arguments(parser, make_seeds)
    for name, (default, most) in RANGES.items():
        words = f"how many, as 3 or 2-5; {default[0]}-{default[1]} where not given"
        parser.add_argument(f"--{name}", type=range_between(LEAST.get(name, 0), most), default=default, metavar="RANGE", help=words)
    parser.add_argument("--verdicts", type=words_of(FAULTY), default=FAULTY, metavar="LIST", help="of faults, beside clean")


def run_arguments(parser):
    folder(parser)
    program(parser)
    parser.add_argument("--jobs", type=command.number_between(1, MOST_JOBS), default=os.cpu_count() or 1, metavar="N", help="how many at a time, all processors where not given")
    parser.add_argument("--part", type=part_of, default=(0, 1), metavar="I/N", help="every N-th case alone, from case I on")
    parser.add_argument("--limit", type=command.number_between(1, 86_400), default=60, metavar="SECONDS", help="how long a case may take, 60 where not given")
    parser.set_defaults(work=run)


def sum_arguments(parser):
    folder(parser)
    parser.add_argument("--junit", action="store_true", help="JUnit XML in place of the table")
    parser.set_defaults(work=sum_up)


def arguments():
    parser = command.Parser(prog="sweep.py", description="Makes many scenarios, has each judged, and sums up what came of them.")
    parts = parser.add_subparsers(metavar="COMMAND", required=True)
    faults_arguments(parts.add_parser("faults", help="one scenario with each fault that its run can meet, or with two"))
    seeds_arguments(parts.add_parser("seeds", help="small scenarios that are drawn from numbers"))
    drawn_arguments(parts.add_parser("storms", help="the scenarios of storms"), make_storms)
    run_arguments(parts.add_parser("run", help="has the program judge each that is not judged yet"))
    sum_arguments(parts.add_parser("sum", help="a table by part of the promise, or JUnit XML"))
    return parser.parse_args()


def main():
    given = arguments()
    return command.run("sweep.py", lambda: given.work(given))


if __name__ == "__main__":
    sys.exit(main())
