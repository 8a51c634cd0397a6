#!/usr/bin/env python3
"""Computes the parameters of a scenario and what follows from them, in slots and in milliseconds; or, from times that are wished, the most
nodes for which they hold:

    tools/params.py --nodes N [--lag N] [--omit N] [--errors N] [--bitrate N] [--bound TIME] [--cycle TIME] ... [--toml]
    tools/params.py --remove TIME [--detect TIME] [--admit TIME] ...
"""
import argparse
import re
import sys
from fractions import Fraction
from typing import NamedTuple

sys.dont_write_bytecode = True

from lib import command
from lib.wire import SLOT_BITS
from lib.words import DEFAULTS, FORMATS, LIMITS, MOST_NODES, format_for

UNITS = {"us": Fraction(1, 1_000_000), "ms": Fraction(1, 1_000), "s": Fraction(1)}


class Params(NamedTuple):
    nodes: int
    lag: int
    omit: int
    errors: int
    bound: int
    cycle: int
    life: int
    silence: int
    confirm: int

    @property
    def format(self):
        return format_for(self.nodes)


def least_bound(nodes, lag, errors):
    top = 3 * nodes**2 + 2 * nodes
    return 1 + top + errors + lag * (top + errors + nodes + 1)


# The parameters with a least value, in the order in which each follows from those before, with the formula in words.
FORMULAS = {
    "bound": (lambda it: least_bound(it["nodes"], it["lag"], it["errors"]), "1 + top + errors + lag * (top + errors + nodes + 1)"),
    "cycle": (lambda it: 2 * it["bound"] + 2 * it["lag"], "2 * bound + 2 * lag"),
    "life": (lambda it: it["bound"] + it["lag"], "bound + lag"),
    "silence": (lambda it: it["life"] + it["lag"] + it["bound"] + 1, "life + lag + bound + 1"),
}


class Bound(NamedTuple):
    """What a time can be at most, or at least, in a run within the fault hypothesis."""

    slots: object
    what: str
    rests_on: str


# The turn in which a node reads a slot comes at most `lag` slots after it (rule of steps), which is why each has `lag` in it.
BOUNDS = {
    "accept": Bound(
        lambda p: p.bound + p.lag,
        "at most, from the clean slot of a TOTCAN message to its acceptance at each correct node, or at none",
        "law acceptance",
    ),
    "spacing": Bound(
        lambda p: p.bound + p.lag + 1,
        "at least, from the data frame of a TOTCAN message to that of the next one of its origin",
        "rule of the backlog",
    ),
    "fall-back": Bound(
        lambda p: p.confirm + p.lag,
        "at most, from the first copy of a RELCAN message without a confirmation until its receiver asks to send it",
        "rule of RELCAN's timer",
    ),
    "detect": Bound(
        lambda p: p.silence + p.lag,
        "at most, from the stop of a node until it counts as failed at each node that has had it in its view since; "
        "with restarts only where silence is longer than cycle",
        "law silence_is_detected",
    ),
    "remove": Bound(
        lambda p: p.silence + p.cycle + p.bound + p.lag,
        "at most, from the stop of a node that all have in their views to the first views without it; no restarts, else see stopped_removal",
        "law removal",
    ),
    "admit": Bound(
        lambda p: p.cycle - 1 + p.bound + p.lag,
        "at most, from a JOIN that was carried clean to the first views with its sender, if no node that gets it has the sender in its view; "
        "no restarts, else see known_admission",
        "law admission",
    ),
    "take-part": Bound(
        lambda p: 1 + p.bound + p.lag,
        "exactly, from the slot of a restart to the first slot in which the node takes part",
        "rule of restarts",
    ),
    "wait": Bound(
        lambda p: p.silence + p.cycle + p.bound + p.lag,
        "at least, from the stop of a node that all have in their views to a JOIN of its next incarnation, so that it counts for certain; "
        "a JOIN does nothing at a node that still has its sender in its view, and no node keeps it",
        "law removal",
    ),
    "return": Bound(
        lambda p: 1 + p.bound + p.lag + p.cycle + p.bound + p.lag,
        "at most, from the slot of a restart to the first views with the node, where its JOIN is carried clean in the slot after it takes part, "
        "if no node that gets it has the node in its view; else see wait",
        "rules of restarts and views",
    ),
}


class Time(NamedTuple):
    """A time as an argument gives it: so many slots, or so many seconds."""

    text: str
    slots: object
    seconds: object

    def in_slots(self, slot):
        """The most slots that last no longer, where one lasts so many seconds."""
        return self.slots if self.seconds is None else self.seconds // slot


def time(text):
    found = re.fullmatch(r"([0-9]{1,9})(?:(\.[0-9]{1,9})?(us|ms|s))?", text)
    if not found:
        raise argparse.ArgumentTypeError(f"{text!r} is no time as 300 (slots), 2.5ms or 1s are")
    if not found[3]:
        return Time(text, int(found[1]), None)
    return Time(text, None, Fraction(found[1] + (found[2] or "")) * UNITS[found[3]])


def arguments():
    number = command.number_between
    parser = command.Parser(prog="params.py", description="Computes parameters and what follows from them, in slots and milliseconds.")
    parser.add_argument("--nodes", type=number(LIMITS.least_nodes, MOST_NODES), metavar="N", help="how many nodes; without it the most for which the wished times hold")
    parser.add_argument("--lag", type=number(0, LIMITS.lag), default=DEFAULTS.lag, metavar="N")
    parser.add_argument("--omit", type=number(0, LIMITS.omit), default=DEFAULTS.omit, metavar="N")
    parser.add_argument("--errors", type=number(0, LIMITS.errors), default=DEFAULTS.errors, metavar="N")
    parser.add_argument("--bitrate", type=number(1, 10**9), default=500_000, metavar="N", help="bits per second, 500000 where not given")
    for name in (*FORMULAS, "confirm"):
        parser.add_argument(f"--{name}", type=time, metavar="TIME", help="this parameter, in place of its default")
    for name, bound in BOUNDS.items():
        parser.add_argument(f"--{name}", type=time, metavar="TIME", dest=f"wish_{name}", help=f"wished: no longer than this {bound.what.split(', ', 1)[1]}")
    parser.add_argument("--toml", action="store_true", help="a scenario of these parameters without an entry, in place of the tables")
    return parser.parse_args()


class Refused(Exception):
    """No parameters are so, and why."""


def parameter(given, name, found, least, slot):
    """A parameter as it is given, or else its least value."""
    wished = getattr(given, name)
    if wished is None:
        return least
    value = wished.in_slots(slot)
    if value < least:
        raise Refused(f"{name} {wished.text} is {value} slots, and {found['nodes']} nodes need {least}, which are {milliseconds(least, slot)} ms")
    if value > LIMITS.given:
        raise Refused(f"{name} {wished.text} is {value} slots, and the most is {LIMITS.given}")
    return value


def params_of(given, nodes, slot):
    """The parameters for so many nodes. Raises Refused where what is given breaks a formula."""
    found = {"nodes": nodes, "lag": given.lag, "omit": given.omit, "errors": given.errors}
    for name, (least, _) in FORMULAS.items():
        found[name] = parameter(given, name, found, least(found), slot)
    confirm = given.confirm.in_slots(slot) if given.confirm else DEFAULTS.confirm
    if not 1 <= confirm <= found["cycle"]:
        raise Refused(f"confirm {given.confirm.text} is {confirm} slots, and has to be between 1 and cycle, which is {found['cycle']}")
    return Params(confirm=confirm, **found)


def check_wishes(given, params, slot):
    """Raises Refused where a wished time does not hold."""
    for name, bound in BOUNDS.items():
        wished = getattr(given, f"wish_{name}")
        needed = bound.slots(params)
        if wished and wished.in_slots(slot) < needed:
            raise Refused(f"{name} {wished.text} is {wished.in_slots(slot)} slots, and {params.nodes} nodes need {needed}, which are {milliseconds(needed, slot)} ms")


def wanted_params(given, slot):
    """The parameters for the nodes that are given, or for the most for which all holds."""
    refused = None
    for nodes in [given.nodes] if given.nodes else reversed(range(LIMITS.least_nodes, MOST_NODES + 1)):
        try:
            params = params_of(given, nodes, slot)
            check_wishes(given, params, slot)
            return params
        except Refused as error:
            refused = error
    raise command.Failure(command.REFUSED, str(refused))


def milliseconds(slots, slot):
    """As a text, and no less than it is."""
    micros = -(-slots * slot * 1_000_000 // 1)
    return f"{micros // 1000}.{micros % 1000:03d}"


def row(name, slots, slot, text):
    return f"{name:10} {slots:7} {milliseconds(slots, slot):>11}  {text}"


def table(params, bitrate, slot):
    yield f"{params.nodes} nodes, lag {params.lag}, omit {params.omit}, errors {params.errors}; format {params.format}"
    yield f"a slot lasts at most {SLOT_BITS} bits, at {bitrate} bits a second {milliseconds(1, slot)} ms"
    yield ""
    yield f"{'parameter':10} {'slots':>7} {'ms':>11}  at least"
    for name, (_, formula) in FORMULAS.items():
        yield row(name, getattr(params, name), slot, formula + (", top = 3 * nodes^2 + 2 * nodes" if name == "bound" else ""))
    yield row("confirm", params.confirm, slot, "1, and at most cycle")
    yield row("slots", FORMATS[params.format].slots, slot, "1, and at most this many")
    yield ""
    yield f"{'bound':10} {'slots':>7} {'ms':>11}  rests on"
    for name, bound in BOUNDS.items():
        yield row(name, bound.slots(params), slot, bound.rests_on)
    yield ""
    window = params.bound + params.lag
    yield f"Within the fault hypothesis (any {window} slots have at most {params.errors} with an error, and a frame meets at most {params.omit} partial ones):"
    yield from (f"{name}: {bound.what}" for name, bound in BOUNDS.items())


def scenario(given, params):
    """A scenario of these parameters, long enough for each of the bounds, without an entry."""
    longest = max(bound.slots(params) for bound in BOUNDS.values())
    yield f"format = {params.format}"
    yield f"nodes = {params.nodes}"
    yield f"slots = {min(2 * longest, FORMATS[params.format].slots)}"
    yield from (f"{name} = {getattr(params, name)}" for name in ("lag", "omit", "errors"))
    # the formulas of the program give the others
    yield from (f"{name} = {getattr(params, name)}" for name in (*FORMULAS, "confirm") if getattr(given, name))


def compute(given):
    slot = Fraction(SLOT_BITS, given.bitrate)
    if given.nodes is None and not any(getattr(given, f"wish_{name}") for name in BOUNDS):
        raise command.Failure(command.WRONG_ARGUMENTS, "needs --nodes, or a wished time such as --remove; see params.py --help")
    params = wanted_params(given, slot)
    command.write(scenario(given, params) if given.toml else table(params, given.bitrate, slot))


def main():
    given = arguments()
    return command.run("params.py", lambda: compute(given))


if __name__ == "__main__":
    sys.exit(main())
