"""Small scenarios that are drawn from numbers, of stated shapes."""
from typing import NamedTuple

from .scenario import keys_of
from .storm import Words
from .words import FAULTY, LIMITS, SERVICES, format_for

# The stream of the generator; that of the storms is another.
STREAM = 2


class Shapes(NamedTuple):
    """For each count the least and the most; both are drawn too."""

    nodes: tuple
    slots: tuple
    omit: tuple
    errors: tuple
    sends: tuple
    faults: tuple
    joins: tuple
    leaves: tuple
    restarts: tuple
    verdicts: tuple = FAULTY


class Draw:
    """Draws from the words of the generator that a number starts."""

    def __init__(self, number):
        self.words = Words(number, STREAM)

    def between(self, least, most):
        return least + self.words.below(most - least + 1)

    def one_of(self, things):
        return things[self.words.below(len(things))]

    def nodes(self, count):
        """A set of nodes, each with the chance of a half."""
        return [node for node in range(count) if self.words.below(2)]

    def is_one_in(self, n):
        return self.words.below(n) == 0


def place_drawn(draw, slots, sends):
    """The first or second attempt of a data frame, a slot soon after a send, or any slot of the run."""
    if sends and draw.is_one_in(2):
        service, origin, seq = draw.one_of(keys_of(sends))
        return {"class": service, "number": seq, "node": origin, "nth": draw.between(1, 2)}
    if sends and draw.is_one_in(2):
        return {"slot": min(draw.one_of(sends)["slot"] + draw.between(1, 6), slots - 1)}
    return {"slot": draw.between(0, slots - 1)}


def faults_drawn(draw, shapes, nodes, slots, sends):
    places, faults = [], []
    for _ in range(draw.between(*shapes.faults)):
        place = place_drawn(draw, slots, sends)
        verdict = draw.one_of(("clean", *shapes.verdicts))
        reject = draw.nodes(nodes)
        stop = [draw.between(0, nodes - 1)] if verdict == "clean" or draw.is_one_in(4) else []
        if place not in places:
            places.append(place)
            sets = {"reject": reject if verdict in ("partial", "silent") else [], "stop": stop}
            faults.append({**place, "verdict": verdict, **{name: it for name, it in sets.items() if it}})
    return faults


def restarts_drawn(draw, shapes, slots, faults):
    """Of nodes that a fault stops."""
    stopped = sorted({node for rule in faults for node in rule.get("stop", [])})
    count = draw.between(*shapes.restarts)
    return [{"slot": draw.between(0, slots - 1), "node": draw.one_of(stopped)} for _ in range(count) if stopped]


def entries_drawn(draw, counts, nodes, slots):
    return [{"slot": draw.between(0, slots - 1), "node": draw.between(0, nodes - 1)} for _ in range(draw.between(*counts))]


def scenario_of(number, shapes):
    """The scenario of a number."""
    draw = Draw(number)
    nodes, slots = draw.between(*shapes.nodes), draw.between(*shapes.slots)
    scenario = {"format": format_for(nodes), "nodes": nodes, "slots": slots}
    scenario.update(omit=draw.between(*shapes.omit), errors=draw.between(*shapes.errors))
    sends = []
    for entry in sorted(entries_drawn(draw, shapes.sends, nodes, slots), key=lambda it: it["slot"]):
        payload = bytes(draw.between(0, 255) for _ in range(draw.between(0, LIMITS.payload_bytes)))
        sends.append({**entry, "service": draw.one_of(SERVICES), "data": payload.hex()})
    faults = faults_drawn(draw, shapes, nodes, slots, sends)
    tables = {"send": sends, "fault": faults}
    for name, counts in (("join", shapes.joins), ("leave", shapes.leaves)):
        tables[name] = entries_drawn(draw, counts, nodes, slots)
    tables["restart"] = restarts_drawn(draw, shapes, slots, faults)
    return {**scenario, **{name: it for name, it in tables.items() if it}}
