"""The faults that a run can meet: for each attempt of a frame in it the rules of a scenario that one can lay on it."""
import itertools
import math
from bisect import bisect_right
from collections import Counter
from typing import NamedTuple

STOPS = ("none", "senders")


class Attempt(NamedTuple):
    place: dict
    """The keys of a rule that name it."""
    slot: int
    senders: tuple
    receivers: tuple


class Shape(NamedTuple):
    """Which faults are made."""

    verdicts: tuple
    most_rejects: int
    """The most receivers in a set of those that reject."""
    stops: tuple
    classes: tuple
    """All of them where there is none."""


def attempts(report, shape):
    """The attempts of a run in their order, of the classes of the shape."""
    counts = Counter()
    for slot in report.bus:
        if slot.frame:
            kind, number, node = slot.frame.kind, slot.frame.number, slot.frame.node
            counts[kind, number, node] += 1
            if kind in (shape.classes or (kind,)):
                place = {"class": kind, "number": number, "node": node, "nth": counts[kind, number, node]}
                yield Attempt(place, slot.slot, slot.senders, tuple(sorted(slot.accepted + slot.rejected)))


def is_free(attempt, scenario):
    """Whether no rule of the scenario rules the attempt already."""
    rules = scenario.get("fault", [])
    return not any(rule.get("slot") == attempt.slot or all(rule.get(key) == it for key, it in attempt.place.items()) for rule in rules)


def count_of(attempt, shape):
    """How many rules there are for an attempt."""
    most = min(shape.most_rejects, len(attempt.receivers))
    sets = sum(math.comb(len(attempt.receivers), size) for size in range(1, most + 1))
    return sum(1 if verdict == "lost" else sets for verdict in shape.verdicts) * len(shape.stops)


def rules(attempt, shape):
    """The rules for an attempt: each verdict, each set of receivers that reject, and the stop of its senders or not."""
    sizes = range(1, min(shape.most_rejects, len(attempt.receivers)) + 1)
    for verdict in shape.verdicts:
        sets = [()] if verdict == "lost" else (it for size in sizes for it in itertools.combinations(attempt.receivers, size))
        for reject, stop in itertools.product(sets, shape.stops):
            rule = {**attempt.place, "verdict": verdict}
            if reject:
                rule["reject"] = list(reject)
            if stop == "senders":
                rule["stop"] = list(attempt.senders)
            yield rule


class Rules:
    """The rules for attempts, each with its attempt's slot: they are counted, and made when they are taken."""

    def __init__(self, attempts, shape):
        self.attempts, self.shape = list(attempts), shape
        self.ends = list(itertools.accumulate(count_of(it, shape) for it in self.attempts))

    def __len__(self):
        return self.ends[-1] if self.ends else 0

    def __getitem__(self, place):
        at = bisect_right(self.ends, place)
        first = self.ends[at - 1] if at else 0
        return self.attempts[at].slot, next(itertools.islice(rules(self.attempts[at], self.shape), place - first, None))

    def __iter__(self):
        return ((it.slot, rule) for it in self.attempts for rule in rules(it, self.shape))


def rules_of(scenario, report, shape, after=-1):
    """The rules that can be laid on the run of a scenario, of attempts after a slot."""
    return Rules((it for it in attempts(report, shape) if it.slot > after and is_free(it, scenario)), shape)


def with_rule(scenario, rule):
    return {**scenario, "fault": [*scenario.get("fault", []), rule]}
