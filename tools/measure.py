#!/usr/bin/env python3
"""Numbers of a run from its report: load, frames by class, latencies, queues, and the time from a stop to its sign and its removal:

    tools/measure.py [FILE] [--scenario FILE | --check FILE] [--bitrate N] [--window N]

Each line is a fact in whole numbers. The slots of the asks, without which there are no waits and no queues, stand in no report: they are
read from the scenario, or from the text of check.
"""
import sys
from collections import Counter, defaultdict
from typing import NamedTuple, Optional

sys.dont_write_bytecode = True

from lib import command
from lib.report import Delivery, Failure, View, report_from
from lib.scenario import keys_of, scenario_from
from lib.verdict import check_from
from lib.wire import ERROR_FRAME_BITS, SLOT_BITS, identifier, length
from lib.words import CLASSES, FAULTY, SERVICES

INTERMISSION_BITS = 3


class Asks(NamedTuple):
    """What the report does not have: by message the slot of its send, and the first members."""

    slots: dict
    members: Optional[tuple]


class Facts:
    """What is read off a report once, for all numbers."""

    def __init__(self, report, asks):
        self.report = report
        self.frames = [slot for slot in report.bus if slot.frame]
        self.carried = {}
        for slot in self.frames:
            if slot.frame.kind in SERVICES:
                self.carried.setdefault((slot.frame.kind, slot.frame.node, slot.frame.number), slot.slot)
        # the asks that were made: a node that did not take part in the slot made none
        self.asked = {key: slot for key, slot in asks.slots.items() if key in self.carried or self.was_read(key[1], slot)}
        self.delivered = defaultdict(list)
        for life in report.present():
            for entry in life.log:
                key = (entry.service, entry.origin, entry.seq) if isinstance(entry, Delivery) else None
                if key in self.carried and life.acts <= self.carried[key]:
                    self.delivered[key].append(entry.slot)

    def was_read(self, node, slot):
        """Whether an incarnation of the node takes part in the slot and has its notice."""
        life = self.report.incarnation_in(node, slot)
        return life is not None and life.acts <= slot and life.stopped != slot


def permille(part, whole):
    return 1000 * part // whole


def bits_on_the_wire(report, slot):
    """How long a slot with a frame occupies the bus: the frame, an error frame where there was an error, the intermission."""
    frame = length(identifier(report.format, slot.frame), slot.frame.payload)
    return frame + (ERROR_FRAME_BITS if slot.verdict in ("lost", "partial") else 0) + INTERMISSION_BITS


def busiest(slots, window):
    """The most of these slots that lie in so many consecutive ones, and where these begin."""
    most, begins, first = 0, 0, 0
    for last, slot in enumerate(slots):
        while slots[first] <= slot - window:
            first += 1
        if last + 1 - first > most:
            most, begins = last + 1 - first, slots[first]
    return most, begins


def load(facts, window):
    slots = facts.report.parameters["slots"]
    bits = sum(bits_on_the_wire(facts.report, slot) for slot in facts.frames)
    yield f"bus slots {slots} frames {len(facts.frames)} permille {permille(len(facts.frames), slots)}"
    yield f"wire bits {bits} of {SLOT_BITS * slots} permille {permille(bits, SLOT_BITS * slots)}"
    most, begins = busiest([slot.slot for slot in facts.frames], window)
    yield f"busiest slots {min(window, slots)} from {begins} frames {most} permille {permille(most, min(window, slots))}"


def by_class(facts):
    slots = facts.report.parameters["slots"]
    for kind in CLASSES:
        verdicts = Counter(slot.verdict for slot in facts.frames if slot.frame.kind == kind)
        count = sum(verdicts.values())
        if count:
            errors = " ".join(f"{it} {verdicts[it]}" for it in FAULTY)
            yield f"class {kind} frames {count} {errors} permille {permille(count, slots)}"


def by_node(facts):
    for node, lives in enumerate(facts.report.nodes):
        sent = sum(node in slot.senders for slot in facts.frames)
        rejected = sum(node in slot.rejected for slot in facts.frames)
        kinds = Counter(type(entry) for life in lives for entry in life.log)
        yield f"node {node} sent {sent} rejected {rejected} delivered {kinds[Delivery]} failures {kinds[Failure]} views {kinds[View]}"


class Times:
    """How times are written: in slots, or where there is a bit rate in microseconds of slots that are as long as they can be."""

    def __init__(self, bitrate):
        self.bitrate = bitrate

    def text(self, slots):
        return str(slots if self.bitrate is None else -(-slots * SLOT_BITS * 1_000_000 // self.bitrate))

    def spread(self, words, times):
        times = sorted(times)
        if times:
            least, median, most = (self.text(it) for it in (times[0], times[(len(times) - 1) // 2], times[-1]))
            yield f"{words} count {len(times)} least {least} median {median} most {most}"


def latencies(facts, times):
    asked, carried, delivered = facts.asked, facts.carried, facts.delivered
    for service in SERVICES:
        keys = [key for key in delivered if key[0] == service]
        asks = [key for key in asked if key[0] == service]
        yield from times.spread(f"wait {service} ask to carried", [carried[key] - asked[key] for key in asks if key in carried])
        yield from times.spread(f"latency {service} ask to last", [max(delivered[key]) - asked[key] for key in asks if key in delivered])
        yield from times.spread(f"latency {service} carried to last", [max(delivered[key]) - carried[key] for key in keys])
        yield from times.spread(f"spread {service} first to last", [max(delivered[key]) - min(delivered[key]) for key in keys])
    slowest = max(((max(delivered[key]) - asked[key], key) for key in asked if key in delivered), default=None)
    if slowest:
        key = slowest[1]
        yield f"slowest {' '.join(map(str, key))} ask {asked[key]} carried {carried[key]} last {max(delivered[key])}"


def queues(facts):
    """The messages that an origin had asked for and that no frame had carried: the most at once, and those at its end."""
    for node in range(len(facts.report.nodes)):
        keys = [key for key in facts.asked if key[1] == node]
        # a slot carries a frame before its own asks are made
        events = sorted([(facts.carried[key], 0, -1) for key in keys if key in facts.carried] + [(facts.asked[key], 1, 1) for key in keys])
        waiting, most, at = 0, 0, 0
        for slot, _, change in events:
            waiting += change
            if waiting > most:
                most, at = waiting, slot
        if most:
            yield f"queue {node} most {most} slot {at} left {waiting}"


def signs_of(report, node, first, end):
    """By correct node the first slot in which it knew a sign of the node, from the first slot on and before the end."""
    for life in report.present():
        slots = [it.slot for it in life.log if isinstance(it, Failure) and it.node == node and first <= it.slot < end]
        if slots:
            yield slots[0]


def removals_of(report, node, first, end, members):
    """Of each correct node that had the node in its view the first view without it, from the first slot on and before the end."""
    for life in report.present():
        views = [it for it in life.log if isinstance(it, View)]
        before = next((it.members for it in reversed(views) if it.slot <= first), members if life.number == 0 else ())
        after = [it for it in views if first < it.slot < end]
        found = next((it for it in after if node not in it.members), None)
        if node in before and found:
            yield found


def stops(facts, members, times):
    report = facts.report
    everyone = tuple(range(len(report.nodes))) if members is None else members
    for node, lives in enumerate(report.nodes):
        ends = [life.stopped for life in lives if life.stopped is not None]
        for slot, end in zip(ends, [*ends[1:], report.parameters["slots"]]):
            known = list(signs_of(report, node, slot, end))
            views = list(removals_of(report, node, slot, end, everyone))
            line = f"stop {node} slot {slot} known "
            line += f"first {times.text(min(known) - slot)} last {times.text(max(known) - slot)}" if known else "-"
            if views:
                last = max(views, key=lambda it: it.slot)
                line += f" removed view {last.number} after {times.text(last.slot - slot)}"
            yield line if views else f"{line} removed -"


def asks_from(given, report):
    """The asks, as far as an argument tells of them."""
    if given.scenario:
        return asks_of_scenario(scenario_from(given.scenario), given.scenario, report)
    if given.check:
        return Asks({(it.service, it.origin, it.seq): it.slot for it in check_from(given.check, report).messages}, None)
    return Asks({}, None)


def asks_of_scenario(found, place, report):
    """The asks of a scenario, which has to be that of the report."""
    try:
        sends = found.get("send", [])
        slots = dict(zip(keys_of(sends), (it["slot"] for it in sends)))
        members = tuple(sorted(set(found["members"]))) if "members" in found else None
    except (KeyError, TypeError):
        raise command.Failure(command.REFUSED, f"{place}: is no scenario that the program reads") from None
    given = {"format": report.format, **report.parameters}
    other = [key for key in given if key in found and found[key] != given[key]]
    if other:
        raise command.Failure(command.REFUSED, f"{place}: {other[0]} is {found[other[0]]}, and {given[other[0]]} in the report")
    report.check_asks(slots, place)
    return Asks(slots, members)


def numbers(report, asks, bitrate, window):
    """The lines, in their order."""
    facts, times = Facts(report, asks), Times(bitrate)
    yield f"times {'slots' if bitrate is None else f'microseconds bitrate {bitrate}'}"
    yield from load(facts, window)
    yield from by_class(facts)
    yield from by_node(facts)
    yield from latencies(facts, times)
    yield from queues(facts)
    yield from stops(facts, asks.members, times)


def measure(given):
    report = report_from(given.file)
    asks = asks_from(given, report)
    command.write(numbers(report, asks, given.bitrate, given.window))


def main():
    parser = command.Parser(prog="measure.py", description="Numbers of a run of canely from its report.")
    parser.add_argument("file", nargs="?", help="the report; without it standard input")
    asks = parser.add_mutually_exclusive_group()
    asks.add_argument("--scenario", metavar="FILE", help="the scenario of the run, for waits and queues")
    asks.add_argument("--check", metavar="FILE", help="the text that canely check wrote of it, for the same")
    parser.add_argument("--bitrate", type=command.number_between(1, 10**9), metavar="N", help="times in microseconds, at so many bits per second")
    parser.add_argument("--window", type=command.number_between(1, 10**6), default=100, metavar="N", help="the slots in which the bus is busiest, 100 where not given")
    given = parser.parse_args()
    return command.run("measure.py", lambda: measure(given))


if __name__ == "__main__":
    sys.exit(main())
