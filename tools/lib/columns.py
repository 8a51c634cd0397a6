"""What a picture of a run shows: its slots as columns, what each node did in them, and what came of the messages."""
from collections import defaultdict
from dataclasses import dataclass, field
from typing import NamedTuple, Optional

from .report import Delivery, Failure, Slot, View

# A slot that no run reaches.
MOST_SLOT = 10**9
# What a node did in a slot: the keys of the marks of both pictures.
SENT, SAW_ERROR, ACCEPTED, REJECTED, MUTED, IDLE, GONE = "sent", "saw error", "accepted", "rejected", "muted", "idle", "gone"


class Note(NamedTuple):
    """A remark on a slot, beside what the bus and the logs have of it."""

    text: str
    is_bad: bool


@dataclass
class Column:
    slot: int
    bus: Optional[Slot] = None
    entries: dict = field(default_factory=dict)
    """By node the entries of its log that it made in this slot."""
    notes: list = field(default_factory=list)
    before: int = 0
    """How many slots are left out before it."""
    frames_before: int = 0
    """How many of these carried a frame."""
    changes_views: bool = False
    """Whether a node installs its first view in it, or one with other members than those of its view before."""

    @property
    def frame(self):
        return self.bus.frame if self.bus else None

    @property
    def is_quiet(self):
        """Whether it has nothing but a frame without an error."""
        bus = self.bus
        return not self.entries and not self.notes and bus is not None and bus.verdict == "clean" and not bus.stopped and not bus.restarted

    @property
    def is_faulty(self):
        """Whether its frame met an error that somebody saw or did not see, or a node stopped."""
        return bool(self.bus and (self.bus.stopped or self.bus.verdict not in ("clean", None)))

    @property
    def is_remarkable(self):
        """Whether it has more than a frame without an error, deliveries, and views that are those before."""
        has_failure = any(isinstance(it, Failure) for entries in self.entries.values() for it in entries)
        return bool(has_failure or self.changes_views or self.notes or self.is_faulty or self.bus and self.bus.restarted)


def columns(report, first, last, everything):
    """The slots from first to last in which something happened. Of frames that are a life sign without an error, and bring nothing
    else, only where everything is asked for."""
    found = {}
    column = lambda slot: found.setdefault(slot, Column(slot))
    for slot in report.bus:
        column(slot.slot).bus = slot
    for lives in report.nodes:
        for life in lives:
            members = None
            for entry in life.log:
                here = column(entry.slot)
                here.entries.setdefault(life.node, []).append(entry)
                if isinstance(entry, View):
                    here.changes_views |= entry.members != members
                    members = entry.members
            is_reached = life.acts < report.parameters["slots"] and (life.stopped is None or life.acts <= life.stopped)
            if life.number and is_reached:
                column(life.acts).notes.append(Note(f"node {life.node} takes part", False))
    if report.first_break:
        column(report.first_break.slot).notes.append(Note(f"outside: {report.first_break.kind}", True))
    chosen = [found[slot] for slot in sorted(found) if first <= slot <= last]
    return with_gaps(chosen if everything else [it for it in chosen if not is_life_sign(it)], found)


def is_life_sign(column):
    return column.is_quiet and column.frame is not None and column.frame.kind == "els"


# How many columns before and after one with a fault are shown with it.
BEFORE_FAULT, AFTER_FAULT = 1, 2


def fold(chosen, most):
    """At most so many columns. Where there are more, first come those that are remarkable, and then those around a fault; where
    none is remarkable, those with deliveries; and where none has any, the first."""
    if len(chosen) <= most:
        return chosen
    remarkable = [at for at, it in enumerate(chosen) if it.is_remarkable]
    around = [at + by for at in remarkable if chosen[at].is_faulty for by in range(-BEFORE_FAULT, AFTER_FAULT + 1)]
    told = [at for at, it in enumerate(chosen) if it.entries]
    kept = dict.fromkeys(remarkable + [at for at in around if 0 <= at < len(chosen)] or told or range(len(chosen)))
    return without_others(chosen, set(list(kept)[:most]))


def without_others(chosen, kept):
    """The columns at the kept places; each tells how many slots are left out before it now."""
    found, frames, last = [], 0, None
    for at, column in enumerate(chosen):
        frames += column.frames_before
        if at in kept:
            column.before = column.slot - last - 1 if last is not None else 0
            column.frames_before, frames, last = frames, 0, column.slot
            found.append(column)
        else:
            frames += column.frame is not None
    return found


def with_gaps(chosen, found):
    """Tells each column how many slots are left out between it and the one before."""
    carried = sorted(slot for slot, it in found.items() if it.frame)
    at = 0
    for before, it in zip([None, *chosen], chosen):
        while at < len(carried) and before and carried[at] <= before.slot:
            at += 1
        start = at
        while at < len(carried) and carried[at] < it.slot:
            at += 1
        if before:
            it.before, it.frames_before = it.slot - before.slot - 1, at - start
    return chosen


def did(report, node, column):
    """What the node did in the slot of the column."""
    life = report.incarnation_in(node, column.slot)
    if life is None:
        return GONE
    bus, acts = column.bus, column.slot >= life.acts
    if bus is None or bus.frame is None:
        return IDLE if acts else MUTED
    if node in bus.senders:
        return SENT if bus.verdict in ("clean", "silent") else SAW_ERROR
    if node in bus.rejected:
        return REJECTED
    return ACCEPTED if acts else MUTED


def spans(nodes):
    """A set of nodes in few letters: 0-3,5."""
    runs = []
    for node in sorted(nodes):
        if runs and node == runs[-1][1] + 1:
            runs[-1][1] = node
        else:
            runs.append([node, node])
    return ",".join(str(a) if a == b else f"{a}{',' if b == a + 1 else '-'}{b}" for a, b in runs) or "-"


def entry_words(entry):
    """What a node did: a verb, and the rest of the sentence."""
    if isinstance(entry, Delivery):
        return "deliver", f"{entry.service} {entry.origin} {entry.seq}"
    if isinstance(entry, Failure):
        return "find", f"node {entry.node} failed (cycle {entry.cycle})"
    return "install", f"view {entry.number}: {spans(entry.members)}"


def sentence(nodes, verb, rest=""):
    is_one = len(nodes) == 1
    return f"{'node' if is_one else 'nodes'} {spans(nodes)} {verb}{'s' if is_one else ''} {rest}".rstrip()


def happenings(column):
    """What happened in the slot beside its frame, each as words."""
    bus, told = column.bus, []
    if bus and bus.frame and bus.frame.kind == "rha":
        told.append(f"proposes {spans(bus.frame.vector)}")
    if bus and bus.stopped:
        told.append(sentence(bus.stopped, "stop"))
    told += [note.text for note in column.notes]
    by_words = defaultdict(list)
    for node, entries in column.entries.items():
        for entry in entries:
            by_words[entry_words(entry)].append(node)
    told += [sentence(nodes, *words) for words, nodes in by_words.items()]
    if bus and bus.restarted:
        told.append(sentence(bus.restarted, "start", "again"))
    return told


class Finding(NamedTuple):
    """What came of a part of the run, in words."""

    words: str
    is_bad: bool
    lacks: tuple = ()
    """The correct nodes that lack the message of the finding,"""
    tag: str = ""
    """and its short name."""


def summary(report):
    """The run in one line."""
    it = report.parameters
    outside = report.first_break
    hypothesis = f"outside the hypothesis since slot {outside.slot} ({outside.kind})" if outside else "within the hypothesis"
    lag = f", lag {it['lag']}" if it["lag"] else ""
    return f"{it['nodes']} nodes, {it['slots']} slots{lag}, omit {it['omit']}, errors {it['errors']}, bound {it['bound']}, cycle {it['cycle']}; {hypothesis}"


def findings(report, check):
    """What `check` found, or without its text what the report alone tells of the messages that not all correct nodes delivered."""
    return checked(check) if check else reported(report)


def reported(report):
    delivered, carried = defaultdict(set), {}
    for life in report.present():
        for entry in life.log:
            if isinstance(entry, Delivery):
                delivered[entry.service, entry.origin, entry.seq].add(life.node)
    for slot in report.bus:
        if slot.frame:
            carried.setdefault((slot.frame.kind, slot.frame.node, slot.frame.number), slot.slot)
    for message in report.messages:
        key = message[:3]
        first = carried.get(key)
        # the present incarnations that take part since the message was first carried
        count = {life.node for life in report.present() if first is None or life.acts <= first}
        has, lacks = count & delivered[key], count - delivered[key]
        if not lacks:
            continue
        state = "settled" if message.settled else "open"
        words = f"delivered by {spans(has)}, not by {spans(lacks)}" if has else "delivered by no correct node"
        is_apart = bool(has) and message.settled
        name = f"{message.service} {message.origin} {message.seq}"
        yield Finding(f"{name}, {state}: {words}{'' if first is not None else '; never carried'}", is_apart, tuple(lacks) if is_apart else (), name)


def checked(check):
    for part in check.parts.values():
        if part.judgement != "held":
            counts = ", ".join(f"{word} {count}" for word, count in part.counts.items())
            yield Finding(f"check: {part.name} {part.judgement}{f' ({counts})' if counts else ''}", part.judgement == "broken")
    for message in check.messages:
        fate, name = message.fate, f"{message.service} {message.origin} {message.seq}"
        if fate.word == "apart":
            yield Finding(f"{name} apart: delivered by {spans(fate.has)}, not by {spans(fate.lacks)}", True, fate.lacks, name)
        elif fate.word == "none":
            had = f", and by {spans(fate.had)}, not counted" if fate.had else ""
            yield Finding(f"{name}: delivered by nobody who counts{had}{'' if fate.carried else '; never carried'}", False)
        elif fate.word == "open":
            yield Finding(f"{name} open: {waiting(fate)}", False)
    if check.parting:
        (a, b), here, there = check.parting.nodes, check.parting.here, check.parting.there
        words = f"node {a} delivers tot {here[0]} {here[1]} (slot {here[2]}), node {b} tot {there[0]} {there[1]} (slot {there[2]})"
        yield Finding(f"one order ends at place {check.parting.place}: {words}", True)
    for view in check.views:
        words = f"node {view.nodes[0]} has {spans(view.members)}, node {view.nodes[1]} has {spans(view.others)}"
        yield Finding(f"view {view.number} apart: {words}", True)
    for sign in check.signs:
        if sign.fate.word == "apart":
            yield Finding(f"failure of {sign.node} in cycle {sign.cycle} apart: known at {spans(sign.fate.has)}, not at {spans(sign.fate.lacks)}", True)
        elif sign.fate.word == "open":
            yield Finding(f"failure of {sign.node} in cycle {sign.cycle} open: {waiting(sign.fate)}", False)
    for it in check.accusations:
        yield Finding(f"node {it.node} ran all the time, and was found to have failed by {spans(it.by)}, first in slot {it.slot}", True)
    for it in check.unused:
        yield Finding(f"unused {it.table} {it.place}: {it.why}", False)


def waiting(fate):
    """Why a message or a sign is open."""
    why = ["queued at its origin"] if fate.queued else []
    why += [f"frames wait at {spans(fate.waits)}"] if fate.waits else []
    why += [f"a timer or closing is ahead at {spans(fate.ahead)}, by slot {fate.by}"] if fate.ahead else []
    return ", ".join(why)
