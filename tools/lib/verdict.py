"""Reads the text of `canely check`, what became of the promise in one run, into plain objects."""
import re
from dataclasses import dataclass
from typing import NamedTuple, Optional

from . import command
from .lines import HYPOTHESIS, NUMBER, SERVICE, SET, Lines, Malformed, nodes_of, number, shown
from .words import FORMATS, TABLES, one_of

# The exit statuses with which a text of check is written: nothing is broken or open, a part is broken, and none is but one is open.
HELD, BROKEN, OPEN = 0, 9, 10
JUDGEMENT = r"(?P<judgement>held|broken|open)"
COUNTS = " ".join(rf"{fate} (?P<{fate}>{NUMBER})" for fate in ("all", "none", "apart", "open"))
# The lines at the head of the text, after the first two: each the words before the verdict, and what counts stand after it.
HEAD = {
    "integrity": "",
    "agreement ed": COUNTS,
    "agreement rel": COUNTS,
    "agreement tot": COUNTS,
    "order": rf"shortest (?P<shortest>{NUMBER}) longest (?P<longest>{NUMBER})",
    "views": rf"numbers (?P<numbers>{NUMBER}) apart (?P<apart>{NUMBER})",
    "signs": COUNTS,
    "accuracy": "",
}

HEAD_LINES = 2 + len(HEAD)
PARTS = {name: re.compile(f"{name} {JUDGEMENT}{' ' if counts else ''}{counts}") for name, counts in HEAD.items()}
FIRST = re.compile(r"canely check (?P<format>[1-9][0-9]*)")
# The nodes that have a message or know a sign, those that lack it, those that had it and do not count, and what it waits for.
FATE = (
    rf"(?P<fate>all|apart has (?P<has>{SET}) lacks (?P<lacks>{SET})|none(?: had (?P<had>{SET}))?"
    rf"|open(?P<queued> queued)?(?: waits (?P<waits>{SET}))?(?: ahead (?P<ahead>{SET}) by (?P<by>{NUMBER}))?)"
    rf" carried (?:-|(?P<carried>{NUMBER} {NUMBER}))"
)
MESSAGE = re.compile(
    rf"message (?P<service>{SERVICE}) (?P<origin>{NUMBER}) (?P<seq>{NUMBER}) slot (?P<slot>{NUMBER}) {FATE}"
    rf"(?: delivered (?P<told>{NUMBER} {NUMBER}))?"
)
SIGN = re.compile(rf"sign (?P<node>{NUMBER}) (?P<cycle>{NUMBER}) {FATE}(?: known (?P<told>{NUMBER} {NUMBER}))?")
ENTRY = re.compile(rf"entry node (?P<node>{NUMBER}) place (?P<place>{NUMBER})")
DELIVERY = rf"tot ({NUMBER}) ({NUMBER}) slot ({NUMBER})"
PARTED = re.compile(rf"parted node ({NUMBER}) node ({NUMBER}) place ({NUMBER}) {DELIVERY} {DELIVERY}")
VIEW = re.compile(rf"view (?P<number>{NUMBER}) node (?P<a>{NUMBER}) (?P<members>{SET}) node (?P<b>{NUMBER}) (?P<others>{SET})")
ACCUSED = re.compile(rf"accused (?P<node>{NUMBER}) by (?P<by>{SET}) first (?P<slot>{NUMBER})")
UNUSED = re.compile(
    rf"unused (?P<table>{one_of(TABLES)}) (?P<place>{NUMBER}) "
    rf"(?P<why>stopped|runs|carried -|(?:from|attempts) {NUMBER}|slot {NUMBER} (?:ruled|idle|rejects -|stops -))"
)


class Part(NamedTuple):
    """A part of the promise: whether it held, and the counts of its line."""

    name: str
    judgement: str
    counts: dict


class Fate(NamedTuple):
    """What became of a message or of a failure sign."""

    word: str
    """`all`, `apart`, `none` or `open`."""
    has: tuple
    lacks: tuple
    had: tuple
    queued: bool
    waits: tuple
    ahead: tuple
    by: Optional[int]
    carried: Optional[tuple]
    """The first and the last slot that carried it."""
    told: Optional[tuple]
    """The first and the last slot of an entry of it, in the logs of the nodes that have it."""


class MessageFate(NamedTuple):
    service: str
    origin: int
    seq: int
    slot: int
    fate: Fate


class SignFate(NamedTuple):
    node: int
    cycle: int
    fate: Fate


class Parting(NamedTuple):
    """Two nodes, and the place in the order at which they deliver different messages of TOTCAN, each with origin, number, slot."""

    nodes: tuple
    place: int
    here: tuple
    there: tuple


class ViewParting(NamedTuple):
    number: int
    nodes: tuple
    members: tuple
    others: tuple


class Accusation(NamedTuple):
    node: int
    by: tuple
    slot: int


class Unused(NamedTuple):
    """An entry of the scenario that did nothing: its table, its place there, and the words of the line that say why."""

    table: str
    place: int
    why: str


@dataclass
class Head:
    """The lines at the head of the text, of which it always has the same."""

    format: int
    first_break: Optional[tuple]
    """Kind and slot; None where the run is within the hypothesis."""
    parts: dict
    """By the words of its line each part of the promise."""

    @property
    def broken(self):
        """The names of the parts that are broken."""
        return [name for name, part in self.parts.items() if part.judgement == "broken"]

    @property
    def status(self):
        """The exit status that is written with it."""
        judgements = {part.judgement for part in self.parts.values()}
        return BROKEN if "broken" in judgements else OPEN if "open" in judgements else HELD


@dataclass
class Outline(Head):
    unused: list


@dataclass
class Check(Head):
    wrong_entry: Optional[tuple]
    """Node and place."""
    messages: list
    parting: Optional[Parting]
    views: list
    signs: list
    accusations: list
    unused: list


def nodes(lines, text):
    found = nodes_of(text) if text else ()
    if found is None:
        raise lines.fault(f"the nodes of {shown(text)} do not ascend")
    return found


def slots(text):
    return tuple(map(int, text.split())) if text else None


def fate(lines, found):
    has, lacks, waits, ahead = (nodes(lines, found[name]) for name in ("has", "lacks", "waits", "ahead"))
    had = nodes(lines, found["had"])
    word = found["fate"].split(" ", 1)[0]
    return Fate(word, has, lacks, had, bool(found["queued"]), waits, ahead, number(found["by"]), slots(found["carried"]), slots(found["told"]))


def part(lines, name, pattern):
    """A line of the head."""
    found = lines.match(pattern, f"{name} VERDICT ...")
    counted = {word: int(text) for word, text in found.groupdict().items() if word != "judgement"}
    return Part(name, found["judgement"], counted)


def head(lines):
    """Format, first break and parts."""
    first = lines.match(FIRST, "canely check FORMAT")
    if int(first["format"]) not in FORMATS:
        raise lines.fault(f"the text is of format {first['format']}, and this tool knows {' and '.join(map(str, FORMATS))}")
    found = lines.match(HYPOTHESIS, "hypothesis within' or 'hypothesis outside KIND SLOT")
    first_break = (found["kind"], int(found["slot"])) if found["kind"] else None
    return int(first["format"]), first_break, {name: part(lines, name, pattern) for name, pattern in PARTS.items()}


def unused_entries(lines):
    return [Unused(it["table"], int(it["place"]), it["why"]) for it in lines.all_of("unused", UNUSED, "unused TABLE PLACE WHY")]


def read_outline(data):
    """The head of a text of check and its unused entries; what stands between them is not read. Raises Malformed as read_check does."""
    lines = Lines(data)
    found = head(lines)
    lines.skip_to("unused", "end")
    unused = unused_entries(lines)
    lines.end()
    return Outline(*found, unused)


def read_check(data):
    """The text of check whose bytes these are. Raises Malformed, with the line, where they are none."""
    lines = Lines(data)
    found = head(lines)
    wrong = [(int(it["node"]), int(it["place"])) for it in lines.all_of("entry", ENTRY, "entry node NODE place PLACE")]
    messages = [
        MessageFate(it["service"], int(it["origin"]), int(it["seq"]), int(it["slot"]), fate(lines, it))
        for it in lines.all_of("message", MESSAGE, "message SERVICE ORIGIN SEQ slot SLOT FATE carried ...")
    ]
    partings = []
    for it in lines.all_of("parted", PARTED, "parted node A node B place K tot ORIGIN SEQ slot SLOT tot ORIGIN SEQ slot SLOT"):
        a, b, place, *rest = map(int, it.groups())
        partings.append(Parting((a, b), place, tuple(rest[:3]), tuple(rest[3:])))
    views = [
        ViewParting(int(it["number"]), (int(it["a"]), int(it["b"])), nodes(lines, it["members"]), nodes(lines, it["others"]))
        for it in lines.all_of("view", VIEW, "view NUMBER node A SET node B SET")
    ]
    signs = [SignFate(int(it["node"]), int(it["cycle"]), fate(lines, it)) for it in lines.all_of("sign", SIGN, "sign NODE CYCLE FATE carried ...")]
    accusations = [
        Accusation(int(it["node"]), nodes(lines, it["by"]), int(it["slot"]))
        for it in lines.all_of("accused", ACCUSED, "accused NODE by SET first SLOT")
    ]
    unused = unused_entries(lines)
    lines.end()
    only = lambda found: found[0] if found else None
    return Check(*found, only(wrong), messages, only(partings), views, signs, accusations, unused)


def check_from(path, report):
    """The text of check in a file, for a command that has the report of the same run."""
    try:
        check = read_check(command.read_bytes(path))
    except Malformed as error:
        raise command.Failure(command.REFUSED, f"{path}: {error}") from None
    if (check.format, check.first_break) != (report.format, report.first_break):
        raise command.Failure(command.REFUSED, f"{path}: its format or its hypothesis is not that of the report")
    report.check_asks({(it.service, it.origin, it.seq): it.slot for it in check.messages}, path)
    return check


def fact(thing):
    return {name: fact(value) for name, value in thing._asdict().items()} if hasattr(thing, "_asdict") else thing


def facts(check):
    """An object for each line of the text, in its order."""
    outside = check.first_break
    yield {"type": "check", "format": check.format}
    yield {"type": "hypothesis", "within": outside is None, "break": outside and {"kind": outside[0], "slot": outside[1]}}
    yield from ({"type": "part", **fact(part)} for part in check.parts.values())
    if check.wrong_entry:
        yield {"type": "entry", "node": check.wrong_entry[0], "place": check.wrong_entry[1]}
    yield from ({"type": "message", **fact(message)} for message in check.messages)
    yield from ({"type": "parted", **fact(parting)} for parting in [check.parting] if parting)
    yield from ({"type": "view", **fact(view)} for view in check.views)
    yield from ({"type": "sign", **fact(sign)} for sign in check.signs)
    yield from ({"type": "accused", **fact(it)} for it in check.accusations)
    yield from ({"type": "unused", **fact(it)} for it in check.unused)
    yield {"type": "end"}
