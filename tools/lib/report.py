"""Reads a report of canely, of either format, into plain objects."""
import re
from dataclasses import dataclass, field
from typing import NamedTuple, Optional

from . import command
from .lines import HYPOTHESIS, NUMBER, SERVICE, SET, Lines, Malformed, nodes_of, number, set_text, shown
from .words import CLASSES, FORMATS, LIMITS, PARAMETERS, REMOTE, VERDICTS, WITH_INCARNATION, one_of


class Frame(NamedTuple):
    kind: str
    """The class of the frame: one of CLASSES."""
    node: int
    incarnation: int
    number: int
    payload: Optional[bytes]
    """None of a remote frame."""

    @property
    def name(self):
        """Class, node and number, as a line of the bus has them."""
        return f"{self.kind} {self.node}{f'/{self.incarnation}' if self.incarnation else ''} {self.number}"

    @property
    def vector(self):
        """The nodes that an `rha` frame proposes."""
        bits = int.from_bytes(self.payload, "big")
        return tuple(node for node in range(bits.bit_length()) if bits >> node & 1)


class Slot(NamedTuple):
    """A line of the bus. A slot that has none was idle, and nobody stopped or started again in it."""

    slot: int
    frame: Optional[Frame]
    senders: tuple
    accepted: tuple
    rejected: tuple
    """The receivers that did not accept; the line does not have them, they follow from who runs."""
    verdict: Optional[str]
    stopped: tuple
    restarted: tuple

    def __str__(self):
        line = f"bus {self.slot} "
        if self.frame:
            payload = "r" if self.frame.payload is None else f"x{self.frame.payload.hex()}"
            line += f"{self.frame.name} {payload} from {set_text(self.senders)} to {set_text(self.accepted)} {self.verdict}"
        else:
            line += "idle"
        line += f" stop {set_text(self.stopped)}" if self.stopped else ""
        return line + (f" restart {set_text(self.restarted)}" if self.restarted else "")


class Delivery(NamedTuple):
    slot: int
    service: str
    origin: int
    seq: int
    payload: bytes

    def __str__(self):
        return f"deliver {self.slot} {self.service} {self.origin} {self.seq} x{self.payload.hex()}"


class Failure(NamedTuple):
    """The node was found to have failed."""

    slot: int
    node: int
    cycle: int

    def __str__(self):
        return f"failed {self.slot} {self.node} {self.cycle}"


class View(NamedTuple):
    slot: int
    number: int
    members: tuple

    def __str__(self):
        return f"view {self.slot} {self.number} {set_text(self.members)}"


class Message(NamedTuple):
    service: str
    origin: int
    seq: int
    settled: bool

    def __str__(self):
        return f"message {self.service} {self.origin} {self.seq} {'settled' if self.settled else 'open'}"


class Break(NamedTuple):
    """The first break of the fault hypothesis."""

    kind: str
    slot: int


@dataclass
class Incarnation:
    """What runs of a node from one start to the next stop."""

    node: int
    number: int
    first: int
    """The first slot of which it has a notice."""
    acts: int
    """The first slot in which it takes part; before, it reads each slot as idle."""
    stopped: Optional[int]
    """The slot in which it stopped; None where it runs at the end."""
    read: int
    log: list = field(default_factory=list)

    def __str__(self):
        again = f" inc {self.number} since {self.first}" if self.number else ""
        state = "correct" if self.stopped is None else f"stopped {self.stopped}"
        return f"node {self.node}{again} {state} read {self.read}"

    def runs_in(self, slot):
        return self.first <= slot and (self.stopped is None or slot <= self.stopped)


@dataclass
class Report:
    format: int
    parameters: dict
    journal: list
    """The lines of the journal."""
    bus: list
    first_break: Optional[Break]
    """None where the run is within the hypothesis."""
    nodes: list
    """For each node its incarnations."""
    messages: list

    def incarnation_in(self, node, slot):
        """The incarnation of the node that ran in the slot, or None."""
        return next((life for life in self.nodes[node] if life.runs_in(slot)), None)

    def present(self):
        """The incarnations that run at the end: those of the correct nodes."""
        return [lives[-1] for lives in self.nodes if lives[-1].stopped is None]

    def check_asks(self, slots, place):
        """Ends a command where the slots of the sends, by message, are those of another run."""
        keys = {(it.service, it.origin, it.seq) for it in self.messages}
        if set(slots) != keys or max(slots.values(), default=0) >= self.parameters["slots"]:
            raise command.Failure(command.REFUSED, f"{place}: its messages are not those of the report")

    def lines(self):
        """The lines of the report."""
        yield f"canely report {self.format}"
        yield "params " + " ".join(f"{name} {value}" for name, value in self.parameters.items())
        yield from (f"journal {steps}" for steps in self.journal)
        yield from map(str, self.bus)
        outside = self.first_break
        yield f"hypothesis outside {outside.kind} {outside.slot}" if outside else "hypothesis within"
        for lives in self.nodes:
            for life in lives:
                yield str(life)
                yield from map(str, life.log)
        yield from map(str, self.messages)
        yield "end"


PAYLOAD = rf"x(?P<payload>(?:[0-9a-f]{{2}}){{0,{LIMITS.payload_bytes}}})"
FIRST = re.compile(r"canely report (?P<format>[1-9][0-9]*)")
PARAMS = re.compile("params " + " ".join(f"{it} (?P<{it}>{NUMBER})" for it in PARAMETERS))
JOURNAL = re.compile(r"journal (?P<steps>[.0-9a-zA-Z+-]{1,64})")
BUS = re.compile(
    rf"bus (?P<slot>{NUMBER}) "
    rf"(?:idle|(?P<kind>{one_of(CLASSES)}) (?P<node>{NUMBER})(?:/(?P<incarnation>{NUMBER}))? (?P<number>{NUMBER}) (?:r|{PAYLOAD})"
    rf" from (?P<senders>{SET}) to (?P<accepted>{SET}) (?P<verdict>{one_of(VERDICTS)}))"
    rf"(?: stop (?P<stopped>{SET}))?(?: restart (?P<restarted>{SET}))?"
)
NODE = re.compile(
    rf"node (?P<node>{NUMBER}) (?:inc (?P<incarnation>{NUMBER}) since (?P<first>{NUMBER}) )?"
    rf"(?:correct|stopped (?P<stopped>{NUMBER})) read (?P<read>{NUMBER})"
)
DELIVER = re.compile(rf"deliver (?P<slot>{NUMBER}) (?P<service>{SERVICE}) (?P<origin>{NUMBER}) (?P<seq>{NUMBER}) {PAYLOAD}")
FAILED = re.compile(rf"failed (?P<slot>{NUMBER}) (?P<node>{NUMBER}) (?P<cycle>{NUMBER})")
VIEW = re.compile(rf"view (?P<slot>{NUMBER}) (?P<number>{NUMBER}) (?P<members>{SET})")
MESSAGE = re.compile(rf"message (?P<service>{SERVICE}) (?P<origin>{NUMBER}) (?P<seq>{NUMBER}) (?P<state>settled|open)")


class Reader:
    """Reads the lines of one report."""

    def __init__(self, data):
        self.lines = Lines(data)
        self.format, self.parameters = 0, {}

    def first_lines(self):
        first = self.lines.take()
        if first.startswith("refused "):
            raise self.lines.fault(f"the program refused its input, and wrote no report: {shown(first)}")
        found = FIRST.fullmatch(first)
        if not found:
            raise self.lines.fault(f"{shown(first)} is not the first line of a report")
        self.format = int(found["format"])
        if self.format not in FORMATS:
            raise self.lines.fault(f"the report is of format {self.format}, and this tool knows {' and '.join(map(str, FORMATS))}")
        found = self.lines.match(PARAMS, "params nodes N lag N ... slots N")
        self.parameters = {name: int(found[name]) for name in PARAMETERS}
        if not LIMITS.least_nodes <= self.parameters["nodes"] <= FORMATS[self.format].nodes:
            raise self.lines.fault(f"a report of format {self.format} has {LIMITS.least_nodes} to {FORMATS[self.format].nodes} nodes")

    def below(self, what, text, limit):
        """A number of a field that has to be below the limit."""
        if int(text) >= limit:
            raise self.lines.fault(f"{what} {text} is not below {limit}")
        return int(text)

    def node(self, text):
        return self.below("node", text, self.parameters["nodes"])

    def slot(self, text):
        return self.below("slot", text, self.parameters["slots"])

    def nodes(self, text):
        """The nodes of a set; of a set that the line does not have none."""
        nodes = nodes_of(text) if text else ()
        if nodes is None:
            raise self.lines.fault(f"the nodes of {shown(text)} do not ascend")
        if nodes:
            self.below("node", nodes[-1], self.parameters["nodes"])
        return nodes

    def frame(self, found):
        if found["kind"] is None:
            return None
        payload = found["payload"]
        frame = Frame(
            found["kind"],
            self.node(found["node"]),
            self.below("incarnation", found["incarnation"] or "0", LIMITS.incarnation + 1),
            self.below("number", found["number"], FORMATS[self.format].number + 1),
            None if payload is None else bytes.fromhex(payload),
        )
        if (frame.kind in REMOTE) != (payload is None):
            raise self.lines.fault(f"{frame.kind} frames are {'remote' if payload else 'data'} frames")
        if frame.incarnation and frame.kind not in WITH_INCARNATION:
            raise self.lines.fault(f"{frame.kind} frames tell no incarnation")
        if frame.kind == "rha" and len(frame.payload) != FORMATS[self.format].vector_bytes:
            raise self.lines.fault(f"an rha frame of format {self.format} has {FORMATS[self.format].vector_bytes} bytes")
        return frame

    def bus(self):
        running, last, slots = set(range(self.parameters["nodes"])), -1, []
        for found in self.lines.all_of("bus", BUS, "bus SLOT CLASS NODE NUMBER PAYLOAD from SET to SET VERDICT"):
            frame = self.frame(found)
            senders, accepted = self.nodes(found["senders"]), self.nodes(found["accepted"])
            rejected = tuple(sorted(running.difference(senders, accepted))) if frame else ()
            stopped, restarted = self.nodes(found["stopped"]), self.nodes(found["restarted"])
            slot = Slot(self.slot(found["slot"]), frame, senders, accepted, rejected, found["verdict"], stopped, restarted)
            if slot.slot <= last:
                raise self.lines.fault(f"slot {slot.slot} does not come after slot {last}")
            if not running.issuperset(senders + accepted + stopped) or set(senders) & set(accepted):
                raise self.lines.fault("a node takes part that has stopped, or in two ways")
            running = running.difference(stopped).union(restarted)
            last = slot.slot
            slots.append(slot)
        return slots

    def first_break(self):
        found = self.lines.match(HYPOTHESIS, "hypothesis within' or 'hypothesis outside KIND SLOT")
        return Break(found["kind"], self.slot(found["slot"])) if found["kind"] else None

    def incarnation(self, node, before):
        """The next incarnation of the node, with its log; `before` are those before it."""
        found = self.lines.match(NODE, "node NODE ... read COUNT")
        first = number(found["first"]) or 0
        # an incarnation that is not the first takes part only `bound + lag` slots after its first
        muted = self.parameters["bound"] + self.parameters["lag"] if before else 0
        life = Incarnation(node, len(before), first, first + muted, number(found["stopped"]), int(found["read"]))
        if int(found["node"]) != node or int(found["incarnation"] or 0) != life.number:
            raise self.lines.fault(f"what stands here is not incarnation {life.number} of node {node}")
        if before and (before[-1].stopped is None or before[-1].stopped >= first):
            raise self.lines.fault(f"node {node} starts again before it has stopped")
        life.log = list(self.log())
        return life

    def log(self):
        """The entries that come next."""
        last, lines = 0, self.lines
        while True:
            if lines.begins("deliver"):
                found = lines.match(DELIVER, "deliver SLOT SERVICE ORIGIN SEQ PAYLOAD")
                payload = bytes.fromhex(found["payload"])
                entry = Delivery(self.slot(found["slot"]), found["service"], self.node(found["origin"]), int(found["seq"]), payload)
            elif lines.begins("failed"):
                found = lines.match(FAILED, "failed SLOT NODE CYCLE")
                entry = Failure(self.slot(found["slot"]), self.node(found["node"]), int(found["cycle"]))
            elif lines.begins("view"):
                found = lines.match(VIEW, "view SLOT NUMBER SET")
                entry = View(self.slot(found["slot"]), int(found["number"]), self.nodes(found["members"]))
            else:
                return
            if entry.slot < last:
                raise lines.fault(f"slot {entry.slot} comes after slot {last}")
            last = entry.slot
            yield entry

    def incarnations(self):
        """The incarnations of all nodes, by node."""
        nodes = []
        for node in range(self.parameters["nodes"]):
            lives = [self.incarnation(node, [])]
            while self.lines.begins("node") and self.lines.lines[self.lines.taken].startswith(f"node {node} "):
                lives.append(self.incarnation(node, lives))
            nodes.append(lives)
        return nodes

    def message(self, found):
        return Message(found["service"], self.node(found["origin"]), int(found["seq"]), found["state"] == "settled")

    def report(self):
        self.first_lines()
        lines = self.lines
        journal = [found["steps"] for found in lines.all_of("journal", JOURNAL, "journal STEPS")]
        bus, first_break, nodes = self.bus(), self.first_break(), self.incarnations()
        messages = [self.message(found) for found in lines.all_of("message", MESSAGE, "message SERVICE ORIGIN SEQ settled")]
        lines.end()
        return Report(self.format, self.parameters, journal, bus, first_break, nodes, messages)


def read_report(data):
    """The report whose bytes these are. Raises Malformed, with the line, where they are none."""
    return Reader(data).report()


def report_from(path):
    """The report in a file, or on standard input, for a command."""
    data = command.read_bytes(path)
    try:
        return read_report(data)
    except Malformed as error:
        raise command.Failure(command.REFUSED, f"{path or 'standard input'}: {error}") from None


def fact(line):
    """An object of a report or of the text of check as JSON has it: names and numbers, lists for sets, hexadecimal bytes."""
    if isinstance(line, bytes):
        return line.hex()
    if isinstance(line, Frame):
        names = {"class": line.kind, "node": line.node, "incarnation": line.incarnation, "number": line.number}
        return {**names, "remote": line.payload is None, "payload": fact(line.payload or b"")}
    if hasattr(line, "_asdict"):
        return {name: fact(value) for name, value in line._asdict().items()}
    return line


def facts(report):
    """An object for each line of the report, in its order."""
    yield {"type": "report", "format": report.format}
    yield {"type": "params", **report.parameters}
    yield from ({"type": "journal", "steps": steps} for steps in report.journal)
    yield from ({"type": "bus", **fact(slot)} for slot in report.bus)
    outside = report.first_break
    yield {"type": "hypothesis", "within": outside is None, "break": outside and outside._asdict()}
    for lives in report.nodes:
        for life in lives:
            of = {"of": life.node, "incarnation": life.number}
            yield {"type": "node", **of, "first": life.first, "acts": life.acts, "stopped": life.stopped, "read": life.read}
            yield from ({"type": type(entry).__name__.lower(), **of, **fact(entry)} for entry in life.log)
    yield from ({"type": "message", **fact(message)} for message in report.messages)
    yield {"type": "end"}
