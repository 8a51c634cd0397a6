"""A run as a chart of text: slots downwards, and a letter for what each node did."""
import textwrap

from .columns import ACCEPTED, GONE, IDLE, MUTED, REJECTED, SAW_ERROR, SENT, did, findings, happenings, spans, summary

LETTERS = {SENT: "S", SAW_ERROR: "E", ACCEPTED: "o", REJECTED: "x", MUTED: "~", IDLE: ".", GONE: " "}
WORDS = {
    "S": "sent",
    "E": "sent, and saw an error",
    "o": "accepted",
    "x": "rejected",
    "~": "read as idle after a restart",
    ".": "idle",
}
# The least room beside the nodes in which remarks still read well.
LEAST_REMARKS = 24


class Layout:
    """Where the parts of a line stand, in a given width."""

    def __init__(self, report, shown, width):
        self.width, self.count = width, report.parameters["nodes"]
        self.slot = max([4, *(len(str(it.slot)) for it in shown[-1:])])
        names = [it.frame.name for it in shown if it.frame]
        self.frame = max([5, *map(len, names)])
        self.left = self.slot + 2 + self.frame + 2
        room = width - self.left
        # a lane of letters for the nodes, as wide as may be; or else the letters with the sets of their nodes
        self.has_lanes = self.count <= room
        self.space = " " if 2 * self.count - 1 + 2 + LEAST_REMARKS <= room and self.count <= 16 else ""
        self.lanes = self.count + len(self.space) * (self.count - 1) if self.has_lanes else 0
        self.remarks = self.left + self.lanes + 2
        self.is_beside = self.has_lanes and width - self.remarks >= LEAST_REMARKS

    def line(self, slot, frame, letters):
        start = f"{slot:>{self.slot}}  {frame:<{self.frame}}  "
        return start + (self.space.join(letters) if self.has_lanes else "")

    def heading(self):
        """The numbers of the nodes, of more than ten one digit above the other."""
        if not self.has_lanes:
            return [self.line("slot", "frame", "").rstrip()]
        units = self.line("slot", "frame", [str(node % 10) for node in range(self.count)])
        if self.count <= 10:
            return [units]
        return [self.line("", "", [str(node // 10) if node >= 10 else " " for node in range(self.count)]), units]

    def wrapped(self, start, remarks):
        """The line of a slot, and below it what has no room in it."""
        if not remarks:
            return [start.rstrip()]
        if self.is_beside:
            lines = flow(remarks, self.width - self.remarks, "; ")
            return [(start if at == 0 else "").ljust(self.remarks) + line for at, line in enumerate(lines)]
        indent = " " * (self.slot + 2)
        return [start.rstrip(), *(indent + line for line in flow(remarks, self.width - len(indent), "; "))]


def letters_of(report, column):
    return [LETTERS[did(report, node, column)] for node in range(report.parameters["nodes"])]


def sets_of(letters):
    """The letters with their nodes, for a width that has no lane for each."""
    groups = {letter: [node for node, it in enumerate(letters) if it == letter] for letter in WORDS}
    return [f"{letter} {spans(nodes)}" for letter, nodes in groups.items() if nodes]


def gap(layout, column):
    frames = f", {column.frames_before} with a frame" if column.frames_before else ""
    return f"{'':{layout.slot}}  ... {column.before} slot{'s' if column.before > 1 else ''}{frames}"


def flow(items, width, between):
    """The items in lines; only one that is longer than a line is broken."""
    lines = [""]
    for at, item in enumerate(items):
        item += between.rstrip() if at + 1 < len(items) else ""
        gap = between[len(between.rstrip()) :]
        if lines[-1] and len(lines[-1]) + len(gap) + len(item) <= width:
            lines[-1] += gap + item
        else:
            lines += textwrap.wrap(item, width, break_on_hyphens=False)
    return [line for line in lines if line]


def paragraph(text, width):
    return textwrap.wrap(text, width, subsequent_indent="  ", break_on_hyphens=False)


def chart(report, shown, check, title, width):
    """The lines of the chart."""
    yield from paragraph(f"{title}: {summary(report)}" if title else summary(report), width)
    yield ""
    layout, used = Layout(report, shown, width), set()
    yield from layout.heading()
    for column in shown:
        if column.before:
            yield gap(layout, column)
        letters = letters_of(report, column)
        used.update(letters)
        verdict = [column.bus.verdict] if column.frame and column.bus.verdict != "clean" else []
        sets = [] if layout.has_lanes else ["  ".join(sets_of(letters))]
        start = layout.line(column.slot, column.frame.name if column.frame else "idle", letters)
        yield from layout.wrapped(start, verdict + sets + happenings(column))
    if not shown:
        yield "nothing happened in these slots"
    for at, finding in enumerate(findings(report, check)):
        if at == 0:
            yield ""
        yield from paragraph(("! " if finding.is_bad else "- ") + finding.words, width)
    yield ""
    legend = [f"{letter} {words}" for letter, words in WORDS.items() if letter in used]
    yield from flow(legend + (["blank stopped"] if " " in used else []), width, "   ")
