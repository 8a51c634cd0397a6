"""A run as a page of SVG: slots rightwards, in rows like a score, and the nodes as lanes."""
from typing import NamedTuple

from . import marks
from .columns import GONE, Column, did, findings, spans, summary
from .marks import GREEN, GREY, INK, PALE, RED, SHADES
from .overview import Overview
from .report import Delivery, View
from .svg import FONT, element, text, tooltip, width_of, wrapped

MARGIN, STEP, GAP, LABEL = 16, 30, 28, 10.5
# More nodes than these share a lane where they did the same in all of a row.
MOST_SINGLE = 12
# With more lanes than these, tags stand beside the marks and not below them.
MOST_TALL = 16
# Of what was found, the lines that tell of something broken, and others.
MOST_BROKEN, MOST_OTHERS = 8, 4
# A run of so many slots has a strip above, which shows it whole.
LONG_RUN = 500
# How wide a page is where nothing else is asked for. None is narrower than the least, for the words above and below.
PAGE_WIDTH, LEAST_PAGE = 1000, 560


def gap_of(column):
    """The room before a column for the slots that are left out there."""
    return max(GAP, width_of(f"+{column.before}", 8) + 8) if column.before else 0


class Lane(NamedTuple):
    """One node, or several that did the same."""

    nodes: tuple

    @property
    def label(self):
        one = "node" if len(self.nodes) == 1 else "nodes"
        label = f"{one} {spans(self.nodes)}"
        return label if len(label) <= 16 else f"{len(self.nodes)} nodes"


class Layout:
    """The sizes of a picture: flat, with tags beside the marks, or tall, with tags below them."""

    def __init__(self, is_flat):
        self.is_flat = is_flat
        self.lane = 19 if is_flat else 36
        self.tag = 0 if is_flat else 15

    def column_width(self, column):
        """As wide as the marks, the number of the slot, and the widest tags."""
        step = max(STEP, width_of(str(column.slot)) + 4)
        rows = [[marks.tag_width(marks.tag(entry)[0]) + 3 for entry in entries] for entries in column.entries.values()]
        if self.is_flat:
            return step + max(map(sum, rows), default=0)
        return max([step, *(width + 3 for row in rows for width in row)])


class Row:
    """Columns that stand beside each other, with their lanes."""

    def __init__(self, placed, lanes, lacks):
        self.placed, self.lanes, self.lacks = placed, lanes, lacks
        self.label = max(width_of(lane.label, LABEL) for lane in lanes) + 14


class Placed(NamedTuple):
    """A column at its place: x is its left edge, from the first column of its row on."""

    column: Column
    x: float
    width: float


class Picture:
    def __init__(self, report, shown, check, title, width, each):
        self.report, self.title, self.each, self.page = report, title, each, width
        self.found = list(findings(report, check))
        self.views, self.out = {}, []
        self.layout = Layout(False)
        self.rows = self.in_rows(shown)
        if any(len(row.lanes) > MOST_TALL for row in self.rows):
            self.layout = Layout(True)
            self.rows = self.in_rows(shown)
        self.left = MARGIN + max(row.label for row in self.rows)
        self.used = set()

    # what stands where

    def in_rows(self, shown):
        """The columns in rows that the page has room for."""
        rows, placed, x = [], [], 0
        room = self.page - 2 * MARGIN - self.label_room() - 40
        for column in shown:
            width = self.layout.column_width(column)
            gap = gap_of(column)
            if placed and x + gap + width > room:
                rows.append(placed)
                placed, x = [], 0
            placed.append(Placed(column, x + gap, width))
            x += gap + width
        rows.append(placed)
        return [self.row(placed, placed is rows[-1]) for placed in rows]

    def label_room(self):
        nodes = self.report.parameters["nodes"]
        return width_of("nodes 10,12,14-16" if nodes > MOST_SINGLE and not self.each else "node 63", LABEL)

    def row(self, placed, is_last):
        """A row, in which nodes share a lane where there are many and they did the same."""
        nodes = range(self.report.parameters["nodes"])
        lacks = {node: [it.tag for it in self.found if node in it.lacks] for node in nodes} if is_last else {}
        if len(nodes) <= MOST_SINGLE or self.each:
            return Row(placed, [Lane((node,)) for node in nodes], lacks)
        alike = {}
        for node in nodes:
            key = tuple(self.deeds(node, it.column) for it in placed), tuple(lacks.get(node, ()))
            alike.setdefault(key, []).append(node)
        return Row(placed, [Lane(tuple(nodes)) for nodes in alike.values()], lacks)

    def deeds(self, node, column):
        """All that the picture shows of the node in the column."""
        bus = column.bus
        life = self.report.incarnation_in(node, column.slot)
        is_muted = life is not None and column.slot < life.acts
        stops = bus and (node in bus.stopped, node in bus.restarted)
        return did(self.report, node, column), tuple(column.entries.get(node, ())), stops, is_muted

    def lane_heights(self, row):
        """Each lane is as high as the most tags below one mark of it need."""
        heights = []
        for lane in row.lanes:
            most = max((len(it.column.entries.get(lane.nodes[0], ())) for it in row.placed), default=0)
            most = max(most, min(len(row.lacks.get(lane.nodes[0], ())), 3))
            heights.append(self.layout.lane + self.layout.tag * max(0, most - 1))
        return heights

    def is_cut(self, shown):
        """Whether a part of the run is missing at an end, or was folded because the picture had too many columns."""
        happened = [slot.slot for slot in self.report.bus if slot.frame and slot.frame.kind != "els"]
        return bool(shown and happened) and (happened[0] < shown[0].slot or happened[-1] > shown[-1].slot)

    # drawing

    def add(self, *elements):
        self.out += elements

    def draw(self, shown):
        y = self.heading()
        right = 0
        if self.report.parameters["slots"] >= LONG_RUN and (len(self.rows) > 1 or self.is_cut(shown)):
            strip = Overview(self.report, self.left, self.page - MARGIN - 30, y)
            self.add(*strip.draw(shown))
            y, right = strip.end, self.page - MARGIN
        for row in self.rows:
            y, edge = self.draw_row(row, y)
            right = max(right, edge)
        width = min(self.page, max(right + MARGIN, LEAST_PAGE)) if len(self.rows) == 1 else self.page
        y = self.foot(y, width)
        y = self.legend(y + 8, width)
        head = f'<svg xmlns="http://www.w3.org/2000/svg" width="{width:.0f}" height="{y:.0f}" viewBox="0 0 {width:.0f} {y:.0f}"'
        yield f'{head} font-family="{FONT}" font-size="10" fill="{INK}">'
        yield tooltip(self.title or "A run of canely")
        yield element("rect", width=width, height=y, fill="white")
        yield from self.out
        yield "</svg>"

    def heading(self):
        y = MARGIN + 10
        width = max(LEAST_PAGE, min(self.page, self.left + max((it.x + it.width for row in self.rows for it in row.placed), default=0) + 40))
        if self.title:
            for line in wrapped(self.title, width - 2 * MARGIN, 15):
                self.add(text(MARGIN, y, line, font_size=15, font_weight="bold"))
                y += 19
        for line in wrapped(summary(self.report), width - 2 * MARGIN, 10.5):
            self.add(text(MARGIN, y, line, font_size=10.5, fill="#555"))
            y += 14
        return y

    def draw_row(self, row, top):
        """Draws a row, and returns where it ends, below and on the right."""
        frames = [it.column.frame for it in row.placed if it.column.frame]
        head = max([width_of(marks.frame_name(it), 10) * 0.8 for it in frames], default=0) + 26
        heights = self.lane_heights(row)
        tops = [top + head + sum(heights[:at]) for at in range(len(heights) + 1)]
        middle = {node: tops[at] + 12 for at, lane in enumerate(row.lanes) for node in lane.nodes}
        first = [lane.nodes[0] for lane in row.lanes]
        bottom = tops[-1] + (2 if self.layout.is_flat else 0)
        self.shades(row, top + head - 18, bottom)
        for lane in row.lanes:
            self.lane(row, lane, middle[lane.nodes[0]])
        for it in row.placed:
            self.column_head(it, top + head)
            self.frame_marks(it, first, middle)
            self.node_marks(it, first, middle)
        edge = self.lacking(row, middle)
        below = self.notes(row, bottom)
        last = row.placed[-1] if row.placed else Placed(None, 0, 0)
        return below + 12, max(edge, self.left + last.x + last.width + 44)

    def shades(self, row, top, bottom):
        for it in row.placed:
            if it.column.frame and it.column.bus.verdict in SHADES:
                shade = SHADES[it.column.bus.verdict]
                self.add(element("rect", x=self.left + it.x, y=top, width=it.width, height=bottom - top, fill=shade))

    def lane(self, row, lane, y):
        """The line of a lane: thin where the node takes part, broad and pale where it reads all as idle, dotted over left out slots."""
        node = lane.nodes[0]
        gone = all(did(self.report, node, it.column) == GONE for it in row.placed)
        tip = f"nodes {spans(lane.nodes)}" if len(lane.nodes) > 1 else ""
        self.add(text(MARGIN, y + 4, lane.label, tip, font_size=LABEL, font_weight="bold", fill=GREY if gone else None))
        for it in row.placed:
            life = self.report.incarnation_in(node, it.column.slot)
            if life is None:
                continue
            x, end = self.left + it.x, self.left + it.x + it.width
            if life.stopped == it.column.slot:
                end = self.mark_x(it) + 11
            line = lambda a, b, is_muted, **given: self.add(
                element("path", d=f"M{a:.0f} {y:.0f}H{b:.0f}", stroke=PALE if is_muted else GREY, stroke_width=4 if is_muted else 1.2, **given)
            )
            if it.column.before and life.first < it.column.slot:
                line(x - gap_of(it.column), x, it.column.slot <= life.acts and life.number, stroke_dasharray="2 4")
            line(x, end, it.column.slot < life.acts)

    def mark_x(self, it):
        return self.left + it.x + (STEP / 2 if self.layout.is_flat else it.width / 2)

    def column_head(self, it, y):
        x, column = self.mark_x(it), it.column
        if column.before:
            tip = f"{column.before} slots are left out, {column.frames_before} of them with a frame"
            self.add(text(self.left + it.x - gap_of(column) / 2, y - 6, f"+{column.before}", tip, font_size=8, fill="#888", text_anchor="middle"))
        self.add(text(x, y - 6, str(column.slot), text_anchor="middle"))
        if column.frame:
            ink, name = marks.INKS[column.frame.kind], marks.frame_name(column.frame)
            place = f"translate({x + 3:.0f},{y - 20:.0f}) rotate(-55)"
            self.add(element("text", name + tooltip(str(column.bus)), transform=place, fill=ink, font_weight="bold"))

    def frame_marks(self, it, nodes, middle):
        """What the nodes did with the frame: the marks of one slot, and the line that joins them."""
        column, x = it.column, self.mark_x(it)
        if not column.frame:
            return
        doing = {node: did(self.report, node, column) for node in nodes}
        reach = [middle[node] for node, it in doing.items() if it != GONE]
        kind = column.frame.kind
        body = tooltip(str(column.bus))
        body += element("path", d=f"M{x:.0f} {min(reach):.0f}V{max(reach):.0f}", stroke=marks.COLOURS[kind], opacity=0.4)
        body += marks.deeds(kind, x, {node: (middle[node], deed) for node, deed in doing.items()}, self.layout.is_flat)
        self.used.update(doing.values())
        self.add(element("g", body))

    def node_marks(self, it, nodes, middle):
        """Stops, starts and the entries of the logs."""
        column, x = it.column, self.mark_x(it)
        for node in nodes:
            y = middle[node]
            if column.bus and node in column.bus.stopped:
                self.used.add("stops")
                self.add(marks.stop(x + 11, y, f"node {node} stops in slot {column.slot}"))
            if column.bus and node in column.bus.restarted:
                self.used.add("starts")
                self.add(marks.start(self.left + it.x + it.width - 9, y, f"node {node} starts again at the end of slot {column.slot}"))
            at = x + 12
            for place, entry in enumerate(column.entries.get(node, ())):
                word, *colours = marks.tag(entry)
                # a view that is not that of the least node that has one of this number
                if isinstance(entry, View) and entry.members != self.views.setdefault(entry.number, entry.members):
                    colours = marks.DIFFERENT_VIEW
                tip = f"node {node}: {entry}"
                self.used.add(entry.service if isinstance(entry, Delivery) else type(entry))
                if self.layout.is_flat:
                    self.add(marks.tag_box(at + marks.tag_width(word) / 2, y - 6.5, word, tip, *colours))
                    at += marks.tag_width(word) + 3
                else:
                    self.add(marks.tag_box(x, y + 9 + 15 * place, word, tip, *colours))

    def lacking(self, row, middle):
        """Behind the last column, which correct node lacks which message that others have. Returns the right edge."""
        edge, last = 0, row.placed[-1] if row.placed else Placed(None, 0, 0)
        for lane in row.lanes:
            tags = row.lacks.get(lane.nodes[0], [])
            x, y = self.left + last.x + last.width + 8, middle[lane.nodes[0]]
            shown = tags if len(tags) <= 3 else [*tags[:2], f"and {len(tags) - 2} more"]
            for at, tag in enumerate(shown):
                word = f"lacks {tag}" if at == 0 else tag
                width = marks.tag_width(word)
                step = (0, 15 * at) if not self.layout.is_flat else (width * at, 0)
                self.add(marks.tag_box(x + step[0] + width / 2, y - 6.5 + step[1], word, "", *marks.LACKING))
                edge = max(edge, x + step[0] + width + 4)
        return edge

    def notes(self, row, bottom):
        """Verdicts and remarks below their columns, on as many lines as keep them apart. Returns where they end."""
        below = lambda x, line, word, ink: self.add(text(x, bottom + 10 + 11 * line, word, font_size=8.5, fill=ink, text_anchor="middle"))
        wrong = [it for it in row.placed if it.column.frame and it.column.bus.verdict != "clean"]
        for it in wrong:
            below(self.mark_x(it), 0, it.column.bus.verdict, RED)
        first = 1 if wrong else 0
        ends = []
        for x, note in [(self.mark_x(it), note) for it in row.placed for note in it.column.notes]:
            half = width_of(note.text, 8.5) / 2
            line = next((at for at, end in enumerate(ends) if end < x - half), len(ends))
            ends[line : line + 1] = [x + half]
            below(x, first + line, note.text, RED if note.is_bad else GREEN)
        return bottom + 11 * (first + len(ends))

    def foot(self, y, width):
        """What came of the messages that not all have."""
        if not any(row.placed for row in self.rows):
            self.add(text(MARGIN, y + 4, "nothing happened in these slots", fill="#555"))
            y += 15
        shown = [it for it in self.found if it.is_bad][:MOST_BROKEN] + [it for it in self.found if not it.is_bad][:MOST_OTHERS]
        lines = [(line, it.is_bad) for it in shown for line in wrapped(it.words, width - 2 * MARGIN, 10)]
        if len(self.found) > len(shown):
            lines.append((f"and {len(self.found) - len(shown)} more", False))
        for line, is_bad in lines:
            self.add(text(MARGIN, y + 8, line, fill=RED if is_bad else "#555"))
            y += 14
        return y

    def legend(self, y, width):
        """The marks that the picture has, each with its meaning."""
        x = MARGIN
        for draw, wide, words in marks.legend(self.used):
            length = wide + 5 + width_of(words, 8.6)
            if x > MARGIN and x + length > width:
                x, y = MARGIN, y + 19
            self.add(draw(x, y + 8), text(x + wide + 5, y + 11.5, words, font_size=9))
            x += length + 12
        return y + 26


def picture(report, shown, check, title, width, each):
    """The lines of the page."""
    return Picture(report, shown, check, title, width, each).draw(shown)
