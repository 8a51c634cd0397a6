"""A whole run on one strip of a picture: when each node ran, where faults were, and how busy the bus was."""
from .marks import GREEN, GREY, PALE, RED
from .report import Failure, View
from .svg import element, short, text, tooltip

MOST_LABELLED = 16
LOAD = 22
# Of faults the strip has strong colours, for they are thin there.
FAULTS = {"lost": RED, "partial": "#e08a00", "silent": "#7b3fb5"}


class Overview:
    """The strip, between the x of its left and its right edge, below y."""

    def __init__(self, report, left, right, y):
        self.report, self.left, self.right, self.top = report, left, right, y + 18
        self.slots, self.nodes = report.parameters["slots"], len(report.nodes)
        self.pitch = 11 if self.nodes <= MOST_LABELLED else max(3, 180 / self.nodes)
        self.lanes_end = self.top + LOAD + 6 + self.pitch * self.nodes
        self.end = self.lanes_end + 22
        self.load_end = self.top + LOAD

    def x(self, slot):
        return self.left + (self.right - self.left) * slot / self.slots

    def lane(self, node):
        return self.load_end + 6 + self.pitch * (node + 0.5)

    def draw(self, shown):
        yield from self.windows(shown)
        yield from self.load()
        for lives in self.report.nodes:
            for life in lives:
                yield from self.life(life)
        yield from self.labels()
        yield from self.axis()

    def windows(self, shown):
        """Behind all else the slots that the picture has."""
        edges = []
        for column in shown:
            a, b = self.x(column.slot) - 0.6, self.x(column.slot + 1) + 0.6
            if edges and a <= edges[-1][1]:
                edges[-1][1] = b
            else:
                edges.append([a, b])
        path = "".join(f"M{short(a)} {short(self.top)}H{short(b)}V{short(self.lanes_end)}H{short(a)}z" for a, b in edges)
        yield element("path", tooltip("the slots that the picture below has"), d=path, fill="#e8f0fa")

    def load(self):
        """How many slots carried a frame, and where these had errors."""
        bins = max(1, int((self.right - self.left) / 2))
        counts, faults = [0] * bins, {}
        for slot in self.report.bus:
            if slot.frame:
                at = slot.slot * bins // self.slots
                counts[at] += 1
                if slot.verdict != "clean":
                    faults.setdefault(slot.verdict, set()).add(at)
        each = max(1, self.slots / bins)
        step = (self.right - self.left) / bins
        bar = lambda at, high: f"M{short(self.left + step * at)} {short(self.load_end)}v-{short(high)}h{short(step)}v{short(high)}z"
        high = lambda at: max(1, LOAD * min(1, counts[at] / each))
        yield element("path", tooltip("how many slots carried a frame"), d="".join(bar(at, high(at)) for at in range(bins) if counts[at]), fill="#c4cbd4")
        for verdict, places in faults.items():
            yield element("path", tooltip(f"{verdict} slots"), d="".join(bar(at, LOAD) for at in sorted(places)), fill=FAULTS[verdict])

    def life(self, life):
        """When an incarnation ran and took part, what views it installed that changed, and whom it found to have failed."""
        y, last = self.lane(life.node), self.slots if life.stopped is None else life.stopped
        wide = max(1.4, self.pitch * 0.3)
        line = lambda a, b, colour: element("path", d=f"M{short(self.x(a))} {short(y)}H{short(self.x(b))}", stroke=colour, stroke_width=wide)
        if life.acts > life.first:
            yield line(life.first, min(life.acts, last), PALE)
        if life.acts < last:
            yield line(life.acts, last, GREY)
        tick = lambda slot, colour, tip: element(
            "path", tooltip(tip), d=f"M{short(self.x(slot))} {short(y - self.pitch * 0.45)}v{short(self.pitch * 0.9)}", stroke=colour, stroke_width=1.6
        )
        members = None
        for entry in life.log:
            if isinstance(entry, View):
                if entry.members != members:
                    yield tick(entry.slot, GREEN, f"node {life.node}: {entry}")
                members = entry.members
            elif isinstance(entry, Failure):
                yield tick(entry.slot, RED, f"node {life.node}: {entry}")
        if life.number:
            yield tick(life.first, GREEN, f"node {life.node} starts again")
        if life.stopped is not None:
            x = self.x(life.stopped)
            size = min(3.2, max(1.5, self.pitch * 0.4))
            cross = f"M{short(x - size)} {short(y - size)}l{short(2 * size)} {short(2 * size)}m0-{short(2 * size)}l-{short(2 * size)} {short(2 * size)}"
            yield element("path", tooltip(f"node {life.node} stops in slot {life.stopped}"), d=cross, stroke=RED, stroke_width=1.6, fill="none")

    def labels(self):
        every = 1 if self.nodes <= MOST_LABELLED else 8
        words = "the whole run: frames, and faults (red lost, orange partial, violet silent); of a node: red a failure found, green a start or another view, × a stop"
        yield text(self.left, self.top - 5, words, font_size=8, fill="#777")
        yield text(self.left - 8, self.load_end - 6, "bus", font_size=8.5, fill="#555", text_anchor="end")
        for node in range(0, self.nodes, every):
            yield text(self.left - 8, self.lane(node) + 3, f"node {node}", font_size=8.5, fill="#555", text_anchor="end")

    def axis(self):
        """The numbers of slots, at round places."""
        y = self.lanes_end + 4
        yield element("path", d=f"M{short(self.left)} {short(y)}H{short(self.right)}", stroke=GREY)
        step = next(step for power in range(9) for step in (10**power, 2 * 10**power, 5 * 10**power) if self.slots / step <= 10)
        for slot in range(0, self.slots + 1, step):
            yield element("path", d=f"M{short(self.x(slot))} {short(y)}v3", stroke=GREY)
            yield text(self.x(slot), y + 12, f"{slot:,}", font_size=8.5, fill="#555", text_anchor="middle")
