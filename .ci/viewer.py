"""tools/viewer.html in a headless Chromium: opens it, gives it stored reports, points, clicks and types, and compares what it says."""
import tempfile
from pathlib import Path

import browser
from readings import stored_bytes, stored_path

# The place of a slot and a node in the page's own coordinates; of no node, the head of the slot.
PLACE = """(() => {{
  const box = canvas.getBoundingClientRect(), rows = lanes(), at = rows.nodes.indexOf({node});
  return [box.x + xOf(placeOf({slot})) + state.scale / 2, box.y + rows.yOf(at)];
}})()"""


# Of a frame of class ed that was sent or accepted, of one that was rejected, and of one that a node read as idle.
GREEN, RED, WHITE = [0, 158, 115], [198, 40, 40], [255, 255, 255]


class Page:
    """The viewer, and what is asked of it."""

    def __init__(self, root, page, tally):
        self.root, self.page, self.tally = root, page, tally

    def says(self, what, selector, wanted):
        self.page.painted()
        found = self.page.text(selector)
        self.tally.check(found == wanted, f"the viewer, {what}: {selector} says {found!r}, and not {wanted!r}")

    def point(self, slot, node):
        self.page.painted()
        self.page.mouse("mouseMoved", *self.page.value(PLACE.format(slot=slot, node=node)))

    def has_colour(self, slot, node, wanted):
        """What stands in the middle of the mark of a node."""
        self.page.painted()
        place = PLACE.format(slot=slot, node=node)
        inside = f"(([x, y], box) => [...context.getImageData(x - box.x, y - box.y, 1, 1).data].slice(0, 3))({place}, canvas.getBoundingClientRect())"
        found = self.page.value(inside)
        self.tally.check(found == wanted, f"the viewer: the mark of node {node} in slot {slot} has the colour {found}, and not {wanted}")

    def click(self, slot, node):
        self.page.painted()
        self.page.click(*self.page.value(PLACE.format(slot=slot, node=node)))

    def opens(self, name):
        self.page.choose_file("#file", self.root / stored_path(self.root, f"{name}.report"))
        self.page.wait(f"document.querySelector('#name').textContent === '{name}.report'")


def check_reading(view):
    view.opens("edcan_sender_stops_after_partial")
    view.says("opened", "#summary", "3 nodes, 6 slots, 3 lines of the bus, 2 entries, bound 36, cycle 72; within the hypothesis")
    view.says("opened", "#problem", "")
    view.point(1, 1)
    view.says("pointing at node 1 in slot 1", "#lines", "bus 1 ed 0 0 x01 from 0 to 1 partial stop 0\nnode 1: deliver 1 ed 0 0 x01")
    view.point(3, 2)
    view.says("pointing at node 2 in slot 3", "#lines", "bus 3 ed 0 0 x01 from 2 to 1 clean")
    for slot, node, colour in ((1, 1, GREEN), (1, 2, RED), (2, 1, GREEN), (2, 2, GREEN)):
        view.has_colour(slot, node, colour)
    view.page.drop_file(400, 300, view.root / stored_path(view.root, "silent_omission_is_outside.report"))
    view.page.wait("document.querySelector('#name').textContent.startsWith('silent')")
    said = "3 nodes, 45 slots, 6 lines of the bus, 2 entries, bound 36, cycle 72; outside the hypothesis since slot 1 (silent)"
    view.says("a report was dropped on it", "#summary", said)


def check_choosing(view):
    """A click on a frame shows its message alone; so does one in the list."""
    view.opens("three_services")
    view.says("opened", "#count", "7 slots")
    view.click(2, 0)
    chosen = "message tot 0 0 open\n3 frames, delivered by 0-3\n\nbus 1 tot 0 0 xc001 from 0 to 1,2,3 clean\nnode 0: deliver 1 tot 0 0 xc001\n"
    chosen += "bus 2 accept 0 0 r from 0 to 1,2,3 clean\nnodes 1-3: deliver 2 tot 0 0 xc001\nbus 3 accept 0 0 r from 1,2,3 to 0 clean"
    view.says("a click on an accept frame", "#chosen", chosen)
    view.says("a click on an accept frame", "#count", "3 slots")
    view.page.key("Escape")
    view.says("all shown again", "#count", "7 slots")
    view.says("all shown again", "#chosen", "")
    view.page.click_on("#messages div.row:nth-of-type(3)")
    view.page.painted()
    view.tally.check(view.page.text("#chosen").startswith("message rel 1 0 settled\n2 frames, delivered by 0-3\n"), "the viewer: a click in the list shows another message")
    view.page.click_on("#clear")
    view.says("all shown again", "#count", "7 slots")


def check_filters(view):
    """Classes and nodes come and go, and with them the slots that have nothing else."""
    view.opens("restart_joins")
    view.says("opened", "#count", "13 slots")
    view.has_colour(145, 1, WHITE)
    view.page.click_on("#classes input[data-value='1']")
    view.says("without rha", "#count", "8 slots")
    view.page.click_on("#no-classes")
    view.says("without frames", "#count", "6 slots")
    view.page.click_on("#all-classes")
    view.says("with all frames", "#count", "19 slots")
    view.page.click_on("#no-nodes")
    view.page.click_on("#nodes input[data-value='1']")
    view.point(252, 1)
    view.says("node 1 alone", "#lines", "node 1: view 252 3 0,1,2")
    view.page.click_on("#compact")
    view.says("all slots", "#count", "253 slots")
    view.page.click_on("#compact")
    view.page.click_on("#all-nodes")


def check_jumps(view):
    """The next and the previous fault, delivery and view, by button and by key."""
    view.opens("restart_joins")
    view.page.click_on("[data-jump=fault][data-step='1']")
    view.says("the first fault", "#lines", "bus 5 idle stop 1")
    view.page.click_on("[data-jump=view][data-step='1']")
    view.says("the next view", "#lines", "nodes 0,2: view 108 1 0,1,2")
    view.page.key("v")
    view.says("the view after it", "#lines", "nodes 0,2: view 180 2 0,2")
    view.page.key("V", modifiers=8)
    view.says("the view before it", "#lines", "nodes 0,2: view 108 1 0,1,2")
    view.page.key("d")
    view.says("no delivery", "#lines", "no delivery after slot 108")
    view.page.value("(() => { const it = document.querySelector('#slot'); it.value = 191; it.dispatchEvent(new Event('change')); })()")
    view.says("a slot was given", "#lines", "bus 191 join 1/1 2 r from 1 to 0,2 clean")


def check_moving(view):
    """Keys, wheel and buttons move and zoom, and never past the ends."""
    view.page.click_on("#compact")
    view.page.click_on("#whole")
    view.page.painted()
    least = view.page.value("state.scale")
    view.page.key("-")
    view.page.painted()
    view.tally.check(view.page.value("state.scale") == least and view.page.value("state.left") == 0, "the viewer: the whole run is not the smallest scale")
    view.page.click_on("#in")
    view.page.painted()
    view.tally.check(view.page.value("state.scale") > least, "the viewer: + does not zoom")
    view.page.mouse("mouseWheel", 500, 400, deltaX=0, deltaY=120)
    view.page.painted()
    view.tally.check(view.page.value("state.left") > 0, "the viewer: the wheel does not move")
    view.page.key("End")
    view.page.painted()
    view.tally.check(view.page.value("Math.abs(state.left + room() / state.scale - places()) < 0.01"), "the viewer: End is not the end")
    view.page.key("Home")
    view.page.painted()
    view.tally.check(view.page.value("state.left") == 0, "the viewer: Home is not the start")
    view.page.click_on("#compact")


def check_all(view):
    """Every report of scenarios/ is read, and drawn near and far."""
    for file in sorted(view.root.glob("scenarios/**/*.report")):
        text = file.read_text(encoding="utf-8")
        if not text.startswith("canely report "):
            continue
        view.opens(file.stem)
        view.page.click_on("#whole")
        view.page.painted()
        count = sum(line.startswith("bus ") for line in text.splitlines())
        view.tally.check(f" {count} lines of the bus" in view.page.text("#summary"), f"the viewer reads another {file.name}")
        view.tally.check(view.page.value("context.getImageData(0, 0, canvas.width, canvas.height).data.some((it) => it)"), f"the viewer draws nothing of {file.name}")


BAD = [
    (b"", "line 1: the file is empty"),
    (b"storm 7\n", "line 1: this is not the first line of a report"),
    (b"refused not toml\n", "line 1: the program refused its input, and wrote no report: refused not toml"),
    (b"\xef\xbb\xbfcanely report 1\n", "line 1: this is not the first line of a report"),
    (b"canely check 1\n", "line 1: this is a verdict of canely check; canely replay writes the report of the same run"),
    (b"canely report 3\n", "line 1: the report is of format 3, and this viewer knows 1 and 2"),
]


def check_bad_inputs(view):
    """What is no report is said with its line, and what was shown stays."""
    good = stored_bytes(view.root, "one_message_no_fault.report")
    half = good[: good.index(b"node 1")]
    others = [(half, f"line {half.count(10) + 1}: the text ends before its line 'end'"), (good + b"more\n", f"line {good.count(10) + 1}: stands after the line 'end'")]
    others.append((good.replace(b"bus 2", b"bus 1"), "line 5: slot 1 does not come after slot 1"))
    others.append((good.replace(b"to 1,2", b"to 1,3"), "line 4: a node of 1,3 is not below 3"))
    with tempfile.TemporaryDirectory() as folder:
        for at, (text, said) in enumerate([*BAD, *others]):
            file = Path(folder, f"{at}.report")
            file.write_bytes(text)
            view.page.value("document.querySelector('#problem').textContent = ''")
            view.page.choose_file("#file", file)
            view.page.wait("document.querySelector('#problem').textContent !== ''")
            view.says("a bad report", "#problem", f"{file.name} is no report: {said}")


def check(root, tally):
    path = browser.found()
    if not path:
        print("viewer: no Chromium is here, so the viewer is not tried")
        return
    page = (root / "tools/viewer.html").read_text(encoding="utf-8")
    tally.check("http://" not in page and "https://" not in page and " src=" not in page, "the viewer names something outside of itself")
    with browser.Browser(path) as opened:
        opened.open(root / "tools/viewer.html")
        view = Page(root, opened, tally)
        for part in (check_reading, check_choosing, check_filters, check_jumps, check_moving, check_all, check_bad_inputs):
            part(view)
