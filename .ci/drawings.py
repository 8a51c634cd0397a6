"""Charts and pictures: those that are stored are made again, and each of every report is whole and keeps its width."""
import contextlib
import os
import re
import shlex
import shutil
import subprocess
import tempfile
import xml.etree.ElementTree as ElementTree
from pathlib import Path

import pictures
from lib import chart, columns, picture
from lib import report as reports
from lib.columns import MOST_SLOT
from readings import LIMIT, at_once, stored, stored_path, tool

# By the name of a file of tools/expected: the script and its arguments that write it.
EXPECTED = {
    "edcan_sender_stops_after_partial.chart": "draw.py scenarios/edcan/edcan_sender_stops_after_partial.report --width 80",
    "edcan_sender_stops_after_partial.narrow.chart": "draw.py scenarios/edcan/edcan_sender_stops_after_partial.report --width 40",
    "restart_joins.chart": "draw.py scenarios/restarts/restart_joins.report --width 90",
    "restart_joins.part.chart": "draw.py scenarios/restarts/restart_joins.report --all --from 70 --to 120 --title 'A part' --width 60",
    "a_restart_between_two_copies.chart": "draw.py scenarios/restarts/a_restart_between_two_copies.report --width 80",
    "thirty_two_nodes.chart": "draw.py scenarios/first/thirty_two_nodes.report --width 72",
    "thirty_two_nodes.narrow.chart": "draw.py scenarios/first/thirty_two_nodes.report --width 44",
    "silent_omission_is_outside.chart": "draw.py scenarios/totcan/silent_omission_is_outside.report --check tools/expected/silent_omission_is_outside.check --width 72",
    "restart_joins.log": "buslog.py scenarios/restarts/restart_joins.report",
    "edcan_sender_stops_after_partial.nodes.log": "buslog.py scenarios/edcan/edcan_sender_stops_after_partial.report --nodes --direction",
    "three_services.asc": "buslog.py scenarios/first/three_services.report --asc --bitrate 250000",
    "one_message_no_fault.jsonl": "report.py scenarios/first/one_message_no_fault.report",
    "three_services.numbers": "measure.py scenarios/first/three_services.report --scenario scenarios/first/three_services.toml",
    "restart_joins.numbers": "measure.py scenarios/restarts/restart_joins.report --bitrate 500000 --window 50",
    "silent_omission_is_outside.numbers": "measure.py scenarios/totcan/silent_omission_is_outside.report --check tools/expected/silent_omission_is_outside.check",
    "twelve_nodes.params": "params.py --nodes 12",
    "lag.params": "params.py --nodes 3 --lag 1 --omit 2 --cycle 240ms --bitrate 125000",
    "forty_nodes.params": "params.py --nodes 40 --silence 30000 --toml",
}
# The scripts whose examples in the page call the program.
WITH_PROGRAM = ("tools/sweep.py", "tools/shrink.py")
WIDTHS = (40, 57, 80, 132)
SVG = "{http://www.w3.org/2000/svg}"
MOST_PICTURE_BYTES = 100_000


def made(root, command):
    name, *arguments = shlex.split(re.sub(r"scenarios/(\S+)", lambda it: stored_path(root, it[1]), command))
    return tool(root, name, *arguments)


def keep(root):
    for file, command in EXPECTED.items():
        status, text, said = made(root, command)
        print(f"{file}: status {status} {said}".rstrip())
        (root / "tools/expected" / file).write_bytes(text)


def check_expected(root, tally):
    for (file, command), found in at_once(list(EXPECTED.items()), lambda file, command: made(root, command)):
        stored_text = root / "tools/expected" / file
        if tally.check(stored_text.is_file(), f"tools/expected has no {file}"):
            tally.check(found == (0, stored_text.read_bytes(), ""), f"tools/{command} writes not tools/expected/{file}: {found[0]} {found[2]}")
    texts = {it.name for it in root.glob("tools/expected/*") if it.suffix != ".check"}
    tally.check(texts <= set(EXPECTED), f"tools/expected has what nothing makes: {', '.join(texts - set(EXPECTED))}")


def check_charts(root, tally):
    """A chart of each report, at each width: no line is longer, and each slot with something in it has its line."""
    for name, text in stored(root).items():
        report = reports.read_report(text)
        shown = columns.columns(report, 0, MOST_SLOT, True)
        for width in WIDTHS:
            lines = list(chart.chart(report, shown, None, "", width))
            longest = max(map(len, lines))
            tally.check(longest <= width, f"the chart of {name} at width {width} has a line of {longest}")
            slots = [int(found[1]) for found in (re.match(r" *([0-9]+)  \S", line) for line in lines) if found]
            tally.check(slots == [it.slot for it in shown], f"the chart of {name} at width {width} has other slots")


def check_picture(name, text, shown, tally):
    """A page is well formed, has each slot that it should, and no mark outside."""
    page = ElementTree.fromstring(text)
    tally.check(page.tag == f"{SVG}svg", f"{name}: is no SVG")
    words = [it.text for it in page.iter(f"{SVG}text")]
    missing = [it.slot for it in shown if str(it.slot) not in words]
    tally.check(not missing, f"{name}: has no slots {missing[:5]}")
    width, height = float(page.get("width")), float(page.get("height"))
    outside = [it for it in page.iter(f"{SVG}text") if not (0 <= float(it.get("x", 0)) <= width and 0 <= float(it.get("y", 0)) <= height)]
    tally.check(not outside, f"{name}: {len(outside)} words stand outside")
    tally.check(not any(it.tag.endswith(("script", "image")) for it in page.iter()), f"{name}: has more than shapes and words")


def check_pictures(root, tally):
    for name, text in stored(root).items():
        report = reports.read_report(text)
        shown = columns.columns(report, 0, MOST_SLOT, False)
        for each in (False, True):
            page = "\n".join(picture.picture(report, shown, None, "<&>", 1000, each))
            check_picture(f"the picture of {name}", page, shown, tally)
    for name in pictures.TITLES:
        file = root / f"docs/pictures/{name}.svg"
        if tally.check(file.is_file(), f"docs/pictures has no {name}.svg: tools/pictures.py makes it"):
            tally.check(file.read_text(encoding="utf-8") == pictures.drawn(name), f"{file.name} is not what tools/pictures.py draws")
            tally.check(file.stat().st_size <= MOST_PICTURE_BYTES, f"{file.name} is too large")
    others = {it.stem for it in root.glob("docs/pictures/*")} - set(pictures.TITLES)
    tally.check(not others, f"docs/pictures has what nothing makes: {', '.join(others)}")


def check_folder(root, tally):
    """tools/pictures.py makes the folder that it is given."""
    with tempfile.TemporaryDirectory() as place:
        folder = Path(place, "new", "pictures")
        found = tool(root, "pictures.py", str(folder))
        tally.check(found == (0, b"", ""), f"pictures.py with a new folder: {found}")
        tally.check({it.stem for it in folder.glob("*.svg")} == set(pictures.TITLES), "pictures.py does not draw all pictures into a new folder")


# What is not of one run, or of no slot of it: the words, the status and the line that is said.
CHECK = "tools/expected/silent_omission_is_outside.check"
REFUSED = [
    (f"draw.py scenarios/first/one_message_no_fault.report --check {CHECK}", 3, f"{CHECK}: its format or its hypothesis is not that of the report"),
    ("draw.py scenarios/first/three_services.report --check {nothing}", 3, "{nothing}: its messages are not those of the report"),
    ("draw.py scenarios/first/nothing_sent.report --check {nothing}", 0, None),
    (f"measure.py scenarios/first/one_message_no_fault.report --check {CHECK}", 3, f"{CHECK}: its format or its hypothesis is not that of the report"),
    ("measure.py scenarios/first/three_services.report --check {nothing}", 3, "{nothing}: its messages are not those of the report"),
    ("measure.py scenarios/restarts/restart_joins.report --scenario scenarios/first/three_services.toml", 3, "scenarios/first/three_services.toml: nodes is 4, and 3 in the report"),
    ("measure.py scenarios/restarts/restart_joins.report --scenario {none}", 3, "{none}: its messages are not those of the report"),
    ("draw.py scenarios/restarts/restart_joins.report --from 20 --to 10", 2, "--from 20 comes after --to 10"),
    ("draw.py scenarios/restarts/restart_joins.report --from 253", 2, "--from 253 comes after the run, which has 253 slots"),
]
# The verdict on a run in which nothing was sent, and a scenario that has a message more than a report.
NOTHING = """canely check 1
hypothesis within
integrity held
agreement ed held all 0 none 0 apart 0 open 0
agreement rel held all 0 none 0 apart 0 open 0
agreement tot held all 0 none 0 apart 0 open 0
order held shortest 0 longest 0
views held numbers 0 apart 0
signs held all 0 none 0 apart 0 open 0
accuracy held
end
"""
NONE = 'format = 1\nnodes = 3\nslots = 253\n[[send]]\nslot = 0\nnode = 0\nservice = "ed"\n'


def check_refused(root, tally):
    with tempfile.TemporaryDirectory() as place:
        files = {"nothing": Path(place, "nothing.check"), "none": Path(place, "none.toml")}
        files["nothing"].write_text(NOTHING)
        files["none"].write_text(NONE)
        calls = [(words.format(**files), status, line and line.format(**files)) for words, status, line in REFUSED]
        for (words, status, line), (ended, _, said) in at_once(calls, lambda words, *_: made(root, words)):
            line = line and re.sub(r"scenarios/([^ :]+)", lambda it: stored_path(root, it[1]), line)
            wanted = f"{words.split()[0]}: {line}\n" if line else ""
            tally.check((ended, said) == (status, wanted), f"{words} ends with {ended} and says {said!r}, and not with {status} and {wanted!r}")


@contextlib.contextmanager
def on_the_path(built):
    """The environment in which `canely` is the built program."""
    with tempfile.TemporaryDirectory() as folder:
        for program in built:
            Path(folder, "canely").symlink_to(program)
        yield {**os.environ, "PATH": f"{folder}{os.pathsep}{os.environ['PATH']}"}


def check_page(root, tally, built):
    """The commands that docs/tools.md shows write what stands below them. What they write in /tmp goes elsewhere."""
    page = (root / "docs/tools.md").read_text(encoding="utf-8")
    found = re.findall(r"(?m)^```\n\$ (\S+)( .*)\n((?:.*\n)*?)```", page)
    tally.check(len(found) > 3, "docs/tools.md shows no commands with what they write")
    with on_the_path(built) as environment, tempfile.TemporaryDirectory() as folder:
        for name, words, text in found:
            is_here = "/" in name or shutil.which(name, path=environment["PATH"])
            if not is_here or name in WITH_PROGRAM and not built:
                print(f"drawing: the example of {name} in docs/tools.md needs what is not here, and is not tried")
                continue
            line = (name + words).replace("/tmp/", f"{folder}/")
            ran = subprocess.run(["bash", "-c", line], cwd=root, env=environment, stdin=subprocess.DEVNULL, stdout=subprocess.PIPE, stderr=subprocess.PIPE, timeout=LIMIT)
            wrote = ran.stdout.decode().replace(f"{folder}/", "/tmp/")
            tally.check(wrote == text, f"docs/tools.md: {name}{words} writes something else: {wrote[-300:]} {ran.stderr.decode()[-300:]}")


def check(root, tally, built):
    check_expected(root, tally)
    check_charts(root, tally)
    check_pictures(root, tally)
    check_folder(root, tally)
    check_refused(root, tally)
    check_page(root, tally, built)
