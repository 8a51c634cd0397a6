"""Sweeps, shrinking and the texts of storms. What cuts off a sweep is tried with a program that stands in for the built one and answers by
the words of a text; verdicts are those of the built one, where there is one."""
import hashlib
import os
import re
import signal
import stat
import subprocess
import sys
import tempfile
import time
import xml.etree.ElementTree as ElementTree
from collections import Counter
from pathlib import Path

import program as programs
from lib import report as reports
from lib import scenario as scenarios
from lib import storm, verdict
from lib.report import Delivery, Failure, View
from readings import LIMIT, at_once, stored, stored_bytes, stored_path, tool

SWEEP, SHRINK, STORM = "sweep.py", "shrink.py", "storm_text.py"

# Replays whatever it is given as one scenario. Of a text it judges: a silent fault breaks the order, a partial one with a stop does within
# the hypothesis, a lost one is refused, anything else holds, but what has a payload is open. Each text that it has judged it notes.
STAND_IN = """#!{python}
import hashlib, sys, time
text = sys.stdin.buffer.read()
if sys.argv[1] == "replay":
    sys.stdout.buffer.write(open("{report}", "rb").read())
    sys.exit(0)
if not text:
    print("refused missing key format in top 0")
    sys.exit(3)
time.sleep(0.02)
with open("{log}", "a") as log:
    log.write(hashlib.sha256(text).hexdigest() + "\\n")
if b'"lost"' in text:
    print("refused not toml")
    sys.exit(3)
held = open("{held}").read()
broken = held.replace("order held", "order broken")
outside = broken.replace("hypothesis within", "hypothesis outside silent 1")
is_silent = b'"silent"' in text and b"reject" in text and b"[[send]]" in text
is_broken = b'"partial"' in text and b"stop" in text
is_open = b"data" in text and not (is_silent or is_broken)
sys.stdout.write(outside if is_silent else broken if is_broken else held.replace("signs held", "signs open") if is_open else held)
sys.exit(9 if is_silent or is_broken else 10 if is_open else 0)
"""
HELD = """canely check 1
hypothesis within
integrity held
agreement ed held all 0 none 0 apart 0 open 0
agreement rel held all 0 none 0 apart 0 open 0
agreement tot held all 0 none 0 apart 0 open 0
order held shortest 0 longest 0
views held numbers 0 apart 0
signs held all 0 none 0 apart 0 open 0
accuracy held
message ed 0 0 slot 0 all carried 1 2 delivered 1 1
unused send 0 stopped
unused fault 0 attempts 0
end
"""
LARGE = """format = 1
nodes = 5
slots = 90
bound = 200
[[send]]
slot = 20
node = 3
service = "tot"
data = "0102"
[[send]]
slot = 21
node = 3
service = "ed"
[[fault]]
class = "ed"
number = 1
node = 3
nth = 2
verdict = "silent"
reject = [0, 2, 4]
stop = [2]
[[fault]]
slot = 7
stop = [2]
[[leave]]
slot = 3
node = 4
"""
# The smallest by the words of the stand-in: a send and the fault, whose number follows from the sends that are left.
SMALL = """format = 1
nodes = 2
slots = 1

[[send]]
slot = 0
node = 0
service = "ed"

[[fault]]
class = "ed"
number = 0
node = 0
nth = 1
verdict = "silent"
reject = [0]
"""

# Node 2 only rejects, which node 1 can do.
THREE_NODES = """format = 1
nodes = 3
slots = 6
[[send]]
slot = 0
node = 0
service = "tot"
[[send]]
slot = 0
node = 1
service = "tot"
[[fault]]
slot = 1
verdict = "silent"
reject = [2]
"""


class StandIn:
    def __init__(self, root, folder):
        self.path, self.log, held = folder / "canely", folder / "log", folder / "held"
        held.write_text(HELD)
        self.log.write_text("")
        report = root / stored_path(root, "one_message_no_fault.report")
        self.path.write_text(STAND_IN.format(python=sys.executable, report=report, log=self.log, held=held))
        self.path.chmod(self.path.stat().st_mode | stat.S_IXUSR)

    def judged(self):
        return Counter(self.log.read_text().split())


def all_cases(folder, suffix):
    return sorted(folder.glob(f"*/*{suffix}"))


def all_done(folder):
    return [it for it in all_cases(folder, ".status") if it.stat().st_size]


def cut_off(root, stand_in, folder, end):
    """Starts a run, ends it by a signal after five more cases, and returns its status and what it said."""
    words = [sys.executable, root / "tools" / SWEEP, "run", folder, "--program", stand_in.path, "--jobs", "2"]
    wanted, limit = len(all_done(folder)) + 5, time.monotonic() + LIMIT
    with tempfile.TemporaryFile() as said:
        # a shell lets what runs in its background ignore interrupts
        heed = lambda: signal.signal(signal.SIGINT, signal.default_int_handler)
        running = subprocess.Popen(words, stdout=subprocess.DEVNULL, stderr=said, preexec_fn=heed)
        while len(all_done(folder)) < wanted and time.monotonic() < limit:
            time.sleep(0.01)
        os.kill(running.pid, end)
        status = running.wait()
        said.seek(0)
        lines = said.read().decode()
    # the workers of one that was killed end with the case that they are at
    before = -1
    while before != len(all_done(folder)):
        before = len(all_done(folder))
        time.sleep(0.5)
    return status, lines


def check_cut_off(root, tally, stand_in, folder):
    """A run that is interrupted or killed is gone on with: what was done is not done again, and nothing is left out."""
    status, said = cut_off(root, stand_in, folder, signal.SIGINT)
    wanted = re.fullmatch(r"\d+ of 20 cases, .*\nsweep\.py: interrupted; \d+ cases were run, and the same command goes on\n", said)
    tally.check(status == 130 and wanted, f"sweep.py run, interrupted, ends with {status} and says {said!r}")
    tally.check(cut_off(root, stand_in, folder, signal.SIGKILL)[0] == -signal.SIGKILL, "sweep.py run ended before it was killed")
    cases, before = all_cases(folder, ".toml"), all_done(folder)
    tally.check(10 <= len(before) < len(cases), f"sweep.py run was not cut off in the middle: {len(before)} of {len(cases)} cases were done")
    tally.check(tool(root, SWEEP, "sum", str(folder))[0] in (3, 9), "sweep.py sum of what was refused or broken ends as if nothing were")
    done = [hashlib.sha256(it.with_suffix(".toml").read_bytes()).hexdigest() for it in before]
    again = ["run", str(folder), "--program", str(stand_in.path), "--jobs", "2"]
    # two at once, one of them at a part that the other does too
    ended = [it for _, it in at_once([["--part", "0/2"], []], lambda *part: tool(root, SWEEP, *again, *part))]
    tally.check([it[0] for it in ended] == [0, 0], f"sweep.py run, gone on with, ends with {ended}")
    tally.check(ended[1][2].startswith("20 of 20 cases, ") and ended[1][2].endswith(" 12 broken, 4 ended otherwise\n"), f"sweep.py run says at its end {ended[1][2]!r}")
    judged = stand_in.judged()
    tally.check(all(judged[it] == 1 for it in done), "sweep.py run judged a case again that was done")
    tally.check(len(all_done(folder)) == len(cases) == len(judged), "sweep.py run left out a case")
    tally.check(judged.total() == len(cases), f"two runs at once judged {judged.total()} times, {len(cases)} cases")


def check_sweep(root, tally, stand_in, folder):
    made = tool(root, SWEEP, "faults", stored_path(root, "one_message_no_fault.toml"), str(folder), "--program", str(stand_in.path), "--reject", "all")
    tally.check(made == (0, f"20 cases in {folder}\n".encode(), ""), f"sweep.py faults makes {made}, and not 20 cases")
    check_cut_off(root, tally, stand_in, folder)
    ended, wrote, said = tool(root, SWEEP, "sum", str(folder))
    lines = wrote.decode().splitlines()
    wanted = ["cases 20 judged 16 otherwise 4 left 0", "unused given 16 in 16 cases", "unused made 16 in 16 cases", "unused given send stopped 16"]
    wanted += ["unused made fault attempts 16", "hypothesis within 8 silent 8 omit 0 errors 0"]
    wanted += ["order                4       0       4         0       0       8  000/000003"]
    wanted += ["signs                4       4       0         8       0       0", "run                  0       4       4         0       0       8"]
    tally.check(set(wanted) <= set(lines), f"sweep.py sum writes {lines}, without {set(wanted) - set(lines)}")
    tally.check((ended, said) == (9, ""), f"sweep.py sum ends with {ended}, and not with 9, of a case that is broken within the hypothesis")
    found = ElementTree.fromstring(tool(root, SWEEP, "sum", str(folder), "--junit")[1])[0]
    counts = {name: found.get(name) for name in ("tests", "failures", "errors", "skipped")}
    tally.check(counts == {"tests": "20", "failures": "4", "errors": "4", "skipped": "0"}, f"the JUnit XML counts {counts}")
    kinds = Counter(it.tag for case in found for it in case)
    tally.check(len(found) == 20 and kinds == {"failure": 4, "error": 4}, f"the JUnit XML has {kinds} in {len(found)} cases")


def check_damaged(root, tally, stand_in, folder):
    """Sums of cases that are left or that ended otherwise, and a case that went away."""
    words = ["--program", str(stand_in.path)]
    tool(root, SWEEP, "faults", stored_path(root, "one_message_no_fault.toml"), str(folder), *words, "--verdicts", "silent", "--stop", "none")
    left = tool(root, SWEEP, "sum", str(folder))
    tally.check(left[0] == 10 and left[1].startswith(b"cases 3 judged 0 otherwise 0 left 3\n") and not left[2], f"sweep.py sum of what is not judged: {left}")
    tool(root, SWEEP, "run", str(folder), *words)
    tally.check(tool(root, SWEEP, "sum", str(folder))[0] == 0, "sweep.py sum of runs outside the hypothesis does not end with 0")
    first, second, third = all_cases(folder, ".check")
    first.write_bytes(b"")
    first.with_suffix(".status").write_text("5 canely: cannot write\n")
    second.write_bytes(b"")
    tally.check(tool(root, SWEEP, "sum", str(folder))[0] == 3, "sweep.py sum does not end with 3 where a case could not be written")
    tool(root, SWEEP, "run", str(folder), *words)
    tally.check(tool(root, SWEEP, "sum", str(folder))[0] == 0, "sweep.py run does not try again a case that could not be written, or whose text is gone")
    first.write_bytes(first.read_bytes()[:-9])
    second.write_bytes(HELD.encode())
    third.with_suffix(".status").unlink()
    third.with_suffix(".toml").unlink()
    ended, wrote, said = tool(root, SWEEP, "sum", str(folder))
    wanted = [
        "cases 3 judged 0 otherwise 2 left 1",
        "otherwise 000/000000 its text of check: line 13: is cut off",
        "otherwise 000/000001 status 9, and its text is that of 0",
    ]
    tally.check(wrote.decode().splitlines()[:3] == wanted, f"sweep.py sum of a damaged folder writes {wrote.decode()}")
    tally.check((ended, said) == (3, "sweep.py: 2 cases ended otherwise than judged\n"), f"sweep.py sum of a damaged folder ends with {ended}, {said!r}")
    ended, _, said = tool(root, SWEEP, "run", str(folder), *words)
    wanted = f"sweep.py: cannot go on: {third.with_suffix('.toml')}: no such file or directory; the same command does, where it was"
    tally.check(ended == 5 and said.splitlines()[-1] == wanted and said.count("\n") == 2, f"sweep.py run without a case ends with {ended}, {said!r}")


def check_journal(root, tally, stand_in, folder):
    """Of a scenario with a journal it is said that cases can be refused."""
    text = 'journal = ["."]\n' + SMALL
    found = tool(root, SWEEP, "faults", "-", str(folder), "--program", str(stand_in.path), stdin=text.encode())
    said = f" cases in {folder}\nthe scenario has a journal: a case whose run it does not fit is refused\n"
    tally.check(found[0] == 0 and found[1].decode().endswith(said), f"sweep.py faults of a scenario with a journal: {found}")


def check_seeds(root, tally, folder):
    """Scenarios drawn from numbers: the same again from the same number, and of the shapes that were given."""
    calls = [("a", "0", "30"), ("b", "10", "5")]
    words = ["--nodes", "3-4", "--slots", "50", "--faults", "2-3", "--restarts", "0-1"]
    found = at_once(calls, lambda name, first, count: tool(root, SWEEP, "seeds", str(folder / name), "--first", first, "--count", count, *words))
    tally.check(all(it[0] == 0 for _, it in found), f"sweep.py seeds ends with {found}")
    first, second = (all_cases(folder / name, ".toml") for name in "ab")
    tally.check([it.read_bytes() for it in first[10:15]] == [it.read_bytes() for it in second], "a number gives another scenario the second time")
    texts = [scenarios.read_scenario(it.read_bytes(), it) for it in first]
    shapes = all(it["nodes"] in (3, 4) and it["slots"] == 50 and len(it.get("fault", [])) <= 3 for it in texts)
    tally.check(shapes and len({it.read_bytes() for it in first}) == 30, "sweep.py seeds draws other shapes, or the same scenario twice")


def check_shrink(root, tally, stand_in, folder):
    ended, wrote, said = tool(root, SHRINK, "--program", str(stand_in.path), stdin=LARGE.encode())
    text = "".join(line for line in wrote.decode().splitlines(True) if not line.startswith("#"))
    tally.check((ended, text, said) == (0, SMALL, ""), f"shrink.py ends with {ended}, says {said!r}, and writes {text}")
    first = wrote.decode().partition("\n")[0]
    tally.check(re.fullmatch(r"# order is broken, hypothesis outside silent 1; \d+ runs made this of 5 nodes, 90 slots, 2 send, 2 fault, 1 leave", first), f"shrink.py says {first}")


def check_words(tally):
    """The first words of the generator at the state and stream of its authors' example."""
    words = storm.Words(42, 54)
    found = [words.next() for _ in range(6)]
    tally.check(found == [0xA15C02B7, 0x7B47F409, 0xBA1D3330, 0x83D2F293, 0xBFA4784B, 0xCBED606E], f"the generator's words are {found}")


def summary(number, report):
    """The lines of `canely storm NUMBER`, from the report of its scenario."""
    verdicts = Counter(slot.verdict for slot in report.bus if slot.frame)
    kinds = Counter(type(entry) for lives in report.nodes for life in lives for entry in life.log)
    settled = sum(it.settled for it in report.messages)
    outside = report.first_break
    yield f"storm {number}"
    yield f"frames {sum(verdicts.values())} lost {verdicts['lost']} partial {verdicts['partial']} silent {verdicts['silent']}"
    yield f"deliveries {kinds[Delivery]} failures {kinds[Failure]} views {kinds[View]}"
    yield f"settled {settled} open {len(report.messages) - settled}"
    yield f"hypothesis outside {outside.kind} {outside.slot}" if outside else "hypothesis within"
    yield "end"


def check_storms(root, tally, program):
    # the sets of those that reject show in the counts of 6 and 9
    for number in (0, 6, 9, 4_294_967_295):
        status, text, said = tool(root, STORM, str(number))
        replayed = programs.call(program, ["replay"], text)
        wanted = programs.call(program, ["storm", str(number)])[1].decode()
        if tally.check(status == replayed[0] == 0, f"the text of storm {number}: {said} {replayed[1][:100]}"):
            found = "".join(f"{line}\n" for line in summary(number, reports.read_report(replayed[1])))
            tally.check(found == wanted, f"the text of storm {number} gives another summary: {found}")


def check_verdicts(root, tally, program):
    """What `canely check` writes of each stored scenario is read whole; of those that are stored as texts it is that text."""
    for name in stored(root):
        status, text, _ = programs.call(program, ["check"], stored_bytes(root, f"{name}.toml"))
        check = verdict.read_check(text)
        tally.check(check.status == status, f"canely check of {name} ends with {status}, and its text is that of {check.status}")
        tally.check(len(list(verdict.facts(check))) == text.count(b"\n"), f"canely check of {name}: its lines are read wrong")
        head = verdict.read_outline(text)
        same = (head.first_break, head.parts, head.unused) == (check.first_break, check.parts, check.unused)
        tally.check(same, f"canely check of {name}: a sweep reads it in another way")
        file = root / f"tools/expected/{name}.check"
        tally.check(not file.is_file() or text == file.read_bytes(), f"canely check of {name} writes not tools/expected/{name}.check")


def check_with_program(root, tally, program, folder):
    """A sweep of a scenario, judged by the program; one case of it is shrunk."""
    words = ["--program", str(program)]
    shape = ["--class", "tot,accept", "--verdicts", "partial,silent", "--faults", "2", "--sample", "12", "--seed", "3"]
    made = tool(root, SWEEP, "faults", stored_path(root, "totcan_accept_survives_its_sender.toml"), str(folder), *words, *shape)
    tally.check(made[:2] == (0, f"12 cases in {folder}\n".encode()), f"sweep.py faults with two faults: {made}")
    tool(root, SWEEP, "run", str(folder), *words)
    status, wrote, _ = tool(root, SWEEP, "sum", str(folder))
    tally.check(status == 0 and wrote.startswith(b"cases 12 judged 12 otherwise 0 left 0\n"), f"sweep.py sum: {status} {wrote.decode()}")
    text = stored_bytes(root, "silent_omission_is_outside.toml")
    ended, wrote, said = tool(root, SHRINK, *words, "--part", "agreement tot", stdin=text)
    lines = wrote.decode().splitlines()
    is_small = ended == 0 and "nodes = 2" in lines and lines.count("[[send]]") == lines.count("[[fault]]") == 1
    tally.check(is_small, f"shrink.py with {program.name}: {ended} {said} {lines}")
    ended, wrote, said = tool(root, SHRINK, *words, stdin=THREE_NODES.encode())
    lines = wrote.decode().splitlines()
    tally.check(ended == 0 and {"nodes = 2", "slots = 4", "reject = [1]"} <= set(lines), f"shrink.py leaves a node that only rejects: {said} {lines}")


def ends(root, stand_in, folder):
    """Wrong words and inputs: the words, the input, the status, and the line that is said."""
    program = ["--program", str(stand_in.path)]
    yield [SWEEP], "", 2, "sweep.py: the following arguments are required: COMMAND; see sweep.py --help"
    yield [SWEEP, "faults", "nowhere", f"{folder}/new", *program], "", 4, "sweep.py: cannot read nowhere: no such file or directory"
    yield [SWEEP, "faults", "-", str(folder), *program], SMALL, 2, f"sweep.py: {folder} is not empty"
    yield [SWEEP, "seeds", str(folder), "--count", "1"], "", 2, f"sweep.py: {folder} is not empty"
    wanted = "sweep.py seeds: argument --nodes: '4-3' is no number or range from 2 to 64; see sweep.py seeds --help"
    yield [SWEEP, "seeds", f"{folder}/new", "--nodes", "4-3"], "", 2, wanted
    yield [SWEEP, "run", f"{folder}/nowhere", *program], "", 4, f"sweep.py: {folder}/nowhere is no folder of cases, or was not made to its end"
    yield [SWEEP, "run", str(folder), "--program", "no-such-program"], "", 2, "sweep.py: there is no program 'no-such-program' here"
    wanted = "sweep.py run: argument --part: '4/4' is no part as 0/4 is, the first of four; see sweep.py run --help"
    yield [SWEEP, "run", str(folder), "--part", "4/4"], "", 2, wanted
    yield [SWEEP, "sum", "scenarios"], "", 4, "sweep.py: scenarios is no folder of cases, or was not made to its end"
    yield [SHRINK, *program], SMALL.replace("silent", "clean"), 3, "shrink.py: standard input: nothing is broken"
    yield [SHRINK, *program, "--part", "views"], SMALL, 3, "shrink.py: standard input: views is not broken, but order"
    yield [SHRINK, *program], SMALL.replace("silent", "lost"), 3, "shrink.py: standard input: refused not toml"
    yield [SHRINK, "--program", "no-such-program"], SMALL, 2, "shrink.py: there is no program 'no-such-program' here"
    yield [SHRINK, "--program", "echo no"], SMALL, 2, "shrink.py: echo no has no command check: no check"
    yield [SHRINK, "--program", "'"], SMALL, 2, """shrink.py: "'" is no command: no closing quotation"""
    yield [SWEEP, "run", str(folder), "--program", "false"], "", 2, "sweep.py: false has no command check"
    yield [SWEEP, "faults", "-", f"{folder}/new", *program], "nodes = ", 3, "sweep.py: standard input: is no scenario: Invalid value (at end of document)"
    yield [STORM, "4294967296"], "", 2, "storm_text.py: argument NUMBER: '4294967296' is no number from 0 to 4294967295; see storm_text.py --help"
    other = stored_path(root, "three_services.toml")
    yield [SWEEP, "faults", other, f"{folder}/new", "--sample", "0"], "", 2, f"{SWEEP} faults: argument --sample: '0' is no number from 1 to 1000000; see {SWEEP} faults --help"


def check_ends(root, tally, stand_in, folder):
    calls = list(ends(root, stand_in, folder))
    found = at_once(calls, lambda words, stdin, *_: tool(root, *words, stdin=stdin.encode()))
    for (words, _, status, line), (ended, wrote, said) in found:
        is_wanted = (ended, wrote, said) == (status, b"", f"{line}\n")
        tally.check(is_wanted, f"{' '.join(words)} ends with {ended} and says {said!r}, and not with {status} and {line!r}")


def check(root, tally, built):
    check_words(tally)
    with tempfile.TemporaryDirectory() as folder:
        folder = Path(folder)
        stand_in = StandIn(root, folder)
        check_sweep(root, tally, stand_in, folder / "faults")
        check_damaged(root, tally, stand_in, folder / "damaged")
        check_journal(root, tally, stand_in, folder / "journal")
        check_seeds(root, tally, folder / "seeds")
        check_shrink(root, tally, stand_in, folder)
        check_ends(root, tally, stand_in, folder / "faults")
        for program in built:
            check_storms(root, tally, program)
            check_verdicts(root, tally, program)
            check_with_program(root, tally, program, folder / f"sweep-{program.name}")
