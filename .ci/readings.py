"""The scripts of tools/ read each report exactly, and end at what is none with one line and a status."""
import json
import os
import subprocess
import sys
from concurrent.futures import ThreadPoolExecutor

from lib import report as reports
from lib import verdict
from lib.lines import Malformed

LIMIT = 240
REPORT, DRAW, BUSLOG = "report.py", "draw.py", "buslog.py"


def tool(root, name, *arguments, stdin=b"", stdout=subprocess.PIPE):
    """The status of a script of tools/, what it wrote, and what it said on standard error."""
    given = {"input": stdin} if isinstance(stdin, bytes) else {"stdin": stdin}
    ran = subprocess.run([sys.executable, root / "tools" / name, *arguments], **given, stdout=stdout, stderr=subprocess.PIPE, cwd=root, timeout=LIMIT)
    return ran.returncode, ran.stdout or b"", ran.stderr.decode(errors="replace")


def at_once(calls, work):
    """Each call with what came of it; several are made at a time."""
    with ThreadPoolExecutor(4) as pool:
        return list(zip(calls, pool.map(lambda call: work(*call), calls)))


def stored_path(root, name):
    """The path of a file of scenarios/, in whichever folder there, from the top."""
    (found,) = root.glob(f"scenarios/**/{name}")
    return str(found.relative_to(root))


def stored_bytes(root, name):
    return (root / stored_path(root, name)).read_bytes()


def stored(root):
    """The reports of scenarios/, by name, without the refusals and what other commands write."""
    texts = {it.stem: it.read_bytes() for it in sorted(root.glob("scenarios/**/*.report"))}
    return {name: text for name, text in texts.items() if text.startswith(b"canely report ")}


def check_round(root, tally):
    """What was read of a report has all of it: written again it is the same text, and each line is an object of JSON."""
    texts = stored(root)
    tally.check(texts, "scenarios/ has no report")
    for name, text in texts.items():
        report = reports.read_report(text)
        again = "".join(f"{line}\n" for line in report.lines()).encode()
        tally.check(again == text, f"scenarios/{name}.report, read and written again, is another")
        found = [json.loads(json.dumps(it)) for it in reports.facts(report)]
        words = {"failed": "failure", "deliver": "delivery"}
        first = [line.split(" ")[0] for line in text.decode().splitlines()]
        wanted = ["report"] + [words.get(it, it) for it in first[1:]]
        tally.check([it["type"] for it in found] == wanted, f"scenarios/{name}.report: its objects of JSON are not those of its lines")


def check_verdict(root, tally):
    """The text of check, of which tools/expected has one of each kind of line."""
    for file in sorted(root.glob("tools/expected/*.check")):
        text = file.read_bytes()
        found = verdict.read_check(text)
        count = len(list(verdict.facts(found)))
        tally.check(count == text.count(b"\n"), f"{file.name}: {count} objects of JSON for its lines")
        head = verdict.read_outline(text)
        same = (head.format, head.first_break, head.parts, head.unused) == (found.format, found.first_break, found.parts, found.unused)
        tally.check(same, f"{file.name}: a sweep reads it in another way")
    every = verdict.read_check((root / "tools/expected/every_line.check").read_bytes())
    fates = [it.fate.word for it in every.messages]
    tally.check(fates == ["all", "apart", "none", "open", "open"], f"every_line.check: its messages are {fates}")
    tally.check(every.messages[1].fate.lacks == (2, 3) and every.messages[3].fate.by == 60, "every_line.check: its fates are read wrong")
    tally.check(every.parting.there == (1, 0, 5) and every.views[0].others == (0, 1, 2), "every_line.check: its partings are read wrong")
    tally.check(every.wrong_entry == (1, 2) and every.accusations[0].by == (0, 1), "every_line.check: its accusations are read wrong")
    tally.check([it.table for it in every.unused] == "send send fault fault fault fault fault join leave restart".split(), "every_line.check: its unused entries")


# Lines that replace one of a report, the first that begins with the word, and what is then said.
SPOILED = [
    ("canely", "canely report 3", "line 1: the report is of format 3, and this tool knows 1 and 2"),
    ("canely", "storm 7", "line 1: 'storm 7' is not the first line of a report"),
    ("canely", "refused bad journal at 2", "line 1: the program refused its input, and wrote no report: 'refused bad journal at 2'"),
    ("params", "params nodes 3", "line 2: 'params nodes 3' is not of the form 'params nodes N lag N ... slots N'"),
    ("bus", "bus 1 ed 0 0 x01 from 0 to 9 clean", "line 4: node 9 is not below 3"),
    ("bus", "bus 1 ed 0 0 x01 from 0 to 2,1 clean", "line 4: the nodes of '2,1' do not ascend"),
    ("bus", "bus 1 ed 0 0 r from 0 to 1,2 clean", "line 4: ed frames are data frames"),
    ("bus", "bus 1 accept 0 0 x01 from 0 to 1,2 clean", "line 4: accept frames are remote frames"),
    ("bus", "bus 1 ed 0/1 0 x01 from 0 to 1,2 clean", "line 4: ed frames tell no incarnation"),
    ("bus", "bus 3 ed 0 0 x01 from 0 to 1,2 clean", "line 5: slot 2 does not come after slot 3"),
    ("bus", "bus 1 ed 0 0 x01 from 0 to 1 clean stop 1", "line 5: a node takes part that has stopped, or in two ways"),
    ("hypothesis", "hypothesis perhaps", "line 6: 'hypothesis perhaps' is not of the form 'hypothesis within' or 'hypothesis outside KIND SLOT'"),
    ("node", "node 1 correct read 5", "line 7: what stands here is not incarnation 0 of node 0"),
    ("deliver", "deliver 7 ed 0 0 x01", "line 8: slot 7 is not below 5"),
    ("message", "message ed 0 0 lost", "line 13: 'message ed 0 0 lost' is not of the form 'message SERVICE ORIGIN SEQ settled'"),
    ("message", "perhaps", "line 13: 'perhaps' stands where this line, another, or 'end' has to"),
    ("end", "end\nend", "line 15: stands after the line 'end'"),
]


def bad_inputs(root):
    """Inputs that are no report, each with what is said of it."""
    good = stored_bytes(root, "one_message_no_fault.report")
    lines = good.decode().splitlines()
    yield b"", "line 1: the text is empty"
    yield b"\xff\xfe", "line 1: has bytes that no line of canely has"
    yield stored_bytes(root, "one_message_no_fault.toml"), None
    yield good[: good.index(b"hypothesis") + 4], "line 6: is cut off"
    yield "".join(f"{line}\n" for line in lines[:7]).encode(), None
    for word, line, said in SPOILED:
        at = next(at for at, it in enumerate(lines) if it.split(" ")[0] == word)
        yield "".join(f"{it}\n" for it in [*lines[:at], line, *lines[at + 1 :]]).encode(), said


def check_bad_inputs(root, tally):
    """Each is refused with the line where it shows; the scripts say it in one line, and write nothing."""
    for text, said in bad_inputs(root):
        try:
            reports.read_report(text)
            tally.check(False, f"a report was read where none is: {said}")
        except Malformed as error:
            tally.check(said in (None, str(error)), f"of a bad report is said {error}, and not {said}")
    half = stored_bytes(root, "three_services.report")[:300]
    calls = [(name, text) for name in (REPORT, DRAW, BUSLOG) for text in (b"", b"storm 7\n", half, b"canely report 3\n")]
    for (name, text), (status, wrote, said) in at_once(calls, lambda name, text: tool(root, name, stdin=text)):
        is_good = status == 3 and not wrote and said.count("\n") == 1 and said.startswith(f"{name}: standard input: line ")
        tally.check(is_good, f"{name} at {text[:20]!r} ends with {status} and says {said!r}")


def check_ends(root, tally):
    """Wrong arguments, files that cannot be read, and outputs that cannot be written: one line and a status."""
    source, closed = os.pipe()
    os.close(source)
    with open("/dev/full", "wb") as full:
        ends = [
            (["--often"], subprocess.PIPE, 2, "unrecognized arguments: --often; see {name} --help"),
            (["nowhere"], subprocess.PIPE, 4, "cannot read nowhere: no such file or directory"),
            (["scenarios"], subprocess.PIPE, 4, "cannot read scenarios: is a directory"),
            ([stored_path(root, "three_services.report")], full, 5, "cannot write to standard output: no space left on device"),
            ([stored_path(root, "three_services.report")], closed, 5, "cannot write to standard output: broken pipe"),
            (["--help"], subprocess.PIPE, 0, None),
        ]
        calls = [(name, *end) for name in (REPORT, DRAW, BUSLOG) for end in ends]
        found = at_once(calls, lambda name, words, stdout, status, line: tool(root, name, *words, stdout=stdout))
        for (name, words, _, status, line), (ended, wrote, said) in found:
            wanted = f"{name}: {line}\n".format(name=name) if line else ""
            tally.check((ended, said) == (status, wanted), f"{name} {words[0]} ends with {ended} and says {said!r}, and not with {status} and {wanted!r}")
            tally.check(bool(wrote) == (status == 0), f"{name} {words[0]} writes {len(wrote)} bytes")
    os.close(closed)


def check(root, tally):
    check_round(root, tally)
    check_verdict(root, tally)
    check_bad_inputs(root, tally)
    check_ends(root, tally)
