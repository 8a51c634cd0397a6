"""tools/params.py: its formulas are those of the reports, no run passes its bounds, and the program reads what it prints."""
import re
from argparse import Namespace
from fractions import Fraction
from typing import NamedTuple, Optional

import measure
import params
import program as programs
from lib import report as reports
from lib.report import View
from readings import at_once, stored, stored_bytes, tool

SLOT = Fraction(180, 500_000)
PARAMS = "params.py"
# Of a wished time the most nodes, each the words and the first line that is written.
WISHES = [
    ("--remove 500ms", "9 nodes, lag 0, omit 1, errors 2; format 1"),
    ("--remove 500ms --bitrate 1000000", "13 nodes, lag 0, omit 1, errors 2; format 1"),
    ("--detect 2000 --errors 5 --lag 1", "12 nodes, lag 1, omit 1, errors 5; format 1"),
    ("--take-part 10s", "64 nodes, lag 0, omit 1, errors 2; format 2"),
]
REFUSED = [
    ("", 2, "needs --nodes, or a wished time such as --remove; see params.py --help"),
    ("--nodes 65", 2, "argument --nodes: '65' is no number from 2 to 64; see params.py --help"),
    ("--remove 1h", 2, "argument --remove: '1h' is no time as 300 (slots), 2.5ms or 1s are; see params.py --help"),
    ("--nodes 12 --remove 500ms", 3, "remove 500ms is 1388 slots, and 12 nodes need 2296, which are 826.560 ms"),
    ("--nodes 4 --bound 58", 3, "bound 58 is 58 slots, and 4 nodes need 59, which are 21.240 ms"),
    ("--nodes 4 --confirm 200", 3, "confirm 200 is 200 slots, and has to be between 1 and cycle, which is 118"),
    ("--remove 34.5ms", 3, "remove 34.5ms is 95 slots, and 2 nodes need 96, which are 34.560 ms"),
]


def of_report(report):
    given = report.parameters
    return params.Params(*(given[name] for name in params.Params._fields))


def over(report, members):
    """What in a run within the hypothesis took longer than a bound, or was sooner than one, in words."""
    found = of_report(report)
    most = {name: bound.slots(found) for name, bound in params.BOUNDS.items()}
    has_restarts = any(len(lives) > 1 for lives in report.nodes)
    facts = measure.Facts(report, measure.Asks({}, None))
    last = {}
    for slot in facts.frames:
        frame = slot.frame
        if frame.kind == "tot":
            before = last.get(frame.node)
            if before and before[0] < frame.number and slot.slot - before[1] < most["spacing"] and len(report.nodes[frame.node]) == 1:
                yield f"tot {frame.node} {frame.number} in slot {slot.slot} is too early"
            last[frame.node] = frame.number, slot.slot
            if slot.verdict == "clean":
                late = [it for it in facts.delivered.get(("tot", frame.node, frame.number), ()) if it > slot.slot + found.bound]
                yield from (f"tot {frame.node} {frame.number} was delivered in slot {it}" for it in late)
    for node, lives in enumerate(report.nodes):
        stop = lives[0].stopped
        if stop is not None and not has_restarts:
            late = [it for it in measure.signs_of(report, node, stop, report.parameters["slots"]) if it > stop + most["detect"]]
            late += [it.slot for it in measure.removals_of(report, node, stop, report.parameters["slots"], range(found.nodes)) if it.slot > stop + most["remove"]]
            yield from (f"node {node}, stopped in slot {stop}, was known or removed in slot {it}" for it in late)
    for it in asks(report, members):
        yield from late_after(it, most)


class Ask(NamedTuple):
    """A JOIN that was carried clean, of a node that runs to the end and does not leave."""

    slot: int
    node: int
    stopped: Optional[int]
    """The slot in which its incarnation before stopped."""
    getters: list
    """The present incarnations of the others that get it, and do not leave."""
    is_outside: bool
    """Whether none of them has the node in its view."""


def asks(report, members):
    """The JOINs of a report, where these are the first members."""
    leaving = {slot.frame.node for slot in report.bus if slot.frame and slot.frame.kind == "leave"}
    for slot in report.bus:
        if slot.frame and slot.frame.kind == "join" and slot.verdict == "clean" and slot.frame.node not in leaving:
            node, lives = slot.frame.node, report.nodes[slot.frame.node]
            getters = [life for life in report.present() if life.node not in (node, *leaving) and life.acts <= slot.slot]
            if lives[-1].number == slot.frame.incarnation and lives[-1].stopped is None:
                stopped = lives[-2].stopped if len(lives) > 1 else None
                yield Ask(slot.slot, node, stopped, getters, not any(node in members_at(life, slot.slot, members) for life in getters))


def members_at(life, slot, members):
    """Whom a node has in its view in a slot; one that started again has nobody before its first vector."""
    views = [it.members for it in life.log if isinstance(it, View) and it.slot <= slot]
    return views[-1] if views else () if life.number else members


def late_after(ask, most):
    """What came of a JOIN later than the bounds say, in words."""
    end = ask.slot + most["admit"]
    for life in ask.getters if ask.is_outside else ():
        views = [it for it in life.log if isinstance(it, View) and it.slot > ask.slot]
        first = next((it for it in views if ask.node in it.members), views[-1] if views else None)
        if first and first.slot > end:
            yield f"node {life.node} has node {ask.node}, which asked in slot {ask.slot}, in no view by slot {end}"
    if not ask.is_outside and ask.stopped is not None and ask.slot >= ask.stopped + most["wait"]:
        yield f"a view has node {ask.node} in slot {ask.slot}, and it stopped in slot {ask.stopped}"


def first_members(root, name, report):
    """The members of view 0, which the scenario says."""
    found = re.search(r"(?m)^members = \[(.*)\]", stored_bytes(root, f"{name}.toml").decode())
    return [int(it) for it in found[1].split(",")] if found else range(report.parameters["nodes"])


def check_reports(root, tally):
    counted = set()
    for name, text in stored(root).items():
        report = reports.read_report(text)
        members = first_members(root, name, report)
        counted.update(it.is_outside for it in asks(report, members))
        given = report.parameters
        for key, (least, _) in params.FORMULAS.items():
            tally.check(given[key] >= least(given), f"{name}: {key} is {given[key]}, and params.py has it at least {least(given)}")
        if not report.first_break:
            tally.check(not list(over(report, members)), f"{name} passes the bounds of params.py: {list(over(report, members))}")
    tally.check(counted == {False, True}, "scenarios/ has no JOIN that counts, or none that does nothing")
    slots = {name: bound.slots(of_report(report)) for name, bound in params.BOUNDS.items()}
    tally.check(slots["return"] == slots["take-part"] + 1 + slots["admit"], "params.py: a return is not a JOIN in the slot after the node takes part")


def check_words(root, tally):
    calls = [(words, 0, line) for words, line in WISHES] + REFUSED
    for (words, status, line), (ended, wrote, said) in at_once(calls, lambda words, *_: tool(root, PARAMS, *words.split())):
        first = wrote.decode().partition("\n")[0] if status == 0 else said.removeprefix("params.py: ").strip()
        tally.check((ended, first) == (status, line), f"params.py {words} ends with {ended} and says {first!r}, and not with {status} and {line!r}")


def given_of(**others):
    none = {name: None for name in (*params.FORMULAS, "confirm", *(f"wish_{it}" for it in params.BOUNDS))}
    return Namespace(**{**none, "lag": 0, "omit": 1, "errors": 2, **others})


def check_program(tally, program):
    """The program reads each scenario that is printed, and refuses one in which a parameter is one below its least value."""
    for nodes, lag, errors in [(2, 0, 0), (3, 1, 2), (12, 0, 2), (32, 8, 1000), (33, 0, 2), (64, 8, 1000)]:
        given = given_of(lag=lag, errors=errors)
        found = params.params_of(given, nodes, SLOT)
        text = "\n".join(params.scenario(given, found)).encode()
        short = b"\n".join(line if not line.startswith(b"slots") else b"slots = 1" for line in text.split(b"\n"))
        tally.check(programs.call(program, ["replay"], short)[0] == 0, f"the program refuses the parameters for {nodes} nodes, lag {lag}, errors {errors}")
        for name in params.FORMULAS:
            least = getattr(found, name)
            others = "".join(f"\n{it} = {getattr(found, it)}" for it in params.FORMULAS if it != name)
            lines = short + others.encode()
            status, wrote, _ = programs.call(program, ["replay"], lines + f"\n{name} = {least - 1}".encode())
            wanted = f"refused bound too small {name} needs {least}\n".encode()
            tally.check((status, wrote) == (3, wanted), f"{name} one below {least} for {nodes} nodes: status {status}, {wrote!r}")
            tally.check(programs.call(program, ["replay"], lines + f"\n{name} = {least}".encode())[0] == 0, f"{name} {least} is refused for {nodes} nodes")


def check_busiest(tally):
    found = [measure.busiest([0, 99, 100, 198, 300], window) for window in (1, 100, 101, 1000)]
    tally.check(found == [(1, 0), (3, 99), (3, 0), (5, 0)], f"measure.py: the busiest stretches are {found}")


def check(root, tally, built):
    check_busiest(tally)
    check_reports(root, tally)
    check_words(root, tally)
    for program in built:
        check_program(tally, program)
