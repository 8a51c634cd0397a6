"""A TOTCAN message that one node alone hears accepted, before its sender stops, with more faults than that: each node stopped in each slot, and forty silent rules."""
import re

import program as programs

# Node 1 alone hears that the message is accepted, and the sender stops. Node 1 relays it.
TEXT = """format = 1
nodes = 3
slots = 45

[[send]]
slot = 0
node = 0
service = "tot"
data = "01"

[[fault]]
slot = 2
verdict = "partial"
reject = [2]
stop = [0]
"""


def told_of(program, text):
    """Of a run: whether it is within the hypothesis, whether the message is settled, and how often each node that runs at the end delivers it. None where there is no report."""
    status, report, error = programs.call(program, ["replay"], text.encode())
    if status != 0 or error:
        return None
    _, *nodes = re.split(r"(?m)^node ", report.decode())
    counts = [len(re.findall(r"(?m)^deliver ", it)) for it in nodes if " correct " in it.split("\n")[0]]
    return b"hypothesis within\n" in report, b"message tot 0 0 settled\n" in report, counts


def wanted(node, slot):
    """The message reaches all nodes that run at the end, or none: none where node 0 or 1 stops before the frame that accepts it."""
    correct = 2 if node == 0 else 1
    return True, True, [0 if node < 2 and slot < 2 else 1] * correct


def check(tally, built):
    if not built:
        print("stops: not tried, since they need a built program")
    for program in built:
        # slot 2 has a rule already
        for node, slot in ((node, slot) for node in range(3) for slot in range(45) if slot != 2):
            told = told_of(program, f"{TEXT}\n[[fault]]\nslot = {slot}\nstop = [{node}]\n")
            tally.check(told == wanted(node, slot), f"node {node} stopped in slot {slot}: {told}, and not {wanted(node, slot)}")
        # outside the hypothesis nothing is delivered twice, but one node may lack what another has
        rules = "".join(f'\n[[fault]]\nslot = {slot}\nverdict = "silent"\nreject = [0, 1, 2]\n' for slot in range(3, 43))
        told = told_of(program, TEXT + rules)
        tally.check(told is not None and (told[0], told[1], sorted(told[2])) == (False, True, [0, 1]), f"forty silent rules: {told}")
