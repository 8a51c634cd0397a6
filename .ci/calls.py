"""Calls of the program that no scenario makes: its arguments, its streams, and what it says on standard error."""
import contextlib
import os
import re

import program as programs
import scenarios

# The greatest length of a text.
MOST_TEXT_BYTES = 33_554_432

SEE_HELP = "see canely --help"

# The arguments of the commands that read a scenario.
READING = (["replay"], ["check"], ["run"], ["replica"], ["tail"], ["media"], ["watch", "2"])

# Faults of lines that are none.
WRONG_FAULTS = ["", "0:5-3:down", "2:0-1:down", "0:0-1:up", "0:0000000-1:down", "0:0-1:split:", "0:0-1:split:64", "0:0-1:down "]

# Numbers of nodes that are none, and how the line shows them.
WRONG_NODES = [("x", " 'x'"), ("-1", " '-1'"), ("001", " '001'"), ("\u0663", ""), ("", " ''")]

# The arguments that are wrong, and the line for each. Nothing is read or written, and the status is 2.
WRONG_ARGUMENTS = [
    ([], f"no command given; {SEE_HELP}"),
    (["play"], f"unknown command 'play'; {SEE_HELP}"),
    (["Replay"], f"unknown command 'Replay'; {SEE_HELP}"),
    (["two lines\n"], f"unknown command; {SEE_HELP}"),
    (["x" * 41], f"unknown command; {SEE_HELP}"),
    *(([command, "scenario.toml"], f"{command} reads the scenario from standard input: canely {command} < scenario.toml") for command in ("replay", "check", "run", "replica", "tail")),
    (["check", "two words"], "check reads the scenario from standard input: canely check < FILE"),
    (["check", "a.toml", "b.toml"], f"check takes no arguments; {SEE_HELP}"),
    (["Check"], f"unknown command 'Check'; {SEE_HELP}"),
    (["--help", "--version"], f"--help takes no arguments; {SEE_HELP}"),
    (["--version", "--help"], f"--version takes no arguments; {SEE_HELP}"),
    (["-h", "check"], f"-h takes no arguments; {SEE_HELP}"),
    (["help", "check"], f"help takes no arguments; {SEE_HELP}"),
    (["storm"], f"storm needs a number; {SEE_HELP}"),
    (["storm", "1", "2"], f"storm takes one number alone; {SEE_HELP}"),
    (["storm", "x"], "invalid number 'x': storm takes 1 to 10 digits, at most 4294967295"),
    (["storm", "-1"], "invalid number '-1': storm takes 1 to 10 digits, at most 4294967295"),
    (["storm", "4294967296"], "invalid number '4294967296': storm takes 1 to 10 digits, at most 4294967295"),
    (["storm", "+7"], "invalid number '+7': storm takes 1 to 10 digits, at most 4294967295"),
    (["storm", "7 "], "invalid number: storm takes 1 to 10 digits, at most 4294967295"),
    (["storm", "00000000007"], "invalid number '00000000007': storm takes 1 to 10 digits, at most 4294967295"),
    (["storm", ""], "invalid number '': storm takes 1 to 10 digits, at most 4294967295"),
    *((["media", fault], f"media takes faults of lines, as 0:5-9:down or 1:5-9:split:0,2; {SEE_HELP}") for fault in WRONG_FAULTS),
    (["watch"], f"watch needs a node; {SEE_HELP}"),
    (["watch", "1", "2"], f"watch takes one node alone; {SEE_HELP}"),
    *((["watch", node], f"invalid node{shown}: watch takes 1 or 2 digits") for node, shown in WRONG_NODES),
    ([b"\xff"], "an argument is not valid UTF-8"),
]


def check_call(tally, what, found, status, output, line):
    ended, wrote, error = found
    error_wanted = f"canely: {line}\n".encode() if line else b""
    tally.check(ended == status, f"{what} ends with status {ended}, and not {status}")
    tally.check(output is None or wrote == output, f"{what} writes {wrote[:200]!r}")
    tally.check(error == error_wanted, f"{what} says {error!r}, and not {error_wanted!r}")


@contextlib.contextmanager
def opened_folder(path):
    number = os.open(path, os.O_RDONLY)
    try:
        yield number
    finally:
        os.close(number)


def check_streams(tally, program, scenario):
    """A folder as standard input, a full disk as standard output, and a text that is too long."""
    for arguments in READING:
        command = " ".join(arguments)
        with opened_folder(scenario.parent) as source:
            found = programs.call(program, arguments, source)
        check_call(tally, f"canely {command} < FOLDER", found, 4, b"", "cannot read the scenario from standard input")
        found = programs.call(program, arguments, b"#" * (MOST_TEXT_BYTES + 1))
        check_call(tally, f"canely {command} < LONG", found, 7, b"", f"the scenario has more than {MOST_TEXT_BYTES} bytes")
    for arguments in (*READING, ["media", "0:0-4:down"], ["storm", "7"], ["--help"], ["--version"]):
        with open("/dev/full", "wb") as sink:
            found = programs.call(program, arguments, scenario.read_bytes(), sink)
        check_call(tally, f"canely {' '.join(arguments)} > /dev/full", found, 5, None, "cannot write to standard output")


def check_texts(tally, program):
    check_call(tally, "canely --version", programs.call(program, ["--version"]), 0, None, "")
    version = programs.call(program, ["--version"])[1].decode()
    tally.check(re.fullmatch(r"canely 1\ncommit (unknown|[0-9a-f]{40}( with changes)?)\nlogic (unproved|[0-9a-f]+)\n", version), f"canely --version writes {version!r}")
    found = programs.call(program, ["--help"])
    check_call(tally, "canely --help", found, 0, None, "")
    for word in ("-h", "help"):
        check_call(tally, f"canely {word}", programs.call(program, [word]), 0, found[1], "")
    text = found[1].decode()
    for command in ("replay", "check", "run", "replica", "tail", "media", "watch NODE", "storm NUMBER", "--help", "--version"):
        tally.check(f" canely {command}" in text, f"canely --help does not show the command {command}")
    for status in (0, *range(2, 11)):
        tally.check(re.search(rf"(?m)^(exit status:|\s+)\s*{status}  \w", text), f"canely --help does not say when the exit status is {status}")


def check_storms(tally, program):
    """A second run writes the same bytes, and the number is written without leading zeros."""
    first, second = (programs.call(program, ["storm", number]) for number in ("7", "0000000007"))
    check_call(tally, "canely storm 7", first, 0, None, "")
    tally.check(first[1].startswith(b"storm 7\n") and second == first, "canely storm 0000000007 is not canely storm 7")


def check_given_journal(tally, program, scenario):
    """A scenario that brings a journal is not for threads."""
    found = programs.call(program, ["run"], scenario.read_bytes())
    check_call(tally, f"canely run < {scenario.name}", found, 3, b"refused journal given to run\n", "")


def check_threads(tally, program, scenario):
    """The report of `run`, whose journal its threads made, is that of `replay` by this journal."""
    text = scenario.read_bytes()
    status, report, error = programs.call(program, ["run"], text)
    tally.check(status == 0 and not error, f"canely run < {scenario.name} ends with status {status} and says {error!r}")
    steps = "".join(re.findall(r"(?m)^journal (.*)$", report.decode()))
    again = programs.call(program, ["replay"], f'journal = ["{steps}"]\n'.encode() + text)
    tally.check(again == (0, report, b""), f"canely run < {scenario.name}: its report, replayed, gives another")


def check(root, tally, built):
    if not built:
        print("calls: not tried, since they need a built program")
    scenario = scenarios.place_of(root, "one_message_no_fault")
    for program in built:
        for arguments, line in WRONG_ARGUMENTS:
            found = programs.call(program, arguments, scenario.read_bytes())
            check_call(tally, f"canely {' '.join(map(str, arguments))}", found, 2, b"", line)
        check_streams(tally, program, scenario)
        check_texts(tally, program)
        check_storms(tally, program)
        check_given_journal(tally, program, scenarios.place_of(root, "round_robin_may_be_given"))
        for name in ("one_message_no_fault", "three_services", "restart_joins", "edcan_sender_stops_after_partial", "totcan_accept_at_lag_1"):
            check_threads(tally, program, scenarios.place_of(root, name))
