#!/usr/bin/env python3
"""Writes a report, or the text of `canely check`, as JSON lines, one object for each line of the text:

    tools/report.py [FILE]
"""
import json
import sys

sys.dont_write_bytecode = True

from lib import command, report, verdict
from lib.lines import Malformed


def json_lines(path):
    data = command.read_bytes(path)
    try:
        text = verdict.facts(verdict.read_check(data)) if data.startswith(b"canely check ") else report.facts(report.read_report(data))
    except Malformed as error:
        raise command.Failure(command.REFUSED, f"{path or 'standard input'}: {error}") from None
    command.write(json.dumps(it, separators=(",", ":")) for it in text)


def main():
    parser = command.Parser(prog="report.py", description="Writes a report, or the text of canely check, as JSON lines.")
    parser.add_argument("file", nargs="?", help="the text; without it standard input")
    arguments = parser.parse_args()
    return command.run("report.py", lambda: json_lines(arguments.file))


if __name__ == "__main__":
    sys.exit(main())
