#!/usr/bin/env python3
"""Draws a run of canely from its report: as a chart of text for the terminal, or as a page of SVG.

    tools/draw.py [FILE] [--svg] [--from SLOT] [--to SLOT] [--all] [--check FILE] [--title TEXT] [--width N]
"""
import shutil
import sys

sys.dont_write_bytecode = True

from lib import command
from lib.chart import chart
from lib.columns import MOST_SLOT, columns, fold
from lib.picture import LEAST_PAGE, PAGE_WIDTH, picture
from lib.report import report_from
from lib.verdict import check_from

LEAST_CHART_WIDTH, MOST_WIDTH = 40, 100_000
# More columns than these no page shows, and more marks of nodes: those with the least in them go.
MOST_COLUMNS, MOST_MARKS = 150, 3_000


def arguments():
    slot = command.number_between(0, MOST_SLOT)
    parser = command.Parser(prog="draw.py", description="Draws a run of canely from its report.")
    parser.add_argument("file", nargs="?", help="the report; without it standard input")
    parser.add_argument("--svg", action="store_true", help="a page of SVG in place of a chart of text")
    parser.add_argument("--from", type=slot, default=0, dest="first", metavar="SLOT", help="the first slot that is shown")
    parser.add_argument("--to", type=slot, default=MOST_SLOT, dest="last", metavar="SLOT", help="the last slot that is shown")
    parser.add_argument("--all", action="store_true", help="show life signs without an error too, and on a page all columns")
    parser.add_argument("--each", action="store_true", help="on a page a lane for each node, where nodes that did the same would share one")
    parser.add_argument("--check", metavar="FILE", help="the text that canely check wrote of the same scenario, to show what it found")
    parser.add_argument("--title", default="", metavar="TEXT", help="a heading")
    parser.add_argument("--width", type=command.number_between(LEAST_CHART_WIDTH, MOST_WIDTH), metavar="N", help="columns of the terminal, or pixels of the page")
    return parser.parse_args()


def check_slots(given, report):
    """Ends the command where no slot of the run is asked for."""
    slots = report.parameters["slots"]
    if given.first > given.last:
        raise command.Failure(command.WRONG_ARGUMENTS, f"--from {given.first} comes after --to {given.last}")
    if given.first >= slots:
        raise command.Failure(command.WRONG_ARGUMENTS, f"--from {given.first} comes after the run, which has {slots} slots")


def draw(given):
    report = report_from(given.file)
    check = check_from(given.check, report) if given.check else None
    check_slots(given, report)
    shown = columns(report, given.first, given.last, given.all)
    if given.svg:
        shown = shown if given.all else fold(shown, min(MOST_COLUMNS, MOST_MARKS // len(report.nodes)))
        width = max(given.width or PAGE_WIDTH, LEAST_PAGE)
        lines = picture(report, shown, check, given.title, width, given.each)
    else:
        width = given.width or max(shutil.get_terminal_size((100, 24)).columns, LEAST_CHART_WIDTH)
        lines = chart(report, shown, check, given.title, width)
    command.write(lines)


def main():
    given = arguments()
    return command.run("draw.py", lambda: draw(given))


if __name__ == "__main__":
    sys.exit(main())
