#!/usr/bin/env python3
"""Draws the pictures of the pages, docs/pictures/NAME.svg, each from the report NAME.report of scenarios/:

    tools/pictures.py [FOLDER]
"""
import sys
from pathlib import Path

sys.dont_write_bytecode = True

from lib import command
from lib.columns import MOST_SLOT, columns
from lib.picture import PAGE_WIDTH, picture
from lib.report import report_from

ROOT = Path(__file__).resolve().parent.parent

TITLES = {
    "edcan_sender_stops_after_partial": "EDCAN: the sender crashes, and a relay brings the message",
    "relcan_falls_back": "RELCAN: no confirmation comes, and a receiver sends the message",
    "totcan_accept_survives_its_sender": "TOTCAN: the sender crashes, and a relay says that the message is accepted",
    "silent_omission_is_outside": "Outside the hypothesis: no sender sees that node 2 rejects",
    "two_orders": "Outside the hypothesis: node 1 rejects a command, and delivers its own alone",
    "restart_joins": "A node crashes, leaves the views, starts again, and joins",
    "thirty_two_nodes": "32 nodes, of which those that do the same share a lane",
}


def drawn(name):
    """The text of a picture."""
    (place,) = ROOT.glob(f"scenarios/**/{name}.report")
    report = report_from(str(place))
    lines = picture(report, columns(report, 0, MOST_SLOT, False), None, TITLES[name], PAGE_WIDTH, False)
    return "".join(f"{line}\n" for line in lines)


def draw_all(folder):
    try:
        folder.mkdir(parents=True, exist_ok=True)
        for name in TITLES:
            (folder / f"{name}.svg").write_text(drawn(name), encoding="utf-8")
    except OSError as error:
        raise command.Failure(command.WRITE_FAILED, f"cannot write to {folder}: {command.cause(error)}") from None


def main():
    parser = command.Parser(prog="pictures.py", description="Draws the pictures of the pages.")
    parser.add_argument("folder", nargs="?", default=ROOT / "docs/pictures", type=Path, help="where to; without it docs/pictures")
    folder = parser.parse_args().folder
    return command.run("pictures.py", lambda: draw_all(folder))


if __name__ == "__main__":
    sys.exit(main())
