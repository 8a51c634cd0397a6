#!/usr/bin/env python3
"""Writes the scenario of `canely storm NUMBER` as a text, by the rules of the storm in docs/texts.md:

    tools/storm_text.py NUMBER
"""
import sys

sys.dont_write_bytecode = True

from lib import command
from lib.scenario import scenario_lines
from lib.storm import storm
from lib.words import LIMITS


def main():
    parser = command.Parser(prog="storm_text.py", description="Writes the scenario of canely storm NUMBER as a text.")
    parser.add_argument("number", type=command.number_between(0, LIMITS.storm), metavar="NUMBER")
    number = parser.parse_args().number
    return command.run("storm_text.py", lambda: command.write([f"# The scenario of: canely storm {number}", *scenario_lines(storm(number))]))


if __name__ == "__main__":
    sys.exit(main())
