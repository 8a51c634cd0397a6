#!/usr/bin/env python3
"""Checks that the scenarios give their reports, that the program's messages are as wanted, that the pages name what exists and
count what is there, and that comments are wrapped. Run it at any time: python3 .ci/check_pages.py [--program PATH].
docs/tests.md says more."""
import argparse
import sys
import traceback
from pathlib import Path

sys.dont_write_bytecode = True
ROOT = Path(__file__).resolve().parent.parent

import calls
import catalogue
import comments
import counts
import examples
import program as programs
import refusals
import scenario_index
import scenarios
import stops
import variants
import words
from tally import Tally


def main():
    parser = argparse.ArgumentParser(description=__doc__)
    parser.add_argument("--program", metavar="PATH", help="the built program to run, in place of crates/canely/out/canely")
    built = programs.built(ROOT, parser.parse_args().program)
    tally = Tally()
    subjects = {
        "scenarios": lambda: scenarios.check(ROOT, tally, built),
        "index": lambda: scenario_index.check(ROOT, tally),
        "calls": lambda: calls.check(ROOT, tally, built),
        "refusals": lambda: refusals.check(tally, built),
        "stops": lambda: stops.check(tally, built),
        "words and links": lambda: words.check(ROOT, tally),
        "examples": lambda: examples.check(ROOT, tally, built),
        "counts": lambda: counts.check(ROOT, tally),
        "catalogue": lambda: catalogue.check(ROOT, tally),
        "variants": lambda: variants.check(ROOT, tally),
        "comments": lambda: comments.check(ROOT, tally),
    }
    for subject, check in subjects.items():
        passed, failed = tally.passed, tally.failed
        try:
            check()
        except Exception:
            tally.check(False, f"{subject}: the check itself failed\n{traceback.format_exc()}")
        print(f"{subject}: {tally.passed - passed} passed, {tally.failed - failed} failed", flush=True)
    print(f"{tally.passed} passed, {tally.failed} failed")
    return 1 if tally.failed or not tally.passed else 0


if __name__ == "__main__":
    sys.exit(main())
