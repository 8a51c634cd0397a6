#!/usr/bin/env python3
"""Checks the scripts of tools/ on the stored reports of scenarios/: what they read and write, their pictures and logs, and how they end
at bad input. What needs a program is tried with the built one, where there is one. Run it at any time: python3 .ci/check_tools.py [--keep]
[--program PATH]. docs/tests.md says more."""
import argparse
import contextlib
import io
import sys
import time
import traceback
from pathlib import Path

sys.dont_write_bytecode = True
ROOT = Path(__file__).resolve().parent.parent
sys.path.insert(0, str(ROOT / "tools"))

import building
import bus_logs
import drawings
import parameters
import program
import readings
import sweeping
import viewer
import vocabulary
from tally import Tally


def built_program(given):
    """The program that is given, or else the one that was built, where it is that of the code; in a list, which may be empty."""
    with contextlib.redirect_stdout(io.StringIO()):
        found = program.built(ROOT, given)[:1]
    if not found:
        print("no built program here, so sweeps and texts of storms are not tried with one")
    return found


def main():
    parser = argparse.ArgumentParser(description=__doc__)
    parser.add_argument("--keep", action="store_true", help="write the outputs of tools/expected anew, to be looked at before they are kept")
    parser.add_argument("--program", help="a built program, in place of the one in crates/canely/out")
    given = parser.parse_args()
    if given.keep:
        drawings.keep(ROOT)
        return 0
    tally, built = Tally(), built_program(given.program)
    subjects = {
        "words": lambda: vocabulary.check(ROOT, tally, built),
        "reading": lambda: readings.check(ROOT, tally),
        "drawing": lambda: drawings.check(ROOT, tally, built),
        "bus logs": lambda: bus_logs.check(ROOT, tally),
        "viewer": lambda: viewer.check(ROOT, tally),
        "building": lambda: building.check(ROOT, tally),
        "parameters": lambda: parameters.check(ROOT, tally, built),
        "sweeps": lambda: sweeping.check(ROOT, tally, built),
    }
    for subject, check in subjects.items():
        passed, failed, start = tally.passed, tally.failed, time.monotonic()
        try:
            check()
        except Exception:
            tally.check(False, f"{subject}: the check itself failed\n{traceback.format_exc()}")
        print(f"{subject}: {tally.passed - passed} passed, {tally.failed - failed} failed, {time.monotonic() - start:.0f} s", flush=True)
    print(f"{tally.passed} passed, {tally.failed} failed")
    return 1 if tally.failed or not tally.passed else 0


if __name__ == "__main__":
    sys.exit(main())
