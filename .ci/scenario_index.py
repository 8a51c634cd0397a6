#!/usr/bin/env python3
"""Writes scenarios/README.md from the scenarios: python3 .ci/scenario_index.py --write. The gate holds the page equal to what this makes."""
import argparse
import itertools
import sys
from pathlib import Path

PAGE = "scenarios/README.md"
# The folders, in the order of the page.
FOLDERS = {
    "first": "First runs, formats and journals",
    "edcan": "EDCAN",
    "relcan": "RELCAN",
    "totcan": "TOTCAN",
    "views": "Views: joins and leaves",
    "failures": "Failures and their signs",
    "restarts": "Nodes that start again",
    "verdicts": "Verdicts, by `check`",
    "tables": "Tables, by `replica`",
    "lines": "Two lines, by `media`",
    "tail": "Whether a run is long enough, by `tail`",
    "watch": "The log of a node, by `watch`",
    "refused": "Refusals",
}
HEAD = """# Scenarios

Each NAME.toml is a scenario, and NAME.report beside it is what the program writes of it: by `replay`, or by the words of NAME.args, one a line, where there is such a file. The gate runs each and compares the bytes. In a clone, `tools/run.py` runs one.

`.ci/scenario_index.py` writes this page from the comments at the head of the files.
"""


def row(toml):
    comment = itertools.takewhile(lambda it: it.startswith("#"), toml.read_text(encoding="utf-8").splitlines())
    shows = " ".join(it.removeprefix("#").strip() for it in comment)
    args = toml.with_suffix(".args")
    words = " ".join(args.read_text(encoding="utf-8").split("\n")[:-1]) if args.exists() else "replay"
    return f"| [{toml.stem}]({toml.parent.name}/{toml.name}) | {shows.replace('|', chr(92) + '|')} | `{words}` |"


def page(root):
    parts = [HEAD]
    for folder, title in FOLDERS.items():
        rows = [row(it) for it in sorted((root / "scenarios" / folder).glob("*.toml"))]
        parts.append("\n".join([f"## {title}", "", "| scenario | what it shows | run by |", "|---|---|---|", *rows, ""]))
    return "\n".join(parts)


def check(root, tally):
    folders = {it.parent.name for it in root.glob("scenarios/**/*.toml")}
    tally.check(folders == set(FOLDERS), f"scenarios/: the folders are {sorted(folders)}, and the index has {sorted(FOLDERS)}")
    names = [it.stem for it in root.glob("scenarios/**/*.toml")]
    tally.check(len(names) == len(set(names)), "scenarios/: two scenarios have one name")
    tally.check(page(root) == (root / PAGE).read_text(encoding="utf-8"), f"{PAGE} is not what the scenarios say: python3 .ci/scenario_index.py --write writes it anew")


def main():
    parser = argparse.ArgumentParser(description=__doc__.split("\n")[0])
    parser.add_argument("--write", action="store_true", help=f"write {PAGE}")
    root = Path(__file__).resolve().parent.parent
    text = page(root)
    if parser.parse_args().write:
        (root / PAGE).write_text(text, encoding="utf-8")
    else:
        sys.stdout.write(text)


if __name__ == "__main__":
    sys.dont_write_bytecode = True
    main()
