#!/usr/bin/env python3
"""Writes docs/calls.md, the catalogue of the public calls, from the crates: python3 .ci/catalogue.py --write.

The gate holds the page equal to what this script makes of the sources. It refuses a public call whose doc comment has no
paragraph `Promise:`, one that answers a refusal or a choice and does not say when, and a name under `Shown by:` that is no
test, trial, edit, scenario or script, or that does not run the call."""
import argparse
import re
import sys
from pathlib import Path

import source

PAGE = "docs/calls.md"
HEAD = """# The public calls

`.ci/catalogue.py` writes this page from the doc comments and the contracts of the crates: do not edit it.

- **promise**: what the contract of the call proves. A call returns on every input that its conditions allow, and does nothing unsafe.
- **answers**: when each answer comes.
- **clauses**: the clauses of the contract by name; a dash stands for those without one. What the caller must know stands after "asks for".
- **shown by**: what runs the call, and the edits that make it wrong, which the prover refuses. An edit is printed in italics.
"""
# The types of answers that stand for more than a value: what is refused, what is not there, what was chosen.
TELLS = re.compile(r"\b(Result<|Option<|bool\b|Outcome\b|Reply\b|StepReply\b|TurnReply\b|Learnt\b)")
# The crates whose u8 is an exit status.
OF_STATUSES = ("cany_check", "cany_command", "cany_crew", "cany_media", "cany_replay", "cany_replica", "cany_settle", "cany_watch")
# The call behind each command.
TOP_CALLS = {it: f"{it}_top" for it in ("replay", "check", "run", "storm", "replica", "media", "tail", "watch")}


def tells(call):
    """Whether the answer of a call tells of a refusal or of a choice."""
    return TELLS.search(call.answer) is not None or call.answer == "u8" and call.crate in OF_STATUSES


def edits(root):
    """Each must-fail edit, with the file and the lines that it changes."""
    for file in sorted(root.glob("crates/*/must-fail/*.edit")):
        rows = file.read_text(encoding="utf-8").splitlines()
        changed = None
        for row in rows:
            kind, _, text = row.partition(": ")
            if kind == "file":
                changed = file.parent.parent / text
            elif kind == "old" and changed is not None and changed.suffix == ".rt":
                lines = changed.read_text(encoding="utf-8").splitlines()
                yield file.stem, changed, [at for at, line in enumerate(lines, 1) if text in line]


def edits_by_call(root):
    """The edits that change a line of each public call."""
    found = {}
    calls = source.public_calls(root)
    for name, file, lines in edits(root):
        for call in calls:
            if call.file == file and any(call.first <= at <= call.last for at in lines):
                found.setdefault(call, []).append(name)
    return {call: list(dict.fromkeys(names)) for call, names in found.items()}


def trials(root):
    """The headings of the trials, with the folder of the crate that runs them."""
    for file in root.glob("crates/*_trials/stdin"):
        for heading in re.findall(r"(?m)^# (\w+)", file.read_text(encoding="utf-8")):
            yield heading, file.parent.name


def command_of(scenario):
    """The command that the gate runs a scenario by."""
    words = scenario.with_suffix(".args")
    if words.exists():
        return words.read_text(encoding="utf-8").split()[0]
    return "replay"


class Shown:
    """What there is to show a call, and what each of these runs."""

    def __init__(self, root):
        self.root = root
        self.graph = source.CallGraph(root)
        functions = source.functions(root)
        self.tests = {it.name: [it] for it in functions if it.is_test}
        self.trials = {heading: [it for it in functions if it.crate == crate] for heading, crate in trials(root)}
        self.scenarios = {it.stem: it for it in root.glob("scenarios/**/*.toml")}
        self.edits = {it.stem for it in root.glob("crates/*/must-fail/*.edit")}
        self.scripts = {str(it.relative_to(root)) for place in (".ci/*.py", "benches/*.py", "tools/*.py") for it in root.glob(place)}
        self.rows = {it.stem for it in root.glob("crates/*/proofs/**/*Rows.antt")}
        self.by_call = {it.name: [it] for it in functions if it.name in TOP_CALLS.values()}
        self.reached = {}

    def is_there(self, name):
        return name in self.tests or name in self.trials or name in self.scenarios or name in self.edits or name in self.scripts or name in self.rows

    def runs(self, name, call):
        """Whether what bears the name may run the call; an edit, a row and a script are not asked."""
        if name in self.tests:
            starts = self.tests[name]
        elif name in self.trials:
            starts = self.trials[name]
        elif name in self.scenarios:
            starts = self.by_call[TOP_CALLS[command_of(self.scenarios[name])]]
        else:
            return True
        if name not in self.reached:
            self.reached[name] = self.graph.runs_from(starts)
        return call in self.reached[name]


def names_in(text):
    return re.findall(r"`([^`]+)`", text or "")


def row_of(call, edited):
    answers = call.part("Answers") or call.errors() or ""
    clauses = ", ".join(f"`{it}`" if it != "–" else it for it in call.clauses("ensures"))
    asked = ", ".join(f"`{it}`" if it != "–" else it for it in call.clauses("requires"))
    if asked:
        clauses += f"{'; ' if clauses else ''}asks for {asked}"
    said = (call.part("Shown by") or "").rstrip(".")
    named = names_in(said)
    italic = {it: f"*`{it}`*" for it in edited}
    for name, text in italic.items():
        said = said.replace(f"`{name}`", text)
    more = ", ".join(italic[it] for it in edited if it not in named)
    shown = "; ".join(it for it in (said, more) if it)
    promise = call.part("Promise") or ""
    cells = [f"`{call.call}`", promise[:1].upper() + promise[1:], answers, clauses, shown]
    return "| " + " | ".join(it.replace("|", "\\|") for it in cells) + " |"


def page(root):
    calls, edited = source.public_calls(root), edits_by_call(root)
    parts = [HEAD]
    for crate in dict.fromkeys(it.crate for it in calls):
        rows = [row_of(it, edited.get(it, [])) for it in calls if it.crate == crate]
        parts.append("\n".join([f"## {crate}", "", "| call | promise | answers | clauses | shown by |", "|---|---|---|---|---|", *rows, ""]))
    return "\n".join(parts)


def check(root, tally):
    shown = Shown(root)
    for call in source.public_calls(root):
        place = f"{call.file.relative_to(root)}:{call.first}: {call.call}"
        tally.check(call.part("Promise"), f"{place} has no paragraph `Promise:` in its doc comment")
        for name in names_in(call.part("Shown by")):
            tally.check(shown.is_there(name), f"{place}: {name} is no test, trial, edit, scenario, script or file of rows")
            tally.check(shown.runs(name, call), f"{place}: {name} does not run it")
        if not tells(call):
            continue
        wanted = "# Errors" if call.answer.startswith("Result<") else "Answers:"
        tally.check(call.part("Answers") or call.errors(), f"{place} answers {call.answer} and does not say when: `{wanted}` is missing")
        tally.check(call.part("Shown by"), f"{place} has no paragraph `Shown by:`, which says what runs it, or that nothing does")
    made, kept = page(root), (root / PAGE).read_text(encoding="utf-8") if (root / PAGE).exists() else ""
    tally.check(made == kept, f"{PAGE} is not what the crates say: python3 .ci/catalogue.py --write writes it anew")


def main():
    parser = argparse.ArgumentParser(description=__doc__.split("\n")[0])
    parser.add_argument("--write", action="store_true", help=f"write {PAGE}")
    root = Path(__file__).resolve().parent.parent
    text = page(root)
    if parser.parse_args().write:
        (root / PAGE).write_text(text, encoding="utf-8")
    else:
        sys.stdout.write(text)


if __name__ == "__main__":
    sys.dont_write_bytecode = True
    main()
