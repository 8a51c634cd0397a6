"""Runs each NAME.toml of scenarios/, and compares status and output with the NAME.report beside it, byte for byte.

It is run by `replay`, or by the words of NAME.args, one a line, where that file is there."""
import ast
import re
import tomllib

import program as programs

DONE, REFUSED, BROKEN, OPEN = 0, 3, 9, 10

# The lines of the head of a verdict that judge a part of the promise.
JUDGED = re.compile(rb"(?m)^(?:integrity|agreement \w+|order|views|signs|accuracy) (held|broken|open)\b")


def files(root, suffix):
    """The files of scenarios/ with this suffix, by their names, which no two share."""
    return {it.stem: it for it in sorted(root.glob(f"scenarios/**/*{suffix}"))}


def place_of(root, name):
    """The path of a scenario."""
    return files(root, ".toml")[name]


def words_of(root, name):
    """The arguments by which a scenario is run."""
    words = place_of(root, name).with_suffix(".args")
    return words.read_text(encoding="utf-8").split("\n")[:-1] if words.is_file() else ["replay"]


def wanted_status(report):
    """The line of a refusal goes with its status, a verdict with the worst of what it judges, and any other text with success."""
    if report.startswith(b"refused "):
        return REFUSED
    judged = JUDGED.findall(report) if report.startswith(b"canely check ") else []
    return BROKEN if b"broken" in judged else OPEN if b"open" in judged else DONE


def first_difference(wanted, found):
    at = next((i for i, (a, b) in enumerate(zip(wanted, found)) if a != b), min(len(wanted), len(found)))
    line = wanted[:at].count(b"\n")
    line_of = lambda text: (text.split(b"\n") + [b""] * (line + 1))[line].decode(errors="replace")
    return f"line {line + 1} is {line_of(found)!r}, and not {line_of(wanted)!r}"


def check_files(root, tally):
    """Each scenario has a first line that says what it shows; no report and no arguments are without a scenario."""
    texts = list(files(root, ".toml").values())
    others = [*files(root, ".report").values(), *files(root, ".args").values()]
    tally.check(texts, "scenarios/ has no scenario")
    for it in texts:
        tally.check(it.read_text(encoding="utf-8").startswith("# "), f"{it.relative_to(root)} does not begin with a comment that says what it shows")
    for it in others:
        tally.check(it.with_suffix(".toml") in texts, f"{it.relative_to(root)} has no scenario beside it")
    return {it.stem: it.read_bytes() for it in texts}


def reports_of(root, tally, texts):
    reports = {}
    for name in texts:
        report = place_of(root, name).with_suffix(".report")
        if tally.check(report.is_file(), f"{name}.toml has no report beside it"):
            reports[name] = report.read_bytes()
    return reports


def check_runs(root, tally, program, texts, reports):
    for name, report in reports.items():
        status, output, error = programs.call(program, words_of(root, name), texts[name])
        place, wanted = f"{name}.toml by {program.name}", wanted_status(report)
        tally.check(status == wanted, f"{place} ends with status {status}, and not {wanted}; it says {error!r}")
        tally.check(output == report, f"{place} does not give its report: {first_difference(report, output)}")
        tally.check(not error, f"{place}: standard error has {error!r}")


def check_tries(root, tally, texts, reports):
    words = {name: words_of(root, name) for name in reports}
    found = programs.try_all(root, words, {name: texts[name] for name in reports}, reports)
    for name, report in reports.items():
        status, is_wanted = found.get(name, (None, False))
        wanted = wanted_status(report)
        tally.check(status == wanted, f"{name}.toml ends with status {status}, and not {wanted}")
        tally.check(is_wanted, f"{name}.toml does not give its report")


def check_names(root, tally, texts):
    """A test that has a scenario's name runs that scenario, whatever the order of its tables."""
    # a name, and after it a text that begins as a scenario does
    case = re.compile(r'"(\w+)",\s*("format = (?:[^"\\]|\\.)*")', re.S)
    for file in sorted(root.glob("crates/*/src/**/*.rt")):
        for name, literal in case.findall(file.read_text(encoding="utf-8")):
            if name in texts:
                text = ast.literal_eval(f'""{literal}""')
                is_same = tomllib.loads(text) == tomllib.loads(texts[name].decode())
                tally.check(is_same, f"{file.relative_to(root)}: the test {name} runs another text than {name}.toml")


def check(root, tally, built):
    texts = check_files(root, tally)
    reports = reports_of(root, tally, texts)
    for program in built:
        check_runs(root, tally, program, texts, reports)
    if not built:
        check_tries(root, tally, texts, reports)
    check_names(root, tally, texts)
