"""The texts, reports and summaries that the pages print are those of the scenarios and of the program."""
import re
import tomllib

import program as programs
from words import pages, spans_of

# After a line of a report, and at least two spaces, a page may remark on it.
REMARK = r"\s{2,}.*"


# A text of a run begins so, of whichever command.
BEGIN = ("canely report ", "canely check ", "canely replica ", "canely watch ", "medium ")


def is_part(lines, whole):
    """Whether the lines stand in the whole in this order."""
    rest = iter(whole)
    return all(it in rest for it in lines)


def check_report(place, lines, reports, tally):
    """A block with lines of a report has the lines of one report, in its order; one that begins as a report does has all of them."""
    lines = [re.sub(REMARK, "", it) for it in lines]
    if lines[0].startswith(BEGIN) and lines[-1] == "end":
        tally.check(lines in reports.values(), f"{place}: the report is that of no scenario")
    else:
        tally.check(any(is_part(lines, it) for it in reports.values()), f"{place}: the lines are in no report of scenarios/ in this order")


def check_block(place, lines, reports, texts, built, tally):
    text = "\n".join(lines)
    if not lines:
        return
    if lines[0].startswith(BEGIN) or all(re.match(r"(bus|node|deliver|view|failed|message|hypothesis|reply|key|integrity|agreement|order|views|signs|accuracy|parted|sign|accused|unused) ", it) for it in lines):
        check_report(place, lines, reports, tally)
    elif re.match(r"(#.*\n)*format = ", text):
        tally.check(tomllib.loads(text) in texts, f"{place}: the scenario is none of scenarios/")
    elif built and re.fullmatch(r"storm [0-9]+", lines[0]):
        found = programs.call(built[0], lines[0].split())
        tally.check(found == (0, f"{text}\n".encode(), b""), f"{place}: canely {lines[0]} writes {found}")


def check(root, tally, built):
    reports = {it.name: it.read_text(encoding="utf-8").splitlines() for it in root.glob("scenarios/**/*.report")}
    texts = [tomllib.loads(it.read_text(encoding="utf-8")) for it in root.glob("scenarios/**/*.toml")]
    before = tally.passed + tally.failed
    for page in pages(root):
        for at, lines in spans_of(page.read_text(encoding="utf-8"))[1]:
            check_block(f"{page.relative_to(root)}:{at}", lines, reports, texts, built[:1], tally)
    tally.check(tally.passed + tally.failed > before, "the pages print no report of a scenario")
