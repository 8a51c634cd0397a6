"""What came of the cases of a folder: a table by part of the promise, and JUnit XML."""
from collections import Counter
from pathlib import Path
from typing import NamedTuple, Optional
from xml.sax.saxutils import escape, quoteattr

from .cases import case_paths, status_of
from .lines import Malformed
from .verdict import BROKEN, HEAD, HELD, OPEN, Outline, read_outline
from .words import BREAKS

JUDGEMENTS = ("held", "open", "broken")


class Outcome(NamedTuple):
    """A case that was judged, or why it was not."""

    path: str
    check: Optional[Outline]
    failure: Optional[str]
    """What is told of a case that ended otherwise; None also where it is not done."""

    @property
    def name(self):
        return "/".join(Path(self.path).parts[-2:])

    @property
    def is_within(self):
        return self.check.first_break is None

    @property
    def is_promised(self):
        """Whether something is broken that is promised of the run: within the hypothesis all is."""
        return self.is_within and bool(self.check.broken)


def outcome(path):
    try:
        found = status_of(path)
        if not found:
            return Outcome(path, None, None)
        status, said = found
        text = Path(f"{path}.check").read_bytes()
        if status not in (HELD, BROKEN, OPEN):
            first = text.decode(errors="replace").partition("\n")[0]
            return Outcome(path, None, f"status {status} {said or first}".rstrip())
        check = read_outline(text)
        if check.status != status:
            return Outcome(path, None, f"status {status}, and its text is that of {check.status}")
        return Outcome(path, check, None)
    except (OSError, Malformed) as error:
        return Outcome(path, None, f"its text of check: {error}")


def outcomes(folder):
    return [outcome(path) for path in case_paths(folder)]


def words_of(unused, given):
    """Whose an entry without an effect is, and what its line says beside numbers."""
    whose = "given" if unused.place < given.get(unused.table, 0) else "made"
    return " ".join([whose, unused.table, *(word for word in unused.why.split() if not word.isdecimal())])


def unused_lines(judged, given):
    """The entries without an effect: those of the scenario that was given, and those that the sweep made."""
    entries, cases = Counter(), Counter()
    for one in judged:
        words = [words_of(it, given) for it in one.check.unused]
        entries.update(words)
        cases.update({it.split()[0] for it in words})
    for whose in ("given", "made"):
        count = sum(number for words, number in entries.items() if words.startswith(whose))
        yield f"unused {whose} {count} in {cases[whose]} cases"
    yield from (f"unused {words} {count}" for words, count in sorted(entries.items()))


def part_rows(judged):
    """A row for each part of the promise, and one for the runs: how many held, are open, are broken, within the hypothesis and outside."""
    found = {name: Counter() for name in (*HEAD, "run")}
    first = {}
    for one in judged:
        for name, part in one.check.parts.items():
            found[name][one.is_within, part.judgement] += 1
            if part.judgement == "broken":
                first.setdefault(name, one.name)
        judgements = {part.judgement for part in one.check.parts.values()}
        found["run"][one.is_within, next(it for it in reversed(JUDGEMENTS) if it in judgements)] += 1
    yield f"{'':14}{'within':>24}{'outside':>26}"
    yield f"{'part':14}{'held':>8}{'open':>8}{'broken':>8}  {'held':>8}{'open':>8}{'broken':>8}  first broken"
    for name, counts in found.items():
        cells = "".join(f"{counts[True, it]:8}" for it in JUDGEMENTS) + "  " + "".join(f"{counts[False, it]:8}" for it in JUDGEMENTS)
        yield f"{name:14}{cells}  {first.get(name, '')}".rstrip()


def table(found, given):
    """The summary of the cases, each of which has so many entries of the scenario that was given."""
    judged = [it for it in found if it.check]
    failed = [it for it in found if it.failure]
    yield f"cases {len(found)} judged {len(judged)} otherwise {len(failed)} left {len(found) - len(judged) - len(failed)}"
    yield from (f"otherwise {it.name} {it.failure}" for it in failed[:10])
    yield from unused_lines(judged, given)
    kinds = Counter(it.check.first_break[0] for it in judged if it.check.first_break)
    yield f"hypothesis within {sum(it.is_within for it in judged)} " + " ".join(f"{kind} {kinds[kind]}" for kind in BREAKS)
    yield ""
    yield from part_rows(judged)


def junit(found, name):
    """JUnit XML: a case for each scenario. It fails where a part is broken that is promised."""
    failed = [it for it in found if it.check and it.is_promised]
    errors = [it for it in found if it.failure]
    left = sum(it.check is None and it.failure is None for it in found)
    counts = f'tests="{len(found)}" failures="{len(failed)}" errors="{len(errors)}" skipped="{left}"'
    yield '<?xml version="1.0" encoding="UTF-8"?>'
    yield f"<testsuites><testsuite name={quoteattr(name)} {counts}>"
    for it in found:
        if it.failure:
            inside = f"<error message={quoteattr(it.failure)}/>"
        elif it.check is None:
            inside = "<skipped/>"
        elif it.is_promised:
            words = f"broken within the hypothesis: {', '.join(it.check.broken)}"
            inside = f"<failure message={quoteattr(words)}>{escape(Path(f'{it.path}.check').read_text(encoding='ascii'))}</failure>"
        else:
            inside = ""
        yield f"<testcase classname={quoteattr(name)} name={quoteattr(it.name)}>{inside}</testcase>"
    yield "</testsuite></testsuites>"
