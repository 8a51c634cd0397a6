"""A text of canely, line by line: what its lines are built of, and the line at which a text is none."""
import functools
import re

from .words import BREAKS, SERVICES, one_of

NUMBER = r"(?:0|[1-9][0-9]*)"
SET = rf"(?:-|{NUMBER}(?:,{NUMBER})*)"
SERVICE = one_of(SERVICES)
# The line on the fault hypothesis, of which reports and the text of check have one.
HYPOTHESIS = re.compile(rf"hypothesis (?:within|outside (?P<kind>{one_of(BREAKS)}) (?P<slot>{NUMBER}))")


class Malformed(Exception):
    """A text is not of the form that it should have; the line where that shows is counted from 1."""

    def __init__(self, line, why):
        super().__init__(f"line {line}: {why}")
        self.line = line


def shown(line):
    """A line as a message shows it: not too long, and on one line."""
    return repr(line if len(line) <= 60 else line[:57] + "...")


def number(text):
    """The number of a field, or None where the line does not have the field."""
    return None if text is None else int(text)


@functools.lru_cache(maxsize=1 << 16)
def nodes_of(text):
    """The nodes of a SET of a line. None where they do not ascend."""
    nodes = () if text == "-" else tuple(map(int, text.split(",")))
    return nodes if all(a < b for a, b in zip(nodes, nodes[1:])) else None


def set_text(nodes):
    """The SET as a line has it."""
    return ",".join(map(str, nodes)) or "-"


class Lines:
    """The lines of a text in their order, each taken once."""

    def __init__(self, data):
        if not data:
            raise Malformed(1, "the text is empty")
        try:
            text = data.decode("ascii")
        except UnicodeDecodeError as error:
            raise Malformed(data[: error.start].count(b"\n") + 1, "has bytes that no line of canely has") from None
        self.lines = text.split("\n")
        # what stands after the last line feed: a whole text ends with one
        self.rest = self.lines.pop()
        self.taken = 0

    def fault(self, why):
        """What is wrong with the line that was taken last."""
        return Malformed(self.taken, why)

    def begins(self, word):
        """Whether the next line begins with the word."""
        return self.taken < len(self.lines) and self.lines[self.taken].split(" ", 1)[0] == word

    def take(self):
        if self.taken == len(self.lines):
            self.taken += 1
            raise self.fault("is cut off" if self.rest else "is missing: the text ends before its line 'end'")
        self.taken += 1
        return self.lines[self.taken - 1]

    def match(self, pattern, form):
        """The fields of the next line, which has to be of the form."""
        line = self.take()
        found = pattern.fullmatch(line)
        if not found:
            raise self.fault(f"{shown(line)} is not of the form '{form}'")
        return found

    def all_of(self, word, pattern, form):
        """The fields of each of the next lines that begin with the word."""
        while self.begins(word):
            yield self.match(pattern, form)

    def skip_to(self, *words):
        """Takes the next lines up to one that begins with one of the words."""
        while self.taken < len(self.lines) and not any(map(self.begins, words)):
            self.taken += 1

    def end(self):
        """The line 'end' has to come next, and nothing after it."""
        if self.take() != "end":
            raise self.fault(f"{shown(self.lines[self.taken - 1])} stands where this line, another, or 'end' has to")
        if self.taken < len(self.lines) or self.rest:
            self.taken += 1
            raise self.fault("stands after the line 'end'")
