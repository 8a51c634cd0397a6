"""The functions of the crates, as their sources say them: doc comments, contracts, bodies, and which calls which."""
import dataclasses
import functools
import re

WORD = r"[A-Za-z_][A-Za-z0-9_]*"
# A crate of tests or of trials has no call for others.
OF_TESTS = re.compile(r"_(tests|trials)$")
FUNCTION = re.compile(rf"^(?P<indent>(?:    )*)(?P<public>pub )?(?:pub\([a-z]+\) )?(?:const )?fn (?P<name>{WORD})")
OWNER = re.compile(r"^(?P<public>pub )?(?P<kind>impl|trait)\b(?P<head>.*)")
CLAUSE = re.compile(rf"(?m)^\s*(requires|ensures)\b\s*(?:\*\s*)?(?:({WORD})\s*)?\{{")
# The paragraphs of a doc comment that the catalogue has.
PARTS = ("Promise", "Answers", "Shown by")


@dataclasses.dataclass(frozen=True)
class Function:
    """A function of a source file; lines are counted from 1, the last one is that of its end."""

    crate: str
    file: object
    first: int
    last: int
    owner: str | None
    name: str
    is_public: bool
    is_test: bool
    is_of_trait: bool
    comment: str
    signature: str
    body: str

    @property
    def call(self):
        return f"{self.owner}::{self.name}" if self.owner else self.name

    @property
    def answer(self):
        """The type of the answer, or an empty text."""
        return next(iter(re.findall(r"->\s*(.+?)\s*(?=\b(?:requires|ensures|where)\b|$)", " ".join(self.signature.split()))), "")

    def clauses(self, kind):
        """The names of the clauses of a kind, and a dash for those without one."""
        return list(dict.fromkeys(name or "–" for it, name in CLAUSE.findall(self.signature) if it == kind))

    def part(self, name):
        """The paragraph of the doc comment that begins with the name and a colon, or None."""
        found = re.search(rf"(?ms)^{name}: (.*?)(?=\n\s*\n|\Z)", self.comment)
        return " ".join(found[1].split()) if found else None

    def errors(self):
        """What stands under the heading of errors, or None."""
        found = re.search(r"(?ms)^# Errors\s*\n(.*?)(?=^# |\Z)", self.comment)
        return " ".join(found[1].split()) if found else None

    @functools.cached_property
    def code(self):
        """The body without comments and texts."""
        return re.sub(r"""//[^\n]*|"(?:[^"\\]|\\.)*\"""", " ", self.body)

    @property
    def makes_its_owner(self):
        """Whether a value of the owner comes from it, and from no other value of the owner."""
        head = " ".join(self.signature.split())
        takes_self = re.search(r"\(\s*(&\s*)?(mut )?self\b", head)
        return self.owner is not None and not takes_self and re.search(rf"\b(Self|{self.owner})\b", self.answer) is not None


def end_of(lines, at, indent):
    """The place of the line that ends the function which begins at a line, and that of the line at which its body begins."""
    start, depth = None, 0
    for place in range(at, len(lines)):
        line = lines[place]
        if start is None:
            if line == f"{indent}{{}}":
                return place, place
            # braces of clauses are closed before the body begins, or before the end of a call without one
            opened = depth + line.count("{") - line.count("}")
            if depth == 0 and opened == 1 and line.endswith("{"):
                start = place
            elif opened == 0 and line.endswith(";"):
                return place, place + 1
            elif depth == 0 and opened == 0 and line.endswith("}") and not re.match(r"\s*(requires|ensures)\b", line) and CLAUSE.search(line) is None:
                return place, place
            depth = opened
        if start is not None and line == f"{indent}}}":
            return place, start
    return len(lines) - 1, at if start is None else start


def functions_in(file, crate):
    lines = file.read_text(encoding="utf-8").split("\n")
    owner, is_trait, is_public_trait, comment, is_test = None, False, False, [], False
    place, in_attribute = 0, False
    while place < len(lines):
        line = lines[place]
        if found := OWNER.match(line):
            head = found["head"]
            is_for = re.search(r"\bfor (?:&mut |&)?(\w+)", head) if found["kind"] == "impl" else None
            named = re.search(r"\w+", re.sub(r"^\s*<(?:[^<>]|<[^<>]*>)*>", "", head))
            owner = is_for[1] if is_for else named[0]
            is_trait = found["kind"] == "trait"
            is_public_trait = is_trait and found["public"] is not None
            is_of_trait = is_for is not None
            if line.rstrip().endswith("}"):
                owner = None
        elif line == "}":
            owner, is_trait, is_public_trait = None, False, False
        found = FUNCTION.match(line)
        if found and (found["indent"] == "" or owner and found["indent"] == "    "):
            last, start = end_of(lines, place, found["indent"])
            is_member = owner is not None and found["indent"] != ""
            yield Function(
                crate=crate,
                file=file,
                first=place + 1 - len(comment),
                last=last + 1,
                owner=owner if is_member else None,
                name=found["name"],
                is_public=is_public_trait if is_member and is_public_trait else bool(found["public"]) and not (is_member and is_of_trait),
                is_test=is_test,
                is_of_trait=is_member and is_trait,
                comment="\n".join(it.strip().removeprefix("///").strip() for it in comment if it.strip().startswith("///")),
                signature="\n".join(lines[place:start]) if start > place else line,
                body="\n".join(lines[start : last + 1]),
            )
            comment, is_test = [], False
            place = last + 1
            continue
        stripped = line.strip()
        is_attribute = stripped.startswith("#[") or in_attribute
        if stripped.startswith("///") or is_attribute:
            comment.append(line)
            is_test = is_test or stripped == "#[test]"
            in_attribute = is_attribute and not stripped.endswith("]")
        elif stripped and not stripped.startswith("//"):
            comment, is_test = [], False
        place += 1


@functools.lru_cache(maxsize=None)
def functions(root):
    """All functions of the crates, in the order of crates.txt and of their files."""
    found = []
    for line in (root / "crates.txt").read_text().splitlines():
        name = line.partition(":")[0].split()
        if name and not line.startswith("#"):
            for file in sorted((root / "crates" / name[0] / "src").rglob("*.rt")):
                found += functions_in(file, name[0])
    return tuple(found)


def is_of_tests(function):
    return OF_TESTS.search(function.crate) is not None or "tests" in function.file.with_suffix("").parts


def public_calls(root):
    """The calls that a crate has for others."""
    return [it for it in functions(root) if it.is_public and not it.is_test and not is_of_tests(it)]


CALLED = re.compile(rf"(?:\b({WORD})(?:::<[^;{{}}]*?>)?(::)|(\.)\s*)?\b({WORD})(?:::<[^;{{}}]*?>)?\s*(?=\()|\b({WORD})::({WORD})\b(?!\s*[(:])")


class CallGraph:
    """What a function may run, by the names in its body. A method counts as called where its name is, once a value of its type may be there."""

    def __init__(self, root):
        self.free, self.members, self.makers = {}, {}, {}
        for it in functions(root):
            (self.free if it.owner is None else self.members).setdefault(it.name, []).append(it)
        owners = {it.owner for those in self.members.values() for it in those}
        for it in functions(root):
            for owner in self.made_by(it, owners):
                self.makers.setdefault(owner, set()).add(it)

    def made_by(self, function, owners):
        """The types of which a value may come from the function, and from no other value of the type: it answers one, or its body writes one down."""
        written = set(re.findall(r"\b([A-Z]\w*)(?:::[A-Z]\w*\b|(?:::<[^;{}]*?>)?\s*\{)", function.code))
        if function.makes_its_owner or "Self" in written:
            written.add(function.owner)
        return written & owners

    @functools.lru_cache(maxsize=None)
    def imported(self, file):
        """The free functions that a file imports by name: it may hand them on without calling them."""
        uses = re.findall(r"(?m)^(?:pub )?use ([^;]*);", file.read_text(encoding="utf-8"))
        return {it for use in uses for it in re.findall(WORD, use) if it in self.free}

    @functools.lru_cache(maxsize=None)
    def called_by(self, function):
        """The functions that the body names, and the methods that it names without their type."""
        named, methods = [], []
        for owner, path, dot, name, by_path, member in CALLED.findall(function.code):
            if dot:
                methods += self.members.get(name, [])
                continue
            if member:
                owner, path, name = by_path, "::", member
            if path:
                owner = function.owner if owner == "Self" else owner
                of_owner = [it for it in self.members.get(name, []) if it.owner == owner]
                named += of_owner or self.free.get(name, [])
                # by a type parameter or a trait
                methods += [] if of_owner else self.members.get(name, [])
            else:
                named += self.free.get(name, [])
        for name in self.imported(function.file) & set(re.findall(WORD, function.code)):
            named += self.free[name]
        return named, methods

    def runs_from(self, starts):
        """All that may run where these functions do."""
        reached, waiting, left = set(), {}, [*starts]
        while left:
            it = left.pop()
            if it in reached:
                continue
            reached.add(it)
            named, methods = self.called_by(it)
            left += named
            for method in methods:
                makers = None if method.is_of_trait else self.makers.get(method.owner)
                if makers and not makers & reached:
                    waiting.setdefault(method.owner, []).append(method)
                else:
                    left.append(method)
            for owner in [owner for owner in waiting if it in self.makers[owner]]:
                left += waiting.pop(owner)
        return reached
