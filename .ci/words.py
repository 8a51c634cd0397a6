"""Each word in backticks of the pages exists in the repository, each relative link leads somewhere, and no page has what a merge left."""
import functools
import re
import shutil
import subprocess

# What the pages may name that the repository does not have, by why it does not.
EXCEPTIONS = {
    "a flag of rattle, which rt hands on and its help does not list": "--allow-holes",
    "a type of std that was weighed and not taken": "FinSet",
    "the kit that proved it, as `rt version` prints it": "rattle-kit-13f logic dac8208d650f15bf",
    "a key with a value that is none": "eth",
    "a tool that shows the frames of a CAN bus": "candump",
    "a command of tools/sweep.py, of which strings alone have the name": "storms",
    "tools that spread work over machines": "parallel scancel",
}
ALLOWED = {it for words in EXCEPTIONS.values() for it in words.split()}

SUFFIXES = "rt antt py toml report status md txt edit sh lua svg json".split()
# A word that stands for what a reader puts in its place.
PLACEHOLDER = r"[A-Z]+"
WORD = r"[A-Za-z_][A-Za-z0-9_']*"


def pages(root):
    places = ["*.md", "docs/*.md", "benches/*.md", "tools/*.md", "scenarios/*.md"]
    return [it for place in places for it in sorted(root.glob(place))]


def code_of(file):
    """The text of a file of code without its comments, and of a script without its strings too."""
    text = file.read_text(encoding="utf-8", errors="replace")
    if file.suffix == ".rt":
        return re.sub(r"""//[^\n]*|("(?:[^"\\]|\\.)*"|'\\?.')""", lambda it: it[1] or " ", text)
    if file.suffix == ".antt":
        return re.sub(r"(?m)(^|\s)--(\s[^\n]*)?$", r"\1", text)
    if file.suffix == ".py":
        text = re.sub(r'''"""[\s\S]*?"""|"(?:[^"\\\n]|\\.)*"|'(?:[^'\\\n]|\\.)*\'''', " ", text)
    if file.suffix in (".toml", ".py", ".txt"):
        return re.sub(r"(?m)^\s*#[^\n]*$", "", text)
    return text


# What a file of code defines at its left edge, what it hands on, and what has a body of members.
PUB = r"(?m)^(?:pub(?:\([a-z]+\))? )?"
DEFINED = re.compile(rf"{PUB}(?:fn|struct|enum|trait|const|static|type|mod|macro_rules!) ({WORD})")
HANDED_ON = re.compile(rf"{PUB}use ([^;]*);")
WITH_MEMBERS = re.compile(rf"{PUB}(struct|enum|trait|impl)\b([^;{{]*)\{{(.*?)^\}}", re.S)
# What a body of an item defines: functions, constants and types, fields and variants.
MEMBER = re.compile(rf"(?m)^    (?:pub(?:\([a-z]+\))? )?(?:fn |const |type )?({WORD})")


class Vocabulary:
    """The words of the code, the files, and what stands in what."""

    def __init__(self, root):
        self.root = root
        parts = ["crates/*/src/**/*.rt", "crates/*/specs/**/*.antt", "crates/*/proofs/**/*.antt"]
        others = ["crates.txt", "HANDLES", "scenarios/**/*.toml", "scenarios/**/*.report", "crates/*_trials/stdin", ".ci/*.py", "benches/*.py", "tools/**/*.py"]
        self.code = {it: set(re.findall(WORD, code_of(it))) for part in [*parts, *others] for it in root.glob(part) if it.is_file()}
        files = [it for it in self.code if it.suffix in (".rt", ".antt")]
        self.members = {it for file in files if file.suffix == ".rt" for it in self.members_of(file)}
        # files and folders name modules
        names = {part for it in files for part in it.relative_to(root / "crates").with_suffix("").parts}
        at_top = {it.stem for it in root.iterdir()}
        others = {it.stem for place in ("crates/*/must-fail/*.edit", "scenarios/**/*.toml") for it in root.glob(place)}
        self.words = set().union(*self.code.values(), names, at_top, others)

    def has(self, word):
        return word in self.words or word in ALLOWED or ("NAME" in word or word.endswith("_")) and self.has_like(word)

    @functools.lru_cache(maxsize=None)
    def has_like(self, word):
        # NAME stands for any word, and a word that ends with _ for those that begin with it
        pattern = re.compile(re.sub(r"NAME|(?<=_)$", r"\\w+", word))
        return any(pattern.fullmatch(it) for it in self.words)

    def members_of(self, file):
        """Each pair A, b for which A::b stands in the file: what a type, a trait, a module or a crate has."""
        modules = {*file.relative_to(self.root / "crates").with_suffix("").parts} - {"src"}
        modules |= {file.parent.name} if file.stem in ("lib", "main") else set()
        code = code_of(file)
        handed_on = [it for use in HANDED_ON.findall(code) for it in re.findall(WORD, use)]
        yield from ((module, it) for module in modules for it in [*DEFINED.findall(code), *handed_on])
        for kind, head, body in WITH_MEMBERS.findall(code):
            names = re.findall(WORD, head)
            owners = names if kind == "impl" else names[:1]
            yield from ((owner, it) for owner in owners for it in MEMBER.findall(body))

    def has_in(self, owner, word):
        """Whether a file that is or names the owner has the word."""
        return any(word in words and (owner in words or owner == file.stem) for file, words in self.code.items())

    @functools.lru_cache(maxsize=None)
    def is_path(self, path, page):
        """Whether a path leads somewhere: from the page, the top, crates/, a crate, or a folder of a crate. A suffix may be left out."""
        path = re.sub(r"(?<![a-z])[A-Z]{2,}|(?<=/)X(?=/)", "*", path.rstrip("/")).lstrip("/")
        inside = ["", "crates/", "crates/*/", "crates/*/src/", "crates/*/specs/", "crates/*/proofs/", "crates/*/must-fail/"]
        bases = [self.root / page.parent, self.root]
        for base, within in [(bases[0], ""), *[(bases[1], it) for it in inside]]:
            for suffix in ("", ".rt", ".antt"):
                try:
                    if any(True for _ in base.glob(f"{within}{path}{suffix}")):
                        return True
                except (ValueError, NotImplementedError):
                    return False
        return False


@functools.lru_cache(maxsize=None)
def words_of_kit():
    """The words and flags that `rt --help` has, or None where there is no rt."""
    if not shutil.which("rt"):
        return None
    ran = subprocess.run(["rt", "--help"], stdin=subprocess.DEVNULL, stdout=subprocess.PIPE, stderr=subprocess.STDOUT, text=True)
    return set(re.findall(r"--[a-z-]+|[A-Za-z_][A-Za-z0-9_.-]*", ran.stdout))


def is_made(path):
    """What a build leaves is in no fresh clone."""
    return "out" in path.split("/")


def looks_like_path(token):
    return "/" in token and re.search(r"[a-z]", token) or re.fullmatch(rf"[\w./*-]+\.({'|'.join(SUFFIXES)})", token)


def missing_in(span, page, vocabulary):
    """The parts of a span that name nothing."""
    missing = []
    tokens = span.split()
    for token in tokens:
        token = token.strip("(),;:\"'[]{}<>|&")
        if not token or token in ALLOWED or token.startswith("--") and tokens[0] != "rt":
            continue
        if looks_like_path(token):
            if not is_made(token) and not vocabulary.is_path(token, page):
                missing.append(token)
            continue
        if tokens[0] == "rt":
            known = words_of_kit()
            if known is None or token in known:
                continue
        if len(tokens) > 1 and re.fullmatch(PLACEHOLDER, token) or re.fullmatch(r"x([0-9a-f]{2})*", token):
            continue
        for owner, word in re.findall(rf"({WORD})::(?=({WORD}))", token):
            if (owner, word) not in vocabulary.members:
                missing.append(f"{owner}::{word}")
        for owner, word in re.findall(rf"({WORD})\.(?=({WORD}))", token):
            if vocabulary.has(word) and not vocabulary.has_in(owner, word):
                missing.append(f"{owner}.{word}")
        unknown = [it for it in re.findall(rf"(?<![\w'])({WORD})", token) if len(it) > 1 and not vocabulary.has(it)]
        # a folder such as must-fail
        missing += [] if unknown and "-" in token and vocabulary.is_path(token, page) else unknown
    return missing


def spans_of(text):
    """The spans in backticks outside of fenced blocks, and the fenced blocks, each with its line."""
    spans, blocks, fence = [], [], None
    for at, line in enumerate(text.split("\n"), 1):
        if line.lstrip().startswith("```"):
            fence = None if fence is not None else []
            if fence is not None:
                blocks.append((at, fence))
        elif fence is not None:
            fence.append(line)
        else:
            spans += [(at, it) for it in re.findall(r"`([^`]+)`", line)]
    return spans, blocks


def check_words(page, text, vocabulary, tally, root):
    name = page.relative_to(root)
    spans, blocks = spans_of(text)
    for at, span in spans:
        missing = missing_in(span, name, vocabulary)
        tally.check(not missing, f"{name}:{at}: `{span}`: nothing here is named {', '.join(missing)}")
    for at, lines in blocks:
        for token in " ".join(lines).split():
            # of a block only the files that its commands name
            if re.fullmatch(r"[\w.-]+(/[\w.-]+)+", token) and looks_like_path(token) and not is_made(token):
                path = re.sub(r"^(\.\./)+", "", token)
                tally.check(vocabulary.is_path(path, name), f"{name}:{at}: the block names {token}, which is not there")


def anchors_of(file):
    headings = re.findall(r"(?m)^#+ (.*)$", file.read_text(encoding="utf-8"))
    return {re.sub(r"[^\w\- ]", "", it.lower()).replace(" ", "-") for it in headings}


def check_links(page, text, tally, root):
    name = page.relative_to(root)
    for target in re.findall(r"\]\(([^)\s]+)\)", re.sub(r"`[^`]*`", "", text)):
        if re.match(r"[a-z]+:", target):
            continue
        path, _, anchor = target.partition("#")
        file = (page.parent / path).resolve() if path else page
        if tally.check(file.exists(), f"{name}: the link {target} leads nowhere") and anchor:
            tally.check(anchor in anchors_of(file), f"{name}: the link {target} names no heading")


def check_merged(page, text, tally, root):
    """No line of two versions that a merge left side by side."""
    left = [at for at, line in enumerate(text.split("\n"), 1) if re.match(r"(<{7}|>{7})( |$)", line)]
    tally.check(not left, f"{page.relative_to(root)}: a merge was not finished at lines {left}")


def check(root, tally):
    vocabulary = Vocabulary(root)
    for page in pages(root):
        text = page.read_text(encoding="utf-8")
        check_merged(page, text, tally, root)
        check_words(page, text, vocabulary, tally, root)
        check_links(page, text, tally, root)
