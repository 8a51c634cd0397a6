#!/usr/bin/env python3
"""Writes the lists of docs/variants.md from the crates: python3 .ci/variants.py --write. Prints one list: python3 .ci/variants.py Step.

For each public enum of the plain types: the files that name a variant of it. The gate holds the lists equal to what this makes."""
import argparse
import re
import sys
from pathlib import Path

from source import OF_TESTS

PAGE = "docs/variants.md"
BEGIN, END = "<!-- the lists: .ci/variants.py writes them -->", "<!-- the end of the lists -->"
# The enums whose variants many crates name. What a text calls the variants, where tools name them too.
ENUMS = {
    "Verdict": ("cany_base", ("clean", "lost", "partial", "silent")),
    "Service": ("cany_base", ("ed", "rel", "tot")),
    "Class": ("cany_base", ("accept", "els", "rha", "fda", "join", "leave", "confirm")),
    "Format": ("cany_base", ()),
    "NoticeKind": ("cany_base", ()),
    "LogEntry": ("cany_base", ("deliver", "view", "failed")),
    "Step": ("cany_base", ()),
    "Place": ("cany_base", ()),
    "Action": ("cany_base", ()),
    "BreakKind": ("cany_model", ()),
    "Fate": ("cany_check", ("all", "none", "apart", "open")),
    "UnusedEntry": ("cany_check", ()),
}
# Those that the page lists.
ON_PAGE = ("Verdict", "Service", "Class", "Format", "NoticeKind", "LogEntry")


def variants_of(root, enum, crate):
    for file in (root / "crates" / crate / "src").rglob("*.rt"):
        if found := re.search(rf"(?ms)^pub enum {enum} \{{(.*?)^\}}", file.read_text(encoding="utf-8")):
            return re.findall(r"(?m)^    (\w+)\b(?=[,({ ]|$)", re.sub(r"//[^\n]*", "", found[1]))
    raise LookupError(f"{crate} has no public enum {enum}")


def names_it(text, suffix, enum, variants):
    if suffix == ".antt":
        return re.search(rf"\.{enum}\.TheVariants\b", text) is not None
    return re.search(rf"\b{enum}::({'|'.join(variants)})\b", text) is not None


def tools_that_name(root, words):
    files = [it for suffix in ("py", "html", "lua", "json") for it in sorted((root / "tools").rglob(f"*.{suffix}"))]
    quoted = re.compile("|".join(rf"[\"'`]{it}[\"'`]" for it in words))
    return [str(it.relative_to(root)) for it in files if words and len(set(quoted.findall(it.read_text(encoding="utf-8")))) > 1]


def list_of(root, enum):
    crate, words = ENUMS[enum]
    variants = variants_of(root, enum, crate)
    rows, proofs = [], {}
    for folder in sorted((root / "crates").iterdir()):
        if OF_TESTS.search(folder.name) or not folder.is_dir():
            continue
        names = []
        for part, suffix in (("src", ".rt"), ("specs", ".antt"), ("proofs", ".antt")):
            files = sorted((folder / part).rglob(f"*{suffix}"))
            found = [it.stem for it in files if names_it(it.read_text(encoding="utf-8"), suffix, enum, variants)]
            if part != "proofs":
                names += found
            elif found:
                proofs[folder.name] = len(found)
        if names:
            rows.append(f"- `{folder.name}`: {', '.join(f'`{it}`' for it in names)}")
    lines = [f"### `{enum}` of `{crate}`", "", f"{', '.join(f'`{it}`' for it in variants)}; {proofs_in(proofs)}", ""]
    if tools := tools_that_name(root, words):
        rows.append(f"- tools: {', '.join(f'`{it}`' for it in tools)}")
    return "\n".join([*lines, *rows, ""])


def proofs_in(crates):
    """How many files of proofs name a variant, and the three crates that have the most of them."""
    most = sorted(crates, key=lambda it: (-crates[it], it))[:3]
    return f"{sum(crates.values())} files of proofs: {', '.join(f'`{it}` {crates[it]}' for it in most)}{' ..' if len(crates) > 3 else ''}"


def lists(root):
    return "\n".join(list_of(root, it) for it in ON_PAGE)


def page(root):
    """The page with its lists made anew."""
    text = (root / PAGE).read_text(encoding="utf-8")
    before, _, rest = text.partition(BEGIN)
    return f"{before}{BEGIN}\n\n{lists(root)}\n{END}{rest.partition(END)[2]}"


def check(root, tally):
    tally.check(page(root) == (root / PAGE).read_text(encoding="utf-8"), f"{PAGE} is not what the crates say: python3 .ci/variants.py --write writes it anew")


def main():
    parser = argparse.ArgumentParser(description=__doc__.split("\n")[0])
    parser.add_argument("enum", nargs="?", choices=ENUMS, help="print the list of this enum alone")
    parser.add_argument("--write", action="store_true", help=f"write {PAGE}")
    root = Path(__file__).resolve().parent.parent
    given = parser.parse_args()
    if given.write:
        (root / PAGE).write_text(page(root), encoding="utf-8")
    else:
        sys.stdout.write(list_of(root, given.enum) if given.enum else page(root))


if __name__ == "__main__":
    sys.dont_write_bytecode = True
    main()
