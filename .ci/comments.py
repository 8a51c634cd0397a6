"""The comments of the code are wrapped at 100 columns, which `rt fmt` does not do. Headings within a file stay in one line."""
import re

COLUMNS = 100
COMMENT = re.compile(r"\s*(--|//)(?! ----)")


def too_wide(file):
    """The numbers of the lines of a file that are comments and too wide."""
    lines = file.read_text(encoding="utf-8").splitlines()
    return [number for number, line in enumerate(lines, 1) if len(line) > COLUMNS and COMMENT.match(line)]


def files_of(crate):
    folders = (crate / name for name in ("src", "specs", "proofs"))
    return [it for folder in folders for it in sorted(folder.rglob("*")) if it.suffix in (".rt", ".antt")]


def check(root, tally):
    for crate in sorted((root / "crates").iterdir()):
        wide = [f"{file.relative_to(root)}:{number}" for file in files_of(crate) for number in too_wide(file)]
        tally.check(not wide, f"comments wider than {COLUMNS} columns: {', '.join(wide)}")
