"""The program that scenarios are run by: a built one, or one that `rt try` builds without a proof."""
import os
import re
import subprocess
import tempfile
from pathlib import Path

# Seconds for one run, and for a build with all runs.
RUN_LIMIT, TRY_LIMIT = 120, 3600


def sources(root):
    return [root / "crates.txt", *root.glob("crates/*/src/**/*.rt")]


def built(root, given):
    """The paths of the programs that were built from the files as they are: as LLVM builds it, and as Rattle's own compiler does.

    `rt ci` leaves both in out/, and `rt run` the first. One that is older than a file of code is not that of these files."""
    if given:
        return [Path(given).resolve(strict=True)]
    newest = max(it.stat().st_mtime for it in sources(root))
    programs = [it for it in root.glob("crates/canely/out/canely*") if it.name in ("canely", "canely.by-rattle")]
    fresh = [it for it in sorted(programs) if it.stat().st_mtime >= newest]
    if not fresh:
        why = "the program in crates/canely/out is older than the code" if programs else "no program in crates/canely/out"
        print(f"check: {why}: rt try builds one without a proof")
    return fresh


def call(program, arguments, stdin=b"", stdout=subprocess.PIPE):
    """Runs a built program on bytes or on an open file, and returns its status, its output and its lines on standard error."""
    given = {"input": stdin} if isinstance(stdin, bytes) else {"stdin": stdin}
    with tempfile.TemporaryDirectory() as folder:
        try:
            ran = subprocess.run([program, *arguments], **given, stdout=stdout, stderr=subprocess.PIPE, cwd=folder, timeout=RUN_LIMIT)
        except subprocess.TimeoutExpired:
            return None, b"", f"no end after {RUN_LIMIT} seconds".encode()
    return ran.returncode, ran.stdout or b"", ran.stderr


def try_all(root, words, texts, wanted):
    """Runs each text by one `rt try`, which compares the output itself: status and whether the output was the wanted one, by name."""
    with tempfile.TemporaryDirectory() as folder:
        for name, text in texts.items():
            Path(folder, name).write_bytes(text)
            Path(folder, f"{name}.args").write_text("".join(f"{word}\n" for word in words[name]))
            Path(folder, f"{name}.stdout").write_bytes(wanted[name])
        ran = subprocess.run(["rt", "try", "--cases", folder], cwd=root / "crates/canely", stdin=subprocess.DEVNULL, stdout=subprocess.PIPE, stderr=subprocess.STDOUT, text=True, errors="replace", timeout=TRY_LIMIT)
    lines = re.findall(r"(?m)^case=(\S+) run=ended status=(\d+) .*\boutput=(\w+)", ran.stdout)
    if ran.returncode or len(lines) != len(texts):
        print(ran.stdout[-3000:])
    return {name: (int(status), output == "expected") for name, status, output in lines}
