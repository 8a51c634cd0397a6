"""tools/run.py and tools/build.py in a small tree of their own, with a script that stands in for rt: nothing is built or proved."""
import os
import shutil
import subprocess
import sys
import tempfile
from pathlib import Path

from readings import LIMIT

NO_RT = "no rt on the path: put the folder bin of the Rattle kit there"
# Notes each call; tries by answering words and input, and "builds" a program that says so, unless there is a file `fails`.
RT = """#!/bin/sh
echo "$@" >> "{folder}/calls"
case "$1" in
version) printf "kit logic 0123abcd" ;;
try) shift 2; echo "tried $* $(cat)"; exit 9 ;;
run)
    if [ -e "{folder}/fails" ]; then exit 7; fi
    mkdir -p out ../cany_base/out/rlib
    touch ../cany_base/out/rlib/stamp
    printf '#!/bin/sh\\necho built "$@"\\n' > out/canely
    chmod +x out/canely ;;
esac
"""
VERSION = 'const COMMIT: &str = "unknown";\nconst LOGIC: &str = "unproved";\n'


class Tree:
    """A repository with the two scripts, a crate and what it stands on."""

    def __init__(self, root, folder):
        self.folder, self.top = folder, folder / "tree"
        shutil.copytree(root / "tools/lib", self.top / "tools/lib", ignore=shutil.ignore_patterns("__pycache__"))
        for name in ("tools/run.py", "tools/build.py", "tools/words.json"):
            shutil.copy(root / name, self.top / name)
        for name, text in (("crates.txt", "cany_base:\ncanely: cany_base\n"), ("crates/canely/src/version.rt", VERSION), ("crates/cany_base/src/lib.rt", "\n")):
            (self.top / name).parent.mkdir(parents=True, exist_ok=True)
            (self.top / name).write_text(text)
        self.git("init", "-q")
        self.git("add", ".")
        self.git("-c", "user.name=A", "-c", "user.email=a@b", "commit", "-qm", "A tree")
        # what the scripts call, with rt and without
        self.with_rt, self.without_rt = folder / "with", folder / "without"
        for place in (self.with_rt, self.without_rt):
            place.mkdir()
            for tool in ("git", "sh", "cat", "mkdir", "touch", "chmod"):
                (place / tool).symlink_to(shutil.which(tool))
        (self.with_rt / "rt").write_text(RT.format(folder=folder))
        (self.with_rt / "rt").chmod(0o755)

    def git(self, *words):
        return subprocess.run(["git", *words], cwd=self.top, stdout=subprocess.PIPE, check=True, text=True).stdout.strip()

    def calls(self):
        file = self.folder / "calls"
        return file.read_text().splitlines() if file.exists() else []

    def ran(self, script, *words, rt=True):
        """The status of a script, what it wrote, and what it said."""
        environment = {**os.environ, "PATH": str(self.with_rt if rt else self.without_rt), "XDG_CACHE_HOME": str(self.folder / "cache")}
        words = [sys.executable, self.top / "tools" / script, *words]
        ran = subprocess.run(words, cwd=self.folder, env=environment, input="text", stdout=subprocess.PIPE, stderr=subprocess.PIPE, text=True, timeout=LIMIT)
        return ran.returncode, ran.stdout, ran.stderr

    def program(self, place, words, age):
        """Leaves a program at a place that is so many seconds older than the newest source."""
        file = self.top / place
        file.parent.mkdir(parents=True, exist_ok=True)
        file.write_text(f'#!/bin/sh\necho {words} "$@" "$(cat)"\nexit 10\n')
        file.chmod(0o755)
        newest = max(it.stat().st_mtime for it in [self.top / "crates.txt", *self.top.glob("crates/*/src/*.rt")])
        os.utime(file, (newest - age, newest - age))


def check_running(tree, tally):
    found = tree.ran("run.py", "check", rt=False)
    tally.check(found == (1, "", f"run.py: {NO_RT}\n"), f"run.py without rt and a program: {found}")
    for word, shown in (("a.toml", "a.toml"), ("a b", "FILE"), ("\u00e4", "FILE"), ("x" * 41, "FILE")):
        found = tree.ran("run.py", "check", word, rt=False)
        wanted = (2, "", f"canely: check reads the scenario from standard input: canely check < {shown}\n")
        tally.check(found == wanted, f"run.py check {word}, without a program: {found}")
    found = tree.ran("run.py", "watch", "1")
    wanted = (9, "tried watch 1 text\n", "run.py: building the program without a proof, which takes one to four minutes, more on a loaded machine\n")
    tally.check(found == wanted, f"run.py without a program: {found}")
    tree.program("crates/canely/out/canely", "old", 5)
    tally.check(tree.ran("run.py", "check", rt=False)[0] == 1, "run.py runs a program that is older than the sources")
    tree.program("crates/canely/out/canely", "of rt", 0)
    found = tree.ran("run.py", "watch", "1", rt=False)
    tally.check(found == (10, "of rt watch 1 text\n", ""), f"run.py with a fresh program: {found}")
    tree.program("build/canely", "of build", -5)
    found = tree.ran("run.py", rt=False)
    tally.check(found == (10, "of build text\n", ""), f"run.py with two fresh programs: {found}")


def check_building(tree, tally):
    found = tree.ran("build.py", "now")
    tally.check(found == (2, "", "build.py: unrecognized arguments: now; see build.py --help\n"), f"build.py with a word: {found}")
    tally.check(tree.ran("build.py", "--help", rt=False)[0] == 0, "build.py --help does not end with 0")
    found = tree.ran("build.py", rt=False)
    tally.check(found == (1, "", f"build.py: {NO_RT}\n"), f"build.py without rt: {found}")
    status, wrote, said = tree.ran("build.py")
    lines = wrote.splitlines()
    tally.check((status, said, lines[-1:]) == (0, "", ["built --version"]), f"build.py: {status} {wrote} {said}")
    tally.check(len(lines) == 4 and lines[1].endswith("cany_base is proved, 1 of at most 1"), f"build.py says of the crates {lines}")
    tally.check(tree.calls()[-2:] == ["version", "run -- --version"], f"build.py calls rt so: {tree.calls()}")
    copy = next(tree.folder.glob("cache/canely/*/crates/canely/src/version.rt"))
    wanted = VERSION.replace("unknown", tree.git("rev-parse", "HEAD")).replace("unproved", "0123abcd")
    tally.check(copy.read_text() == wanted, f"build.py builds with the version {copy.read_text()!r}")
    found = tree.ran("run.py", "tail", rt=False)
    tally.check(found == (0, "built tail\n", ""), f"run.py does not run what build.py built: {found}")


def check_building_again(tree, tally):
    """A file that is the same is left alone, one that is new is copied, and one that is gone goes."""
    place = next(tree.folder.glob("cache/canely/*"))
    version = place / "crates/canely/src/version.rt"
    other = tree.top / "crates/canely/src/other.rt"
    other.write_text("\n")
    tree.git("add", "crates")
    tree.ran("build.py")
    tally.check((place / "crates/canely/src/other.rt").is_file(), "build.py does not copy a new file")
    tally.check("with changes" in version.read_text(), "build.py tells no changes since the commit")
    other.unlink()
    tree.git("add", "crates")
    tree.ran("build.py")
    tally.check(not (place / "crates/canely/src/other.rt").exists(), "build.py keeps a file that is gone")
    before = version.stat().st_mtime_ns
    (tree.folder / "fails").touch()
    found = tree.ran("build.py")
    tally.check(version.stat().st_mtime_ns == before, "build.py writes a file anew that is the same")
    wanted = f"build.py: rt run ended with status 7; its words are in {place / 'build.log'}\n"
    tally.check((found[0], found[2]) == (1, wanted), f"build.py, where rt fails: {found}")


def check(root, tally):
    with tempfile.TemporaryDirectory() as folder:
        tree = Tree(root, Path(folder))
        check_running(tree, tally)
    with tempfile.TemporaryDirectory() as folder:
        tree = Tree(root, Path(folder))
        check_building(tree, tally)
        check_building_again(tree, tally)
