"""The counts of lines in docs/architecture.md, and the tables of milliseconds in README.md and docs/times.md."""
import re
from decimal import ROUND_HALF_UP, Decimal


def tables(page):
    """The tables of a page: each a header and its rows, as lists of cells."""
    found, last = [], -2
    for at, line in enumerate(page.split("\n")):
        if not line.startswith("|"):
            continue
        cells = [it.strip() for it in line.strip().strip("|").split("|")]
        if at != last + 1:
            found.append((cells, []))
        elif not all(re.fullmatch(r":?-+:?", it) for it in cells):
            found[-1][1].append(cells)
        last = at
    return found


def number(text):
    return int(text.replace(",", "")) if re.fullmatch(r"[0-9][0-9,]*", text) else None


def ticked(text):
    return re.findall(r"`([^`]+)`", text)


def line_count(file):
    return file.read_bytes().count(b"\n")


class Counts:
    def __init__(self, root, tally):
        self.root, self.tally = root, tally

    def files_of(self, part):
        """The files that a part of a cell names: "`FOLDER`: `A`, `B`" or "`FOLDER`: all but `A` and `B`"."""
        folder, _, rest = part.partition(":")
        at = self.root / "crates" / ticked(folder)[0]
        names = ticked(rest)
        if rest.strip().startswith("all but "):
            missing = [it for it in names if not (at / f"{it}.antt").is_file()]
            files = [it for it in sorted(at.glob("*.antt")) if it.stem not in names]
        else:
            missing = [it for it in names if not (at / f"{it}.antt").is_file()]
            files = [at / f"{it}.antt" for it in names if it not in missing]
        self.tally.check(files and not missing, f"docs/architecture.md, What to believe: {ticked(folder)[0]} has no {', '.join(missing) or 'file'}")
        return files

    def believed(self, page):
        """The table of "What to believe", and the files of each of its rows."""
        rows = next((rows for head, rows in tables(page) if head[-1] == "lines" and head[1:2] == ["files"]), [])
        self.tally.check(rows, "docs/architecture.md has no table with the columns files and lines")
        found = {}
        for cells in rows:
            found[cells[0]] = [file for part in cells[1].split(";") for file in self.files_of(part)]
            lines = sum(map(line_count, found[cells[0]]))
            self.tally.check(number(cells[-1]) == lines, f"docs/architecture.md, What to believe, row {cells[0]}: {lines:,} lines, and not {cells[-1]}")
        return found

    def safety(self, page, believed):
        """The sentence on what IsSafe rests on: rows of the table by their numbers, "but" some files of a row, and single files."""
        found = re.search(r"`IsSafe` alone[^.]*? rests on ([^.]*?): ([0-9,]+) lines", page)
        if not self.tally.check(found, 'docs/architecture.md has no sentence "`IsSafe` alone .. rests on .. 1, in 2 but for `A`, on `B`: N lines"'):
            return
        names, files = "`[^`]+`(?:(?:, | and )`[^`]+`)*", []
        for row, but, name in re.findall(rf"([0-9]+)(?: but(?: for)? ({names}))?|`([^`]+)`", found[1]):
            every, without = believed.get(row, []), ticked(but)
            if name:
                every, without = [it for files in believed.values() for it in files if it.stem == name], []
            named = [it for it in every if it.stem not in without]
            is_clear = len(named) == 1 if name else named and len(named) == len(every) - len(without)
            self.tally.check(is_clear, f"docs/architecture.md: on what IsSafe rests: {name or row} {but} is not what the table has")
            files += named
        lines = sum(map(line_count, files))
        self.tally.check(number(found[2]) == lines, f"docs/architecture.md: IsSafe rests on {lines:,} lines, and not {found[2]}")

    def listed(self, page):
        """Files that are listed before "(N lines)"."""
        for names, said in re.findall(r"((?:`[\w/]+`(?:, | and ))*`[\w/]+`) \(([0-9,]+) lines\)", page):
            files = []
            for name in ticked(names):
                found = [*self.root.glob(f"crates/*/specs/{name}.antt"), *self.root.glob(f"crates/{name}.antt")]
                self.tally.check(len(found) == 1, f"docs/architecture.md: {name} names {len(found)} files of specs")
                files += found
            lines = sum(map(line_count, files))
            self.tally.check(number(said) == lines, f"docs/architecture.md: {names} have {lines:,} lines, and not {said}")

    def folders(self, page):
        """The tables with the columns specs and proofs, and before these a crate, a folder of it, or both."""
        found = [(head, rows) for head, rows in tables(page) if [it.strip("`") for it in head[-2:]] == ["specs", "proofs"]]
        self.tally.check(found, "docs/architecture.md has no table of folders that ends with the columns specs and proofs")
        for head, rows in found:
            crate = ""
            for *named, specs, proofs in rows:
                cells = dict(zip(head, (ticked(it)[:1] for it in named)))
                crate = "".join(cells.get("crate", [])) or crate
                folder = "".join(cells.get("folder", []))
                for part, said in (("specs", specs), ("proofs", proofs)):
                    # a row of a folder within the one above may leave its counts out
                    if said or not named[-1].startswith("-"):
                        self.folder(crate, folder, part, said)

    def folder(self, crate, folder, part, said):
        places = [it for it in self.root.glob(f"crates/{crate or '*'}/{part}/{folder}") if it.is_dir()]
        self.tally.check(len(places) <= 1, f"docs/architecture.md: a folder {folder} is in {part} of more than one crate: name the crate too")
        lines = sum(line_count(it) for place in places for it in place.rglob("*.antt"))
        name = "/".join(filter(None, [crate, part, folder]))
        self.tally.check((number(said) if said else 0) == lines, f"docs/architecture.md, folders: {name} has {lines:,} lines, and not {said or 'none'}")


# The bits of a slot, the bits in a millisecond at 500 kbit/s, and the parameters of the tables.
SLOT_BITS, BITS_A_MS, LAG, ERRORS = 180, 500, 0, 2
# The columns that a table of times may have.
TIMES = {
    "nodes": lambda it: it["nodes"],
    "bound, slots": lambda it: it["bound"],
    "accepted, ms": lambda it: milliseconds(it["bound"] + LAG),
    "cycle, ms": lambda it: milliseconds(it["cycle"]),
    "known as failed, ms": lambda it: milliseconds(it["silence"] + LAG),
    "out of the views, ms": lambda it: milliseconds(it["silence"] + it["cycle"] + it["bound"] + LAG),
    "in the views after JOIN, ms": lambda it: milliseconds(it["cycle"] + it["bound"] + LAG),
}


def milliseconds(slots):
    return int((Decimal(slots * SLOT_BITS) / BITS_A_MS).to_integral_value(ROUND_HALF_UP))


def least_parameters(nodes):
    """The least parameters for so many nodes, by the formulas of cany_base/specs/Params."""
    top_frames = 3 * nodes * nodes + 2 * nodes
    bound = 1 + top_frames + ERRORS + LAG * (top_frames + ERRORS + nodes + 1)
    life = bound + LAG
    return {"nodes": nodes, "bound": bound, "cycle": 2 * bound + 2 * LAG, "silence": life + LAG + bound + 1}


def check_times(name, page, tally):
    found = [(head, rows) for head, rows in tables(page) if head[0] == "nodes" and set(head) <= set(TIMES)]
    tally.check(found, f"{name} has no table of times, with columns of {', '.join(TIMES)}")
    for head, rows in found:
        for cells in rows:
            nodes = number(cells[0])
            wanted = [TIMES[it](least_parameters(nodes)) for it in head] if nodes else []
            tally.check([number(it) for it in cells] == wanted, f"{name}, times: the row of {cells[0]} nodes is {cells[1:]}, and not {wanted[1:]}")


def check(root, tally):
    page = (root / "docs/architecture.md").read_text(encoding="utf-8")
    counts = Counts(root, tally)
    counts.safety(page, counts.believed(page))
    counts.listed(page)
    counts.folders(page)
    for name in ("README.md", "docs/times.md"):
        check_times(name, (root / name).read_text(encoding="utf-8"), tally)
