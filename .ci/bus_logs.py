"""Bus logs: identifiers are those of can_frame, frames have the bits that CAN says, and the tools of Debian read the logs."""
import re
import shutil
import subprocess
import tempfile
from pathlib import Path

from buslog import Clock, asc, at_the_nodes, candump, on_the_bus
from lib import report as reports
from lib import wire
from readings import stored, stored_bytes

LIMIT = 60
FORMATS = {"One": 1, "Two": 2}
# The check value of CRC-15/CAN: that of the nine digits.
CHECK_TEXT, CHECK_CRC = b"123456789", 0x059E
# Reports whose logs the tools read: data and remote frames, errors, an incarnation.
READ_BY_TOOLS = ("restart_joins", "join_after_partial", "three_services", "sixteen_lost_slots")
# With the python3 of Debian, whose package python3-can it may have: what each frame of the files is to python-can.
PYTHON_CAN = """
import sys, can
print(can.__version__)
for file in sys.argv[1:]:
    for it in can.LogReader(file):
        data = "" if it.is_error_frame else it.data.hex()
        print("error" if it.is_error_frame else f"{it.arbitration_id:08x} {it.is_extended_id} {it.is_remote_frame} {data}")
    print("end")
"""


def ran(*words, stdin=None):
    return subprocess.run(words, input=stdin, stdin=None if stdin else subprocess.DEVNULL, stdout=subprocess.PIPE, stderr=subprocess.PIPE, text=True, timeout=LIMIT)


def check_identifiers(root, tally):
    """The rows of the tests of frames, and those of docs/can.md."""
    tests = (root / "crates/cany_low_tests/src/tests/frames.rt").read_text(encoding="utf-8")
    rows = re.findall(r"\((One|Two), (\w+), (?:REMOTE|DATA), \((\d+), (\d+), (\d+)\), [^\n]*, 0x([0-9a-f_]+)\)", tests)
    tally.check(len(rows) > 20, "crates/cany_low_tests/src/tests/frames.rt has no rows of identifiers")
    for version, kind, number, node, incarnation, wanted in rows:
        frame = reports.Frame(kind.lower(), int(node), int(incarnation), int(number), None)
        found = wire.identifier(FORMATS[version], frame)
        tally.check(found == int(wanted.replace("_", ""), 16), f"identifier of {frame.name} in format {version}: {found:08x}, and not {wanted}")
    page = (root / "docs/can.md").read_text(encoding="utf-8")
    examples = re.findall(r"\| `(\w+) (\d+)(?:/(\d+))? (\d+)` \| ([0-9A-F]{8}) \| ([0-9A-F]{8}) \|", page)
    tally.check(len(examples) == len(reports.CLASSES), "docs/can.md has not an identifier of each class")
    for kind, node, incarnation, number, *wanted in examples:
        frame = reports.Frame(kind, int(node), int(incarnation or 0), int(number), None)
        found = [f"{wire.identifier(version, frame):08X}" for version in (1, 2)]
        tally.check(found == wanted, f"docs/can.md: identifiers of {frame.name} are {found}")
    log = lines_of(root, "restart_joins", on_the_bus)
    shown = re.findall(r"can0 [0-9A-F]{8}#\S+", page)
    logged = [line.split(" ", 1)[1] for line in log]
    tally.check(shown and all(it in logged for it in shown), "docs/can.md shows frames that the log of restart_joins does not have")


def check_bits(tally):
    """Lengths of frames: by hand where few bits are stuffed, and at most those of docs/can.md."""
    found = wire.crc([bit for byte in CHECK_TEXT for bit in wire.bits_of(byte, 8)])
    tally.check(found == CHECK_CRC, f"the CRC of {CHECK_TEXT} is {found:#x}")
    tally.check(wire.stuffed([0] * 5 + [1] * 4 + [0]) == 2, "a stuffed bit counts as the first of the next five")
    lengths = [wire.length(number, bytes(8)) for number in range(0, 1 << 29, 999_983)]
    tally.check(max(lengths) <= 157, f"a frame has {max(lengths)} bits")
    tally.check(min(lengths) >= 128, f"a frame of 8 bytes has {min(lengths)} bits")


def lines_of(root, name, events):
    report = reports.read_report(stored_bytes(root, f"{name}.report"))
    return list(candump(report, events(report), Clock(500_000, 0), "can", False))


def check_logs(root, tally):
    """Each log has a line for each frame or error, and time ascends; no frame reaches into the next slot."""
    for name, text in stored(root).items():
        report = reports.read_report(text)
        for events in (on_the_bus, at_the_nodes):
            found = list(events(report))
            times = [Clock(500_000, 0).at(it) for it in found]
            tally.check(times == sorted(times), f"the log of {name}: its times do not ascend")
            tally.check(all(it.bits <= wire.SLOT_BITS for it in found), f"the log of {name}: a frame is longer than a slot")
        frames = [it for it in report.bus if it.frame]
        lost, partial = (sum(it.verdict == word for it in frames) for word in ("lost", "partial"))
        heard = list(on_the_bus(report))
        tally.check((len(heard), sum(it.is_error for it in heard)) == (len(frames) + partial, lost + partial), f"the log of {name} has other frames")
        for node in range(report.parameters["nodes"]):
            seen = [it for it in at_the_nodes(report) if it.interface == node]
            wanted = sum(node in it.senders + it.accepted + it.rejected for it in frames)
            tally.check(len(seen) == wanted, f"the log of node {node} of {name} has {len(seen)} lines, and not {wanted}")


def has(tool):
    found = shutil.which(tool)
    if not found:
        print(f"bus logs: {tool} is not here, so it does not read them")
    return found


def check_can_utils(folder, name, tally):
    """log2long reads each line; log2asc makes the frames of our ASC, and asc2log makes those of our log again."""
    log, vector = folder / f"{name}.log", folder / f"{name}.asc"
    lines = log.read_text().splitlines()
    long = ran("log2long", stdin=log.read_text()).stdout.splitlines()
    tally.check(len(long) == len(lines), f"log2long reads {len(long)} of {len(lines)} lines of {name}")
    errors = [at for at, it in enumerate(lines) if " 20000088#" in it]
    tally.check([at for at, it in enumerate(long) if it.endswith("ERRORFRAME")] == errors, f"log2long finds other errors in {name}")
    body = lambda line: re.sub(r" [RT]$", "", re.sub(r"^\([0-9.]+\) ", "", line))
    # an ASC has no bytes of an error
    wanted = [re.sub("20000088#.*", "20000080#0000000000000000", body(it)) for it in lines]
    tally.check([body(it) for it in ran("asc2log", "-I", str(vector)).stdout.splitlines()] == wanted, f"asc2log of {name} gives other frames")
    frame = lambda line: line.split()[1:2] + [re.sub(r"^(r).*", r"\1", " ".join(line.split()[3:]))]
    ours = [it.split(maxsplit=1)[1] for it in vector.read_text().splitlines() if re.match(r" +[0-9.]+ 1  ", it)]
    theirs = [it.split(maxsplit=1)[1] for it in ran("log2asc", "-I", str(log), "can0").stdout.splitlines() if re.match(r" +[0-9.]+ 1  ", it)]
    same = lambda line: [it.lstrip("0") for it in frame(line)]
    tally.check([same(it) for it in theirs] == [same(it) for it in ours], f"log2asc of {name} gives other frames")


def check_python_can(folder, tally):
    """python-can reads the same frames from both files of a run, and they are those of the report."""
    python = "/usr/bin/python3"
    if not Path(python).exists() or ran(python, "-c", "import can").returncode:
        print("bus logs: python3-can is not here, so it does not read them")
        return
    found = ran(python, "-c", PYTHON_CAN, *[str(folder / f"{name}{suffix}") for name in READ_BY_TOOLS for suffix in (".log", ".asc")])
    tally.check(not found.returncode, f"python-can fails: {found.stderr[-300:]}")
    print(f"bus logs: python-can {found.stdout.split()[0]} reads them")
    parts = found.stdout.split("\n", 1)[1].split("end\n")[:-1]
    tally.check(len(parts) == 2 * len(READ_BY_TOOLS), "python-can reads not all files")
    for name, log, vector in zip(READ_BY_TOOLS, parts[::2], parts[1::2]):
        wanted = []
        for line in (folder / f"{name}.log").read_text().splitlines():
            identifier, data = line.split()[2].split("#")
            is_remote = data == "R"
            wanted.append("error" if identifier == "20000088" else f"{identifier.lower()} True {is_remote} {'' if is_remote else data.lower()}")
        tally.check(log.splitlines() == wanted, f"python-can reads other frames in {name}.log")
        tally.check(vector.splitlines() == wanted, f"python-can reads other frames in {name}.asc")


def check_tshark(root, folder, tally):
    """tshark with canely.lua shows class, node, incarnation and number of each frame, and the nodes of a vector."""
    version = ran("tshark", "--version").stdout.split("\n")[0]
    print(f"bus logs: {version} reads them")
    fields = [word for name in ("class", "node", "incarnation", "number", "vector") for word in ("-e", f"canely.{name}")]
    for name in (*READ_BY_TOOLS, "forty_nodes"):
        report = reports.read_report(stored_bytes(root, f"{name}.report"))
        script = ["-X", f"lua_script:{root / 'tools/canely.lua'}", "-o", f"canely.format:{report.format}"]
        found = ran("tshark", *script, "-r", str(folder / f"{name}.log"), "-T", "fields", "-E", "separator=;", *fields)
        wanted = []
        for event in on_the_bus(report):
            frame = event.frame
            vector = ",".join(map(str, frame.vector)) if frame.kind == "rha" else ""
            wanted.append(";;;;" if event.is_error else f"{frame.kind};{frame.node};{frame.incarnation};{frame.number};{vector}")
        tally.check(found.stdout.splitlines() == wanted, f"tshark shows other frames in {name}.log: {found.stderr[-300:]}")


# Frames of something else on the bus: of 11 bits, of J1939, a data frame and a remote frame of a class of the other kind, with an
# incarnation that the class has not, a vector that is too short, of no class.
FOREIGN = ("123#01", "0CF00400#0011", "04000000#01", "12000000#R", "12000001#01", "02000210#0001", "14000000#01")
OURS = ("12000000#01", "ed;0;0;0;")


def check_foreign(root, folder, tally):
    """tshark with canely.lua takes no frame of something else for ours."""
    log = folder / "foreign.log"
    log.write_text("".join(f"(0000000000.{at:06}) can0 {it}\n" for at, it in enumerate([OURS[0], *FOREIGN])))
    fields = [word for name in ("class", "node", "incarnation", "number", "vector") for word in ("-e", f"canely.{name}")]
    found = ran("tshark", "-X", f"lua_script:{root / 'tools/canely.lua'}", "-r", str(log), "-T", "fields", "-E", "separator=;", *fields)
    tally.check(found.stdout.splitlines() == [OURS[1], *(len(FOREIGN) * [";;;;"])], f"tshark takes foreign frames for ours: {found.stdout}")


def check_tools(root, tally):
    with tempfile.TemporaryDirectory() as place:
        folder = Path(place)
        for name in (*READ_BY_TOOLS, "forty_nodes"):
            report = reports.read_report(stored_bytes(root, f"{name}.report"))
            text = lambda lines: "".join(f"{line}\n" for line in lines)
            (folder / f"{name}.log").write_text(text(candump(report, on_the_bus(report), Clock(500_000, 0), "can", False)))
            (folder / f"{name}.asc").write_text(text(asc(report, on_the_bus(report), Clock(500_000, 0))))
        if all([has(it) for it in ("log2long", "log2asc", "asc2log")]):
            for name in READ_BY_TOOLS:
                check_can_utils(folder, name, tally)
        check_python_can(folder, tally)
        if has("tshark"):
            check_tshark(root, folder, tally)
            check_foreign(root, folder, tally)


def check(root, tally):
    check_identifiers(root, tally)
    check_bits(tally)
    check_logs(root, tally)
    check_tools(root, tally)
