"""Texts that `canely replay` refuses: each key at both ends of its range, of another kind or missing; arrays that are too long; journals that cannot be followed. The line of the refusal is compared byte for byte.

The runs cost nothing: the program is proved once, whatever it is run on."""
import program as programs

REFUSED = 3

# Texts of no document, and the line of each without its word `refused`.
NO_DOCUMENTS = [
    (b"format = 1 # \xff\n", "not utf-8"),
    (b"format", "not toml"),
    (b"format = 1\nformat = 1\n", "not toml"),
    (b"slots = 9223372036854775808\n", "not toml"),
]

# The keys without which there is no scenario, in their order.
REQUIRED_KEYS = [
    ("", "missing key format in top 0"),
    ("format = 3\nother = 1\n", "unknown key in top 0"),
    ("format = 0\n", "out of range format in top 0 value 0"),
    ("format = 3\n", "out of range format in top 0 value 3"),
    ("format = 1.0\n", "wrong kind format in top 0"),
    ("format = 1\nslots = 0\n", "missing key nodes in top 0"),
    ("slots = 0\nformat = 1\nnodes = 1\n", "out of range nodes in top 0 value 1"),
    ("format = 1\nnodes = 33\n", "out of range nodes in top 0 value 33"),
    ("format = 2\nnodes = 65\n", "out of range nodes in top 0 value 65"),
    ("format = 1\nnodes = 32\n", "missing key slots in top 0"),
    ("format = 2\nnodes = 64\n", "missing key slots in top 0"),
    ("format = 1\nnodes = 2\nslots = 0\n", "out of range slots in top 0 value 0"),
    ("format = 1\nnodes = 2\nslots = 100001\n", "out of range slots in top 0 value 100001"),
    ("format = 2\nnodes = 2\nslots = 400001\n", "out of range slots in top 0 value 400001"),
]

# What stands before the lines of the tables that follow.
HEAD = "format = 1\nnodes = 3\nslots = 5\n"

# The keys that may be absent, in their order, then the formulas and the members.
OTHER_KEYS = [
    ("omit = 9\nlag = -1\n", "out of range lag in top 0 value -1"),
    ("lag = 9\n", "out of range lag in top 0 value 9"),
    ("lag = 8\nomit = 9\n", "out of range omit in top 0 value 9"),
    ("omit = 8\nerrors = 1001\n", "out of range errors in top 0 value 1001"),
    ("errors = 1000\nbound = 0\n", "out of range bound in top 0 value 0"),
    ("bound = 1000001\n", "out of range bound in top 0 value 1000001"),
    ("bound = 1000000\ncycle = 0\n", "out of range cycle in top 0 value 0"),
    ("bound = 1\ncycle = 1000001\n", "out of range cycle in top 0 value 1000001"),
    ("cycle = 1000000\nlife = 0\n", "out of range life in top 0 value 0"),
    ("life = 1000000\nsilence = 0\n", "out of range silence in top 0 value 0"),
    ("silence = 1000000\nconfirm = 0\n", "out of range confirm in top 0 value 0"),
    ("confirm = 73\n", "out of range confirm in top 0 value 73"),
    ("confirm = 72\nmembers = 1\n", "wrong kind members in top 0"),
    ("cycle = 71\nmembers = 1\n", "bound too small cycle needs 72"),
    ('members = [3, "0"]\nsend = 1\n', "wrong kind members in top 0"),
    ("members = [2, 3, -1]\n", "out of range members in top 0 value 3"),
    ("members = [0, -1, 3]\n", "out of range members in top 0 value -1"),
]

SENDS = [
    ("send = 1\nfault = 1\n", "wrong kind send in top 0"),
    ('send = [{ slot = 0, node = 0, service = "ed" }, 3]\n', "wrong kind send in send 1"),
    ("[[send]]\nnumber = 1\n", "unknown key in send 0"),
    ("[[send]]\nnode = 3\n", "missing key slot in send 0"),
    ("[[send]]\nnode = 3\nslot = -1\n", "out of range slot in send 0 value -1"),
    ("[[send]]\nnode = 3\nslot = 5\n", "out of range slot in send 0 value 5"),
    ("[[send]]\nnode = 3\nslot = 4\n", "out of range node in send 0 value 3"),
    ("[[send]]\nslot = 4\nnode = 2\ndata = 1\n", "missing key service in send 0"),
    ('[[send]]\nslot = 4\nnode = 2\nservice = "Ed"\n', "wrong kind service in send 0"),
    ('[[send]]\nslot = 4\nnode = 2\nservice = "ed"\ndata = 1\n', "wrong kind data in send 0"),
    ('[[send]]\nslot = 4\nnode = 2\nservice = "ed"\ndata = "012"\n', "bad data in send 0"),
    ('send = [{ slot = 0, node = 0, service = "ed" }, { slot = 0, node = 0, service = "tot", data = "0g" }]\n', "bad data in send 1"),
    ('[[send]]\nslot = 4\nnode = 2\nservice = "ed"\ndata = "000102030405060708"\n', "bad data in send 0"),
]

RULES = [
    ("[[fault]]\nslot = 1\nnth = 1\n", "unknown key in fault 0"),
    ("[[fault]]\nclass = 1\nslot = 1\n", "unknown key in fault 0"),
    ("[[fault]]\nverdict = 1\n", "missing key slot in fault 0"),
    ("[[fault]]\nslot = 5\nverdict = 1\n", "out of range slot in fault 0 value 5"),
    ('[[fault]]\nclass = "eds"\nnumber = -1\n', "wrong kind class in fault 0"),
    ('[[fault]]\nclass = "ed"\nnumber = -1\nnode = 3\n', "out of range number in fault 0 value -1"),
    ('[[fault]]\nclass = "ed"\nnumber = 65536\n', "out of range number in fault 0 value 65536"),
    ('[[fault]]\nclass = "ed"\nnumber = 65535\nnode = 3\n', "out of range node in fault 0 value 3"),
    ('[[fault]]\nclass = "ed"\nnumber = 0\nnode = 2\nnth = 0\n', "out of range nth in fault 0 value 0"),
    ('[[fault]]\nclass = "ed"\nnumber = 0\nnode = 2\nnth = 100001\n', "out of range nth in fault 0 value 100001"),
    ('[[fault]]\nslot = 1\nverdict = "ed"\nreject = 1\n', "wrong kind verdict in fault 0"),
    ("[[fault]]\nslot = 1\nreject = [3]\nstop = 1\n", "out of range reject in fault 0 value 3"),
    ("[[fault]]\nslot = 1\n[[fault]]\nslot = 1\nstop = [-1]\n", "out of range stop in fault 1 value -1"),
    ("join = 1\n[[fault]]\nslot = 1\n[[fault]]\nslot = 2\n[[fault]]\nslot = 1\n[[fault]]\nslot = 2\n", "repeated rule 2"),
    ('[[fault]]\nclass = "ed"\nnumber = 0\nnode = 0\nnth = 2\n[[fault]]\nclass = "ed"\nnumber = 0\nnode = 0\nnth = 2\nverdict = "lost"\n', "repeated rule 1"),
]

# The other entries, and the journal at the end.
ASKS_AND_JOURNALS = [
    ("restart = 1\nleave = 1\njoin = 1\n", "wrong kind join in top 0"),
    ("restart = 1\nleave = [1]\njoin = []\n", "wrong kind leave in leave 0"),
    ('[[join]]\nslot = 0\nnode = 0\nservice = "ed"\n', "unknown key in join 0"),
    ("[[join]]\nslot = 5\nnode = 3\n", "out of range slot in join 0 value 5"),
    ("[[leave]]\nslot = 4\nnode = 3\n", "out of range node in leave 0 value 3"),
    ("journal = 1\n[[restart]]\nslot = 4\n", "missing key node in restart 0"),
    ('journal = "."\n', "wrong kind journal in top 0"),
    ('journal = ["?", 1]\n', "wrong kind journal in top 0"),
    ('journal = ["..", "vw"]\n', "bad journal at 3"),
]

A_RESTART = "{ slot = 0, node = 2 }"

# An array: its key, an item, how often it stands there, and the line. As many items as there may be, and one more.
LENGTHS = [
    ("send", "1", 20_000, "wrong kind send in send 0"),
    ("send", "1", 20_001, "too many send"),
    ("fault", "1", 20_001, "too many fault"),
    ("join", "1", 1_001, "too many join"),
    ("leave", "1", 1_000, "wrong kind leave in leave 0"),
    ("leave", "1", 1_001, "too many leave"),
    ("restart", "1", 64, "wrong kind restart in restart 0"),
    ("restart", A_RESTART, 65, "too many restart"),
    ("restart", A_RESTART, 64, "too often in restart 15"),
    ("restart", A_RESTART, 16, "too often in restart 15"),
]

# Journals of three nodes and two slots without a send: that cannot be followed to the end of the run, have a byte that is no step,
# or are no list of texts.
JOURNALS = [
    ('["..012012"]', "journal step 1 lagging node 0 unread 1"),
    ('[".3"]', "journal step 1 no node 3"),
    ('[".01", "v"]', "journal step 3 no node 31"),
    ('[".0120"]', "journal step 4 nothing yet now 1"),
    ('[".012.01"]', "journal unfinished ran 2 node 2"),
    ('[".012.", "012."]', "journal step 8 over slots 2"),
    ('[".012"]', "journal unfinished ran 1"),
    ("[]", "journal unfinished ran 0"),
    ('[""]', "journal unfinished ran 0"),
    ('[".0*"]', "bad journal at 2"),
    ('[".w"]', "bad journal at 1"),
    ('[".A"]', "bad journal at 1"),
    ('[". 012"]', "bad journal at 1"),
    ("[0]", "wrong kind journal in top 0"),
    ('".012.012"', "wrong kind journal in top 0"),
]

ONE_MESSAGE = 'format = 1\nnodes = 3\nslots = 5\n[[send]]\nslot = 0\nnode = 0\nservice = "ed"\ndata = "01"\n'

# The journal by which the one message runs, and the line where one step of it is dropped, each in turn: without a slot the next turn
# has nothing to read, without a turn the next slot finds the node behind, and without a turn of the last slot the run has no end.
JOURNAL = ".012.012.012.012.012"
DROPPED_STEPS = [
    "journal step 0 nothing yet now 0",
    "journal step 3 lagging node 0 unread 1",
    "journal step 3 lagging node 1 unread 1",
    "journal step 3 lagging node 2 unread 1",
    "journal step 4 nothing yet now 1",
    "journal step 7 lagging node 0 unread 1",
    "journal step 7 lagging node 1 unread 1",
    "journal step 7 lagging node 2 unread 1",
    "journal step 8 nothing yet now 2",
    "journal step 11 lagging node 0 unread 1",
    "journal step 11 lagging node 1 unread 1",
    "journal step 11 lagging node 2 unread 1",
    "journal step 12 nothing yet now 3",
    "journal step 15 lagging node 0 unread 1",
    "journal step 15 lagging node 1 unread 1",
    "journal step 15 lagging node 2 unread 1",
    "journal step 16 nothing yet now 4",
    "journal unfinished ran 5 node 0",
    "journal unfinished ran 5 node 1",
    "journal unfinished ran 5 node 2",
]


def array(key, item, count):
    return f"{HEAD}{key} = [{', '.join([item] * count)}]\n"


def dropped(place):
    return f'journal = ["{JOURNAL[:place]}{JOURNAL[place + 1:]}"]\n{ONE_MESSAGE}'


def refusals():
    """The texts, with the line of each."""
    yield from NO_DOCUMENTS
    yield from REQUIRED_KEYS
    yield from ((HEAD + lines, line) for table in (OTHER_KEYS, SENDS, RULES, ASKS_AND_JOURNALS) for lines, line in table)
    yield from ((array(key, item, count), line) for key, item, count, line in LENGTHS)
    yield from ((f"format = 1\nnodes = 3\nslots = 2\njournal = {journal}\n", line) for journal, line in JOURNALS)
    yield from ((dropped(place), line) for place, line in enumerate(DROPPED_STEPS))


def check(tally, built):
    if not built:
        print("refusals: not tried, since they need a built program")
    for program in built:
        for given, line in refusals():
            text = given if isinstance(given, bytes) else given.encode()
            found = programs.call(program, ["replay"], text)
            tally.check(found == (REFUSED, f"refused {line}\n".encode(), b""), f"canely replay of {text[-200:]!r} gives {found}, and not {line!r}")
        # one restart fewer than too many is read
        status, _, error = programs.call(program, ["replay"], array("restart", A_RESTART, 15).encode())
        tally.check((status, error) == (0, b""), f"canely replay with 15 restarts of a node ends with status {status} and says {error!r}")
