"""The words of texts and frames, and their limits, as words.json beside the commands has them."""
import json
from pathlib import Path
from types import SimpleNamespace

WORDS = json.loads((Path(__file__).resolve().parent.parent / "words.json").read_text(encoding="utf-8"))


def classes_with(key, value=True):
    """The names of the classes that have this value there, in their order."""
    return tuple(it["name"] for it in WORDS["classes"] if it[key] == value)


# The classes of frames, in the order in which they win arbitration.
CLASSES = tuple(it["name"] for it in WORDS["classes"])
# Those whose frames are remote frames, without data.
REMOTE = classes_with("remote")
# Those whose frames tell the incarnation of their sender.
WITH_INCARNATION = classes_with("incarnation")
# Those whose frames have the number of a message.
OF_MESSAGES = classes_with("kind", "message")

SERVICES, VERDICTS, BREAKS = (tuple(WORDS[name]) for name in ("services", "verdicts", "breaks"))
# The verdicts of slots with a fault.
FAULTY = tuple(it for it in VERDICTS if it != "clean")
PARAMETERS, TABLES = tuple(WORDS["parameters"]), tuple(WORDS["tables"])

DEFAULTS, LIMITS = SimpleNamespace(**WORDS["defaults"]), SimpleNamespace(**WORDS["limits"])
# By its number, what is the most in a format: nodes, slots, the number of a frame, and bytes of a vector.
FORMATS = {int(number): SimpleNamespace(**it) for number, it in WORDS["formats"].items()}
MOST_NODES = max(it.nodes for it in FORMATS.values())


def format_for(nodes):
    """The first format that has so many nodes."""
    return min(number for number, it in FORMATS.items() if nodes <= it.nodes)


def one_of(words):
    """The part of a pattern that matches one of the words."""
    return f"(?:{'|'.join(words)})"
