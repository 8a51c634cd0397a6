"""Elements of SVG as text, and how wide words are in it."""
import re
from html import escape

FONT = "DejaVu Sans, Verdana, Helvetica, Arial, sans-serif"


def short(number):
    """A coordinate with at most one digit after the point."""
    return re.sub(r"\.0$", "", f"{number:.1f}")


def attributes(given):
    """The attributes, named as Python can: an underscore for a hyphen."""
    value = lambda it: short(it) if isinstance(it, (int, float)) else escape(str(it))
    return "".join(f' {name.rstrip("_").replace("_", "-")}="{value(it)}"' for name, it in given.items() if it is not None)


def element(name, body="", **given):
    return f"<{name}{attributes(given)}>{body}</{name}>" if body else f"<{name}{attributes(given)}/>"


def tooltip(text):
    """What is shown where the pointer rests on an element that has this in its body."""
    return f"<title>{escape(text)}</title>" if text else ""


def text(x, y, words, tip="", **given):
    return element("text", escape(words) + tooltip(tip), x=x, y=y, **given)


def width_of(words, size=10.0):
    """How wide the words are at most, in the widest of the fonts that are asked for."""
    return len(words) * size * 0.645


def wrapped(words, width, size):
    """The words in lines of this width; a long set of nodes is broken after commas."""
    # the letters of a sentence are narrower than digits
    most = int(width / (0.57 * size))
    parts = []
    for word in words.split(" "):
        parts.append(f" {word}")
        if len(word) > most:
            parts[-1:] = [part for part in re.split(r"(?<=,)", f" {word}")]
    lines = [""]
    for part in parts:
        if lines[-1] and len(lines[-1]) + len(part) > most:
            lines.append("")
        lines[-1] += part if lines[-1] else part.lstrip()
    return lines
