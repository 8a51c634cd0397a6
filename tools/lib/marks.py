"""The marks of a picture: their colours and shapes, and what each means."""
from .columns import ACCEPTED, MUTED, REJECTED, SAW_ERROR, SENT, spans
from .report import Delivery, Failure, View
from .svg import element, short, text, tooltip, width_of
from .words import SERVICES

# By class of frame the colour of Okabe and Ito, which most people tell apart, and a darker one for words.
COLOURS = {
    "tot": "#0072b2",
    "accept": "#56b4e9",
    "ed": "#009e73",
    "rel": "#e69f00",
    "confirm": "#b59b00",
    "rha": "#cc79a7",
    "els": "#8a8a8a",
    "fda": "#d55e00",
    "join": "#6a51a3",
    "leave": "#9e5a3c",
}
INKS = {**COLOURS, "accept": "#1c7ab5", "ed": "#007a59", "rel": "#a86f00", "confirm": "#857100", "rha": "#a8497d", "els": "#666"}
SHADES = {"lost": "#f7d4d4", "partial": "#fce3c5", "silent": "#e6d6f5"}
RED, GREEN, INK, GREY, PALE = "#c62828", "#2e7d32", "#222", "#999", "#ddd"

# Fill, words and border of tags.
FAILED = (RED, "white", RED)
VIEW = ("#eef5ee", GREEN, GREEN)
DIFFERENT_VIEW = ("#fbe9e7", RED, RED)
LACKING = ("white", RED, RED)


def frame_name(frame):
    """Class, node and number; of a vector also its set."""
    return f"{frame.name}: {spans(frame.vector)}" if frame.kind == "rha" else frame.name


def tag(entry):
    """The word of an entry of a log, and its colours."""
    if isinstance(entry, Delivery):
        return f"{entry.origin}.{entry.seq}", INKS[entry.service], "white", INKS[entry.service]
    if isinstance(entry, Failure):
        return f"†{entry.node}", *FAILED
    return f"v{entry.number} {spans(entry.members)}", *VIEW


def tag_width(word):
    return 8 + width_of(word, 9.3)


def tag_box(x, y, word, tip, fill, ink, border):
    """A tag whose upper edge has its middle at x, y."""
    width = tag_width(word)
    box = element("rect", x=x - width / 2, y=y, width=width, height=13, rx=3, fill=fill, stroke=border)
    return element("g", tooltip(tip) + box + text(x, y + 10, word, font_size=9.3, fill=ink, text_anchor="middle"))


def disc(x, y, radius):
    r = short(radius)
    return f"M{short(x - radius)} {short(y)}a{r} {r} 0 1 0 {short(2 * radius)} 0a{r} {r} 0 1 0-{short(2 * radius)} 0"


def box(x, y):
    return f"M{short(x - 7.5)} {short(y - 6)}h15v12h-15z"


def cross(x, y):
    return f"M{short(x - 4.5)} {short(y - 4.5)}l9 9m0-9l-9 9"


def deeds(kind, x, doing, is_small):
    """What nodes did with a frame of this class: for each its height on the page, and its deed."""
    colour, radius = COLOURS[kind], 3.5 if is_small else 4.5
    rows = lambda wanted: [y for y, deed in doing.values() if deed == wanted]
    path = lambda shapes, **given: element("path", d="".join(shapes), **given) if shapes else ""
    return (
        path([disc(x, y, radius) for y in rows(ACCEPTED)], fill=colour)
        + path([disc(x, y, radius) for y in rows(MUTED)], fill="white", stroke="#aaa", stroke_width=1.2)
        + path([box(x, y) for y in rows(SENT)], fill=colour, stroke=colour, stroke_width=1.5, stroke_linejoin="round")
        + path([box(x, y) for y in rows(SAW_ERROR)], fill="white", stroke=colour, stroke_width=2, stroke_linejoin="round")
        + "".join(text(x, y + 4, "!", fill=RED, font_weight="bold", text_anchor="middle") for y in rows(SAW_ERROR))
        + path([cross(x, y) for y in rows(REJECTED)], fill="none", stroke=RED, stroke_width=2.4)
    )


def stop(x, y, tip):
    return element("path", tooltip(tip), d=f"M{short(x)} {short(y - 8)}v16", stroke=RED, stroke_width=3.5)


def start(x, y, tip):
    return element("path", tooltip(tip), d=f"M{short(x)} {short(y - 6)}l9 6l-9 6z", fill=GREEN)


def legend(used):
    """Of the marks that are used: how each is drawn at x, y, how wide it is, and what it means."""
    shown = lambda deed: lambda x, y: deeds("els", x + 8, {0: (y, deed)}, False)
    tagged = lambda word, *colours: lambda x, y: tag_box(x + tag_width(word) / 2, y - 6.5, word, "", *colours)
    plain = [(SENT, "sent"), (SAW_ERROR, "sent, and saw an error"), (ACCEPTED, "accepted"), (REJECTED, "rejected")]
    plain.append((MUTED, "read as idle after a restart"))
    yield from ((shown(deed), 16, words) for deed, words in plain if deed in used)
    if "stops" in used:
        yield lambda x, y: stop(x + 4, y, ""), 7, "stops"
    if "starts" in used:
        yield lambda x, y: start(x, y, ""), 9, "starts again"
    for service in SERVICES:
        if service in used:
            word = "0.1"
            yield tagged(word, INKS[service], "white", INKS[service]), tag_width(word), f"delivers {service} 0 1"
    if Failure in used:
        yield tagged("†2", *FAILED), tag_width("†2"), "finds that node 2 failed"
    if View in used:
        yield tagged("v1 0-3", *VIEW), tag_width("v1 0-3"), "installs view 1"
