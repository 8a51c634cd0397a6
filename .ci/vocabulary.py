#!/usr/bin/env python3
"""Writes the copies of tools/words.json, which a page in a browser and a script of Wireshark cannot read: python3 .ci/vocabulary.py --write.

The gate holds the copies equal to it, and it equal to the words and limits of the program and of its sources."""
import argparse
import json
import re
import sys
from pathlib import Path

import program as programs

FILE = "tools/words.json"
BEGIN, END = "a copy of words.json: .ci/vocabulary.py writes it", "the end of the copy"
# By file how its comments begin, and what it needs of the words.
COPIES = {
    "tools/viewer.html": ("//", ("classes", "services", "verdicts", "breaks", "parameters", "limits", "formats")),
    "tools/canely.lua": ("--", ("classes", "formats")),
}
# By limit the constant of cany_base that has it.
LIMITS = {
    "lag": "GREATEST_LAG",
    "omit": "GREATEST_OMIT",
    "errors": "GREATEST_ERRORS",
    "given": "GREATEST_GIVEN",
    "incarnation": "MOST_RESTARTS_OF_NODE",
    "sends": "MOST_SENDS",
    "rules": "MOST_RULES",
    "joins": "MOST_JOINS",
    "leaves": "MOST_LEAVES",
    "restarts": "MOST_RESTARTS",
    "restarts_of_node": "MOST_RESTARTS_OF_NODE",
    "text_bytes": "MOST_TEXT_BYTES",
}
FORMATS = {"One": "1", "Two": "2"}


def words_of(root):
    return json.loads((root / FILE).read_text(encoding="utf-8"))


# ---- copies


def lua(value):
    """A value as Lua writes it."""
    if isinstance(value, dict):
        key = lambda name: f"[{name}]" if name.isdecimal() else name
        return "{ " + ", ".join(f"{key(name)} = {lua(it)}" for name, it in value.items() if it is not None) + " }"
    if isinstance(value, list):
        return "{ " + ", ".join(map(lua, value)) + " }"
    return json.dumps(value)


def literal(value, name):
    """The lines of a value, as the language of a file writes it: a line for each entry of a list of objects."""
    is_lua = name.endswith(".lua")
    write, head = (lua, "{} = ") if is_lua else (json.dumps, "{}: ")
    yield "local WORDS = {" if is_lua else "const WORDS = {"
    for key, it in value.items():
        if isinstance(it, list) and isinstance(it[0], dict):
            opens, closes = "{}" if is_lua else "[]"
            yield f"  {head.format(key)}{opens}"
            yield from (f"    {write(entry)}," for entry in it)
            yield f"  {closes},"
        else:
            yield f"  {head.format(key)}{write(it)},"
    yield "}" if is_lua else "};"


def with_copy(root, name):
    """The text of a file with its copy made anew."""
    comment, keys = COPIES[name]
    words = words_of(root)
    text = (root / name).read_text(encoding="utf-8")
    begin, end = f"{comment} {BEGIN}\n", f"{comment} {END}\n"
    before, _, rest = text.partition(begin)
    copy = "".join(f"{line}\n" for line in literal({key: words[key] for key in keys}, name))
    return f"{before}{begin}{copy}{end}{rest.partition(end)[2]}"


def check_copies(root, tally):
    for name in COPIES:
        same = with_copy(root, name) == (root / name).read_text(encoding="utf-8")
        tally.check(same, f"{name} has no copy of {FILE}: python3 .ci/vocabulary.py --write writes it anew")


# ---- the sources and the program


def source(root, path):
    return (root / "crates" / path).read_text(encoding="utf-8")


def named(text, function):
    """The words that a function of names answers, by variant."""
    body = re.search(rf"(?s)pub fn {function}\(.*?\n}}", text)[0]
    return dict(re.findall(r"::(\w+)(?:\(_\))? => \"(\w+)\"", body))


def number_of(text):
    return int(text.replace("_", ""))


def check_colours(root, words, tally):
    """Each class has a colour, and the viewer has those of the pictures."""
    from lib import marks

    page = (root / "tools/viewer.html").read_text(encoding="utf-8")
    classes = [it["name"] for it in words["classes"]]
    tally.check(set(marks.COLOURS) == set(marks.INKS) == set(classes), "tools/lib/marks.py has not a colour of each class")
    others = [f'{name}: "{colour}"' for name, colour in marks.COLOURS.items() if f'{name}: "{colour}"' not in page]
    tally.check(not others, f"tools/viewer.html does not have the colours {', '.join(others)}")


def check_names(root, words, tally):
    """The words are those of cany_text, the classes in the order of cany_base."""
    names = source(root, "cany_text/src/names.rt")
    classes = named(names, "class_name")
    order = re.findall(r"(?m)^    (\w+),$", source(root, "cany_base/src/class.rt"))
    tally.check([it["name"] for it in words["classes"]] == [classes[it] for it in order], f"{FILE}: the classes are not those of cany_base in their order")
    for key, function in (("services", "service_name"), ("verdicts", "verdict_name"), ("breaks", "break_name")):
        found = list(named(names, function).values())
        tally.check(words[key] == found, f"{FILE}: {key} are {found} in cany_text")
    tables = [it for it in named(names, "table_name").values() if it != "top"]
    tally.check(words["tables"] == tables, f"{FILE}: tables are {tables} in cany_text")
    keys = named(names, "key_name").values()
    tally.check(set(words["parameters"]) <= set(keys), f"{FILE}: a parameter is no key of a scenario")


def check_classes(root, words, tally):
    """Number, remote frames and incarnations are those of the definitions, by class."""
    frame = source(root, "cany_base/specs/Frame.antt")
    table = lambda name: dict(re.findall(rf"(?m)^{name} (\w+) = (\w+)$", frame))
    numbers, remote, incarnation = table("class_number"), table("is_remote"), table("has_incarnation")
    for it in words["classes"]:
        variant = it["name"].capitalize()
        found = {"number": int(numbers[variant]), "remote": remote[variant] == "true", "incarnation": incarnation[variant] == "true"}
        tally.check(all(it[key] == value for key, value in found.items()), f"{FILE}: the class {it['name']} has {found} in cany_base")
        tally.check((it["kind"] == "message") == (it["service"] in words["services"]), f"{FILE}: the class {it['name']} is of a message without a service, or has one without a message")


def check_limits(root, words, tally):
    limits, layout = source(root, "cany_base/src/limits.rt"), source(root, "cany_base/specs/Layout.antt")
    constants = {name: number_of(value) for name, value in re.findall(r"pub const (\w+): \w+ = ([0-9_]+);", limits)}
    for key, constant in LIMITS.items():
        tally.check(words["limits"][key] == constants[constant], f"{FILE}: {key} is {constants[constant]} in cany_base")
    by_format = lambda text, function: dict(re.findall(r"Format::(\w+) => (\w+)", re.search(rf"(?s)pub fn {function}\(.*?\n( *)}}\n", text)[0]))
    value = lambda text: constants[text] if text in constants else number_of(text)
    formats = source(root, "cany_base/src/format.rt")
    functions = (("slots", limits, "greatest_slots"), ("number", limits, "greatest_number"), ("nodes", formats, "nodes"), ("vector_bytes", formats, "vector_len"))
    for variant, number in FORMATS.items():
        found = {key: value(by_format(text, function)[variant]) for key, text, function in functions}
        found["number_shift"] = int(re.search(rf"(?m)^layout {variant} = .*number_shift = (\d+);", layout)[1])
        tally.check(words["formats"][number] == found, f"{FILE}: format {number} has {found} in cany_base")
    bytes_of_payload = len(re.findall(r"(?m)^    pub b\d: u8,$", source(root, "cany_base/src/payload.rt")))
    tally.check(words["limits"]["payload_bytes"] == bytes_of_payload, f"{FILE}: a payload has {bytes_of_payload} bytes in cany_base")
    least = re.search(r"KeyName::Nodes, (\d+),", source(root, "cany_scenario/src/params.rt"))
    tally.check(least and words["limits"]["least_nodes"] == int(least[1]), f"{FILE}: least_nodes is not that of cany_scenario")


def check_help(words, program, tally):
    """What `canely --help` says of words and limits."""
    text = " ".join(programs.call(program, ["--help"])[1].decode().split())
    limits, formats, defaults = words["limits"], words["formats"], words["defaults"]
    listed = lambda names: '"' + '", "'.join(names[:-1]) + f'" or "{names[-1]}"'
    wanted = [
        f"format 1 has up to {formats['1']['nodes']} nodes, format 2 up to {formats['2']['nodes']}",
        f"{defaults['lag']}, {defaults['omit']} and {defaults['errors']} where absent",
        f"the least legal ones, and {defaults['confirm']}, where absent",
        f"service = {listed(words['services'])}",
        f"verdict = {listed(words['verdicts'])}",
        f"is at most {limits['storm']}",
        f"has more than {limits['text_bytes']} bytes",
        *(f"[[{it}]]" for it in words["tables"]),
        *(it for it in words["parameters"]),
    ]
    for line in wanted:
        tally.check(line in text, f"{FILE}: canely --help does not say: {line}")


def check(root, tally, built):
    words = words_of(root)
    check_copies(root, tally)
    check_colours(root, words, tally)
    check_names(root, words, tally)
    check_classes(root, words, tally)
    check_limits(root, words, tally)
    for program in built:
        check_help(words, program, tally)


def main():
    parser = argparse.ArgumentParser(description=__doc__.split("\n")[0])
    parser.add_argument("--write", action="store_true", help=f"write the copies into {' and '.join(COPIES)}")
    root = Path(__file__).resolve().parent.parent
    is_asked = parser.parse_args().write
    for name in COPIES:
        text = with_copy(root, name)
        if is_asked:
            (root / name).write_text(text, encoding="utf-8")
        elif text != (root / name).read_text(encoding="utf-8"):
            print(f"{name} has no copy of {FILE}")


if __name__ == "__main__":
    sys.dont_write_bytecode = True
    main()
