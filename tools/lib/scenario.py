"""Reads the texts of scenarios as TOML, and writes them. What the program refuses is not looked for here."""
import sys

from . import command
from .words import TABLES

# The keys of a scenario in the order in which a text is written, and the tables after them.
TOP_KEYS = ("format", "nodes", "slots", "lag", "omit", "errors", "bound", "cycle", "life", "silence", "confirm", "members", "journal")
ENTRY_KEYS = ("slot", "class", "number", "node", "nth", "service", "data", "verdict", "reject", "stop")


def read_scenario(data, place):
    """The keys and tables of a text. Ends the command where the text is no TOML, or no table stands where one has to."""
    try:
        import tomllib
    except ImportError:
        raise command.Failure(command.READ_FAILED, "reading a scenario takes Python 3.11 or later") from None
    try:
        found = tomllib.loads(data.decode("utf-8"))
    except ValueError as error:
        raise command.Failure(command.REFUSED, f"{place}: is no scenario: {' '.join(str(error).split())}") from None
    for table in TABLES:
        entries = found.get(table, [])
        if not (isinstance(entries, list) and all(isinstance(it, dict) for it in entries)):
            raise command.Failure(command.REFUSED, f"{place}: is no scenario: {table} is no array of tables")
    for key in ("format", "nodes", "slots"):
        if not isinstance(found.get(key), int):
            raise command.Failure(command.REFUSED, f"{place}: is no scenario: {key} is no number")
    return found


def scenario_from(path):
    """The scenario in a file, or on standard input, for a command."""
    return read_scenario(command.read_bytes(path), path or "standard input")


def value_text(value):
    if isinstance(value, str):
        return f'"{value}"'
    if isinstance(value, (list, tuple)):
        return f"[{', '.join(map(value_text, value))}]"
    return str(value)


def in_order(keys, table):
    """The keys of a table, those that are known first and in this order."""
    return [key for key in keys if key in table] + [key for key in table if key not in keys]


def scenario_lines(scenario):
    """The lines of the text that stands for a scenario."""
    for key in in_order(TOP_KEYS, {key: it for key, it in scenario.items() if key not in TABLES}):
        yield f"{key} = {value_text(scenario[key])}"
    for table in TABLES:
        for entry in scenario.get(table, []):
            yield ""
            yield f"[[{table}]]"
            yield from (f"{key} = {value_text(entry[key])}" for key in in_order(ENTRY_KEYS, entry))


def scenario_text(scenario):
    return "".join(f"{line}\n" for line in scenario_lines(scenario))


def keys_of(sends):
    """Of each send its message: service, origin, and the number of earlier sends of the origin."""
    counts, keys = {}, []
    for send in sends:
        seq = counts[send["node"]] = counts.get(send["node"], -1) + 1
        keys.append((send["service"], send["node"], seq))
    return keys
