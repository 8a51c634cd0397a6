"""Scenarios that are smaller than one: without some of its entries or nodes, with smaller sets, fewer slots, lower or earlier entries."""
from .scenario import keys_of
from .words import LIMITS, OF_MESSAGES, TABLES

# The parameters and keys that a scenario may lack.
OPTIONAL = ("journal", "members", "confirm", "silence", "life", "cycle", "bound", "errors", "omit", "lag")


def changed(scenario, **tables):
    """The scenario with other tables or keys; one that is None or an empty table goes."""
    found = {**scenario, **tables}
    return {key: it for key, it in found.items() if it is not None and not (key in TABLES and not it)}


def with_sends(scenario, sends, places):
    """The scenario with other sends, each with the place of the one that it was. Rules for the frames of a message go with it, or go."""
    before = [key[1:] for key in keys_of(scenario["send"])]
    after = {before[place]: key[1:] for place, key in zip(places, keys_of(sends))}
    rules = []
    for rule in scenario.get("fault", []):
        if rule.get("class") in OF_MESSAGES and (rule["node"], rule["number"]) in before:
            if (rule["node"], rule["number"]) not in after:
                continue
            node, number = after[rule["node"], rule["number"]]
            rule = {**rule, "node": node, "number": number}
        rules.append(rule)
    return changed(scenario, send=sends, fault=rules)


def without_entries(scenario, table, first, last):
    if table != "send":
        return changed(scenario, **{table: scenario[table][:first] + scenario[table][last:]})
    places = [place for place in range(len(scenario["send"])) if not first <= place < last]
    return with_sends(scenario, [scenario["send"][place] for place in places], places)


def fewer_entries(scenario):
    """Large parts of a table go first, then smaller ones."""
    for table in TABLES:
        count = len(scenario.get(table, []))
        size = count
        while size:
            for first in reversed(range(0, count, size)):
                yield without_entries(scenario, table, first, min(first + size, count))
            size //= 2


def with_entry(scenario, table, place, entry):
    entries = scenario[table]
    return changed(scenario, **{table: entries[:place] + [entry] + entries[place + 1 :]})


def smaller_sets(scenario):
    for place, rule in enumerate(scenario.get("fault", [])):
        for name in ("reject", "stop"):
            nodes = rule.get(name, [])
            for node in nodes:
                left = [it for it in nodes if it != node]
                others = {key: it for key, it in rule.items() if key != name}
                yield with_entry(scenario, "fault", place, {**others, **({name: left} if left else {})})


def lower_sets(scenario):
    """What a node does in a fault one of a lower number does, so that the node itself may go."""
    for place, rule in enumerate(scenario.get("fault", [])):
        for name in ("reject", "stop"):
            nodes = rule.get(name, [])
            for node in nodes:
                others = [it for it in nodes if it != node]
                lower = (it for it in range(node) if it not in others)
                yield from (with_entry(scenario, "fault", place, {**rule, name: sorted([*others, it])}) for it in lower)


def without_node(scenario, node):
    """The nodes above have numbers one less. None where an entry is of the node itself."""
    less = lambda it: it - 1 if it > node else it
    tables = {}
    for table in TABLES:
        entries = [dict(it) for it in scenario.get(table, [])]
        if any(it.get("node") == node for it in entries):
            return None
        for entry in entries:
            if "node" in entry:
                entry["node"] = less(entry["node"])
            for name in ("reject", "stop"):
                nodes = [less(it) for it in entry.pop(name, []) if it != node]
                entry.update({name: nodes} if nodes else {})
        tables[table] = entries
    members = [less(it) for it in scenario["members"] if it != node] if "members" in scenario else None
    return changed(scenario, nodes=scenario["nodes"] - 1, members=members, **tables)


def fewer_nodes(scenario):
    if scenario["nodes"] > LIMITS.least_nodes:
        yield from filter(None, (without_node(scenario, node) for node in reversed(range(scenario["nodes"]))))


def lower_origins(scenario):
    """What a node sends one of a lower number does, so that the node itself may go."""
    sends = scenario.get("send", [])
    for place, send in enumerate(sends):
        for node in range(send["node"]):
            yield with_sends(scenario, [*sends[:place], {**send, "node": node}, *sends[place + 1 :]], range(len(sends)))


def below(number, least):
    """Numbers below one, the farthest first and each nearer than the one before."""
    step = number - least
    while step > 0:
        yield number - step
        step //= 2


def fewer_slots(scenario):
    """Entries that would then lie behind the end go too."""
    for slots in below(scenario["slots"], 1):
        tables = {table: [it for it in scenario.get(table, []) if it.get("slot", 0) < slots] for table in TABLES}
        if all(len(tables[table]) == len(scenario.get(table, [])) for table in TABLES):
            yield changed(scenario, slots=slots, **tables)


def earlier_slots(scenario):
    for table in TABLES:
        for place, entry in enumerate(scenario.get(table, [])):
            yield from (with_entry(scenario, table, place, {**entry, "slot": slot}) for slot in below(entry.get("slot", 0), 0))
            yield from (with_entry(scenario, table, place, {**entry, "nth": nth}) for nth in below(entry.get("nth", 1), 1))


def shorter_payloads(scenario):
    """A send without the key has no bytes."""
    for place, send in enumerate(scenario.get("send", [])):
        if "data" in send:
            yield with_entry(scenario, "send", place, {key: it for key, it in send.items() if key != "data"})


def fewer_keys(scenario):
    """A parameter that is left out has its default."""
    yield from (changed(scenario, **{key: None}) for key in OPTIONAL if key in scenario)


# What is tried, in this order, again and again until nothing helps.
WAYS = (fewer_keys, fewer_entries, fewer_slots, fewer_nodes, lower_origins, smaller_sets, lower_sets, earlier_slots, shorter_payloads)
