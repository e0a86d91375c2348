"""The page of a derivation over its source: its data, of the texts of `check`, `places` and `explain`."""

import pathlib

import meanings
import program
import refusal
import texts
from columns import Source, Table, differences

# Statuses of `check` that the page itself shows.
SHOWN = (program.NO_DERIVATION, program.BAD_TREE, program.BAD_NAMES, program.LIMIT_PASSED)


def empty():
    """The places of a source that has no core."""
    return texts.Places([], [], [], [], [])


def placed(source, rows, start):
    """Rows whose places, at `start` and after it, are those of the shown text."""
    return [[*row[:start], source.place(row[start]), source.place(row[start + 1]), *row[start + 2 :]] for row in rows]


def slots(source, rows, types, names):
    """The columns of the slots. Types are those of the derivation, if there is one."""
    kinds = Table()
    starts = [source.place(row[2]) for row in rows]
    return {
        "kind": [kinds.number(row[1]) for row in rows],
        "kinds": kinds.values,
        "depth": [row[0] for row in rows],
        "start": differences(starts),
        "length": [source.place(row[3]) - start for row, start in zip(rows, starts)],
        "name": [names.number(row[4]) for row in rows],
        "type": [types.number(it) for it in rows_types(rows, types)],
    }


def rows_types(rows, types):
    return types.of_slots if types.of_slots else [texts.NONE] * len(rows)


class Types(Table):
    """The table of types, and the types of slots by the derivation."""

    def __init__(self, of_slots):
        super().__init__()
        self.of_slots = of_slots


def nodes(source, rows, found, types):
    """The columns of the nodes. Rules, types and masks are those of the derivation, if there is one. The children of a node
    are the last ones without a parent, as many as its count says, since a core's nodes are in post-order."""
    kinds, rules, masks = Table(), Table(), Table()
    starts = [source.place(row[3]) for row in rows]
    columns = {
        "kind": [kinds.number(row[0]) for row in rows],
        "kinds": kinds.values,
        "depth": [row[2] for row in rows],
        "start": differences(starts),
        "length": [source.place(row[4]) - start for row, start in zip(rows, starts)],
        "children": [len(row[5]) for row in rows],
    }
    if found:
        columns |= {
            "rule": [rules.number(it) for it in found.rules],
            "rules": rules.values,
            "type": [types.number(it) for it in found.types],
            "masks": [masks.number(it) for it in found.masks],
            "mask": masks.values,
        }
    return columns


def children_fit(rows):
    """Whether each node's children are the last ones without a parent."""
    waiting = []
    for number, row in enumerate(rows):
        count = len(row[5])
        if count and waiting[-count:] != row[5]:
            return False
        if count:
            del waiting[-count:]
        if row[0] == "body":
            waiting.clear()
        else:
            waiting.append(number)
    return True


def data(name, source, found, places, refused):
    """The page's data: `found` is the derivation or nothing, `refused` the refusal or nothing."""
    if found and (len(found.slots) != len(places.slots) or len(found.rules) != len(places.nodes)):
        raise program.Failed(f"{name}: check and places are of different cores")
    if not children_fit(places.nodes):
        raise program.Failed(f"{name}: the children in places are not in post-order")
    types, names = Types(found.slots if found else []), Table()
    return {
        "page": "derivation",
        "name": name,
        "verdict": "refused" if refused else "accepted",
        "source": source.text,
        "lines": source.lines(),
        "entities": placed(source, places.entities, 2),
        "fields": places.fields,
        "methods": placed(source, places.methods, 2),
        "slots": slots(source, places.slots, types, names),
        "nodes": nodes(source, places.nodes, found, types),
        "types": types.values,
        "names": names.values,
        "refusal": refused,
        "meanings": meanings.OF_DERIVATIONS,
    }


def page(path):
    """The title of the page and its data."""
    name = program.shown_name(path)
    checked = program.ask("check", path)
    if checked.status != program.DONE and checked.status not in SHOWN:
        raise program.failure(checked, "check", path)
    try:
        source = Source(pathlib.Path(path).read_bytes())
    except OSError as error:
        raise program.Failed(f"{path}: {error.strerror}") from error
    if checked.status == program.DONE:
        places = texts.places(program.must("places", path))
        return f"Derivation of {name}", data(name, source, texts.derivation(checked.out), places, None)
    places = empty()
    if checked.status == program.NO_DERIVATION:
        places = texts.places(program.must("places", path))
    refused = refusal.data(path, source, checked)
    if refused["place"] is None and checked.status == program.LIMIT_PASSED:
        source = Source(b"")
    return f"Derivation of {name}", data(name, source, None, places, refused)
