"""Readers of the program's texts: a derivation, places, events, the last line of a trace, sends, and an explanation.

Each takes bytes and gives what they say, in the words of docs/derivation.md, places.md, events.md and steps.md. A text of
another form is refused by `Failed`, since a page must not guess."""

import dataclasses
import re

from program import Failed, shown

NONE = "-"


def lines_of(text, what):
    """The lines of a text, each of which has to have its end."""
    if text and not text.endswith(b"\n"):
        raise Failed(f"{what}: the last line has no end")
    return shown(text).split("\n")[:-1] if text else []


def bad(what, number):
    """The refusal of line `number`, counted from 1."""
    return Failed(f"{what}:{number}: bad line")


@dataclasses.dataclass
class Derivation:
    """Types of slots; of each node its rule, its type, and its four masks, as they are written."""

    slots: list
    rules: list
    types: list
    masks: list


SLOT = re.compile(r"s (\d+ [a-z]+)")
NODE = re.compile(r"n ([a-z]+) (-|\d+ [a-z]+\^?) ([0-9a-f]+ [0-9a-f]+ [0-9a-f]+ [0-9a-f]+)")


def derivation(text):
    """A derivation in version 1."""
    lines = lines_of(text, "derivation")
    head = re.fullmatch(r"rcap-derivation 1 (\d+) (\d+)", lines[0] if lines else "")
    if head is None:
        raise bad("derivation", 1)
    slots, nodes = int(head[1]), int(head[2])
    if len(lines) != 1 + slots + nodes:
        raise bad("derivation", min(len(lines), 1 + slots + nodes) + 1)
    found = Derivation([], [], [], [])
    for number, line in enumerate(lines[1 : 1 + slots], 2):
        words = SLOT.fullmatch(line)
        if words is None:
            raise bad("derivation", number)
        found.slots.append(words[1])
    for number, line in enumerate(lines[1 + slots :], 2 + slots):
        words = NODE.fullmatch(line)
        if words is None:
            raise bad("derivation", number)
        found.rules.append(words[1])
        found.types.append(words[2])
        found.masks.append(words[3])
    return found


@dataclasses.dataclass
class Places:
    """Rows of entities, fields, methods, slots and nodes, in the order of the words of their lines."""

    entities: list
    fields: list
    methods: list
    slots: list
    nodes: list


def natural(word):
    """The number that a word is, which has digits alone."""
    if not (word.isascii() and word.isdecimal()):
        raise ValueError
    return int(word)


def entity(words):
    kind, capability, start, end, name = words
    return [kind, capability, natural(start), natural(end), name]


def field(words):
    owner, word, of, capability, name = words
    return [natural(owner), word, natural(of), capability, name]


def method(words):
    owner, kind, *rest, taken, name = words
    start, end, slot, node = map(natural, rest)
    return [natural(owner), kind, start, end, slot, node, None if taken == NONE else natural(taken), name]


def slot(words):
    depth, kind, start, end, name = words
    return [natural(depth), kind, natural(start), natural(end), name]


def node(words):
    kind, owner, depth, start, end, *children = words
    return [kind, natural(owner), natural(depth), natural(start), natural(end), [natural(it) for it in children]]


SORTS = (("e", entity), ("f", field), ("m", method), ("s", slot), ("n", node))

# The sorts whose rows begin with the number of an entity.
OF_ENTITIES = ("f", "m")


def places(text):
    """The text of `places`."""
    lines = lines_of(text, "places")
    head = re.fullmatch(r"rcap-places 1 (\d+) (\d+) (\d+) (\d+) (\d+)", lines[0] if lines else "")
    if head is None:
        raise bad("places", 1)
    counts = [int(it) for it in head.groups()]
    if len(lines) != 1 + sum(counts):
        raise bad("places", min(len(lines), 1 + sum(counts)) + 1)
    at, sorts = 1, []
    for (letter, reader), count in zip(SORTS, counts):
        rows = []
        for number in range(at, at + count):
            words = lines[number].split(" ")
            try:
                if words[0] != letter:
                    raise ValueError
                rows.append(reader(words[1:]))
                if letter in OF_ENTITIES and rows[-1][0] >= counts[0]:
                    raise ValueError
            except ValueError:
                raise bad("places", number + 1) from None
        sorts.append(rows)
        at += count
    return Places(*sorts)


@dataclasses.dataclass
class Event:
    """A step: its place, its actor, what it does, and its clock.

    `word` is take, send, make, new, read or write. `other` is the actor that is sent to or made, and of a take the place of
    the sending. `message` is E.m. `address` is an object M.S, `of` the entity of a new object, `field` an index."""

    place: int
    actor: int
    word: str
    clock: list
    other: int | None = None
    message: str | None = None
    address: str | None = None
    of: str | None = None
    field: int | None = None


def numbers(clock):
    if not (clock.isascii() and clock.replace(",", "").isdecimal()):
        raise ValueError
    return [int(it) for it in clock.split(",")]


def address(word):
    """The address of an object, two numbers with a dot between them."""
    if not re.fullmatch(r"[0-9]+\.[0-9]+", word):
        raise ValueError
    return word


def message(word):
    """The message that a word is: the name of an entity, and that of its method."""
    if not re.fullmatch(r"[^.]+\.[^.]+", word):
        raise ValueError
    return word


def event(words):
    """The event of a line's words."""
    place, actor, word, *rest, mark, clock = words
    if mark != "clock":
        raise ValueError
    found = Event(natural(place), natural(actor), word, numbers(clock))
    if word == "take":
        name, other = rest
        found.message, found.other = message(name), natural(other)
    elif word in ("send", "make"):
        other, name = rest
        found.message, found.other = message(name), natural(other)
    elif word == "new":
        where, found.of = rest
        found.address = address(where)
    elif word in ("read", "write"):
        where, index = rest
        found.address, found.field = address(where), natural(index)
    else:
        raise ValueError
    if found.actor >= len(found.clock):
        raise ValueError
    return found


def events(text):
    """The events of a run, one after the other, and the number of accesses in the last line."""
    lines = lines_of(text, "events")
    last = re.fullmatch(r"events (\d+) accesses (\d+) ordered", lines[-1] if lines else "")
    if last is None or int(last[1]) != len(lines) - 1:
        raise bad("events", max(len(lines), 1))
    return each_event(lines), int(last[2])


def each_event(lines):
    for number, line in enumerate(lines[:-1], 1):
        try:
            yield event(line.split(" "))
        except ValueError:
            raise bad("events", number) from None


def run(text):
    """What a run printed, line by line, and its line of numbers."""
    lines = lines_of(text, "run")
    if not lines or not re.fullmatch(r"steps \d+ skipped \d+ actors \d+ objects \d+ waiting \d+", lines[-1]):
        raise bad("run", max(len(lines), 1))
    return lines[:-1], lines[-1]


@dataclasses.dataclass
class Sends:
    """Pairs of a sender and a message, and the messages that are never sent, a message being an entity and a name."""

    pairs: list
    never: list


def sends(text):
    """The text of `sends`."""
    found = Sends([], [])
    for number, line in enumerate(lines_of(text, "sends"), 1):
        sent = re.fullmatch(r"(\S+) sends ([^\s.]+)\.(\S+)", line)
        never = re.fullmatch(r"never ([^\s.]+)\.(\S+)", line)
        if sent:
            found.pairs.append((sent[1], (sent[2], sent[3])))
        elif never:
            found.never.append((never[1], never[2]))
        else:
            raise bad("sends", number)
    return found


@dataclasses.dataclass
class Explanation:
    """The line of `check`; how many characters of the place are in its line, and the end as L:C if it is in a later one;
    and the lines after the window, as pairs of what comes before the first `: ` and what comes after it."""

    head: str
    width: int
    end: tuple | None
    lines: list


WINDOW = re.compile(r"\s*\| [ \t]*(\^+)(?: \.\. (\d+):(\d+))?")


def explanation(text):
    """The text of `explain` for a refused source."""
    lines = lines_of(text, "explain")
    if not lines:
        raise bad("explain", 1)
    found = Explanation(lines[0], 0, None, [])
    rest = lines[1:]
    if len(rest) > 1 and re.match(r"\d+ \| ", rest[0]):
        carets = WINDOW.fullmatch(rest[1])
        if carets is None:
            raise bad("explain", 3)
        found.width = len(carets[1])
        found.end = (int(carets[2]), int(carets[3])) if carets[2] else None
        rest = rest[2:]
    for number, line in enumerate(rest, 1 + len(lines) - len(rest)):
        word, colon, words = line.partition(": ")
        if not colon:
            raise bad("explain", number)
        found.lines.append([word, words])
    return found
