"""The page of a run as lanes: its data, of the texts of `events`, `trace`, `run`, `places` and `schedule`."""

import re
import tempfile

import program
import texts
from columns import Table, differences

# Statuses of a run that has no text to draw: the page is its line alone.
ENDED = (program.LIMIT_PASSED, program.TEXT_TOO_LONG)

STREAM, MAIN = "OutStream", "Main"
ENVIRONMENT = ("0.1", "Env")
OWN_SERIAL = "0"
WORDS = ("take", "send", "make", "new", "read", "write")


def entity_of(message):
    """The entity of a message's method."""
    return message.split(".", 1)[0]


class Clocks:
    """Clocks as differences: of each event how many of its actor's steps were taken since the actor's event before, and the
    other numbers only if they are not those of that event."""

    def __init__(self):
        self.last = {}
        self.own = []
        self.jumps = []

    def add(self, number, actor, clock):
        before = self.last.get(actor, [])
        before = before + [0] * (len(clock) - len(before))
        self.own.append(clock[actor] - before[actor])
        before[actor] = clock[actor]
        if before != clock:
            changed = [it for a, (now, was) in enumerate(zip(clock, before)) if now != was for it in (a, now - was)]
            self.jumps.append([number, *changed])
        self.last[actor] = clock


class Objects:
    """Objects by their addresses, in the order of their first events, each with the name of its entity: of an actor's own
    object it is the actor's, and of others that of the line that makes it."""

    def __init__(self):
        self.table = Table()
        self.entities = dict([ENVIRONMENT])

    def number(self, address, actors):
        maker, serial = address.split(".")
        if serial == OWN_SERIAL:
            if int(maker) >= len(actors):
                raise program.Failed(f"events: no line makes actor {maker}")
            self.entities.setdefault(address, actors[int(maker)])
        elif address not in self.entities:
            raise program.Failed(f"events: no line makes object {address}")
        return self.table.number(address)

    def rows(self):
        return [[address, self.entities[address]] for address in self.table.values]


def columns(events):
    """The columns of the events, with the actors, the messages and the objects that they name."""
    actors, messages, objects, clocks = [STREAM, MAIN], Table(), Objects(), Clocks()
    numbers, places, rows = {}, [], []
    for number, event in enumerate(events):
        numbers[event.place] = number
        places.append(event.place)
        what = companion = 0
        if event.word in ("take", "send", "make"):
            what = messages.number(event.message)
            companion = event.other
        if event.word == "take":
            if event.other and event.other not in numbers:
                raise program.Failed(f"events: nothing was sent at step {event.other}")
            companion = number - numbers[event.other] if event.other else 0
        elif event.word == "make":
            actors.append(entity_of(event.message))
        elif event.word == "new":
            objects.entities[event.address] = event.of
            what = objects.number(event.address, actors)
        elif event.word in ("read", "write"):
            what = objects.number(event.address, actors)
            companion = event.field
        rows.append((event.actor, WORDS.index(event.word), what, companion))
        clocks.add(number, event.actor, event.clock)
    actor, word, what, companion = (list(it) for it in zip(*rows)) if rows else ([], [], [], [])
    return actors, messages.values, objects.rows(), {
        "place": differences(places),
        "actor": actor,
        "word": word,
        "what": what,
        "with": companion,
        "own": clocks.own,
        "jumps": clocks.jumps,
    }


def field_names(places, wanted):
    """The names of the fields of the entities that are wanted, by the entities' names."""
    names = {row[4]: [] for row in places.entities if row[4] in wanted}
    for owner, _, _, _, name in places.fields:
        entity = places.entities[owner][4]
        if entity in names:
            names[entity].append(name)
    return names


def data(name, by, events, accesses, printed, numbers, places):
    """The page's data."""
    actors, messages, objects, rows = columns(events)
    reads_and_writes = sum(WORDS[it] in ("read", "write") for it in rows["word"])
    if reads_and_writes != accesses:
        raise program.Failed(f"{name}: events and trace have different numbers of accesses")
    # The stream takes a message to print its text, and for nothing else.
    prints = sum(WORDS[word] == "take" and actor == 0 for word, actor in zip(rows["word"], rows["actor"]))
    return {
        "page": "run",
        "name": name,
        "by": by,
        "verdict": "ordered",
        "accesses": accesses,
        "numbers": numbers,
        "words": WORDS,
        "actors": actors,
        "messages": messages,
        "objects": objects,
        "fields": field_names(places, {it[1] for it in objects}),
        "events": rows,
        "printed": printed,
        # A text with a line end in it has several lines: then a line is not a text, and belongs to no taking.
        "lines_are_texts": len(printed) == prints,
    }


def title(name, by):
    return f"Run of {name} by {by}"


def ended(name, by, line):
    """The page of a run without a text: its line."""
    return title(name, by), {"page": "run", "name": name, "by": by, "verdict": "ended", "line": line}


def page(path, schedule, by=None):
    """The title of the page and its data. `by` is what the schedule is called, if not by its file's name."""
    name = program.shown_name(path)
    called = by or program.shown_name(schedule)
    answer = program.ask("events", path, schedule)
    if answer.status in ENDED:
        return ended(name, called, answer.line.replace(schedule, called) if by else answer.line)
    if answer.status != program.DONE:
        raise program.failure(answer, "events", path, schedule)
    events, accesses = texts.events(answer.out)
    last = program.must("trace", path, schedule).rsplit(b"\n", 2)[-2:]
    if last != [b"accesses %d ordered" % accesses, b""]:
        raise program.Failed(f"{name}: events and trace differ in their last lines")
    printed, numbers = texts.run(program.must("run", path, schedule))
    places = texts.places(program.must("places", path))
    return title(name, called), data(name, called, events, accesses, printed, numbers, places)


def page_of_seed(path, seed):
    """The same of the run that the machine chooses by a seed."""
    if not re.fullmatch(r"[0-9]{1,20}", seed):
        raise program.Failed(f"{seed}: no seed")
    answer = program.must("schedule", path, seed)
    with tempfile.NamedTemporaryFile(prefix="rcap-seed-", suffix=".sched") as file:
        file.write(answer)
        file.flush()
        return page(path, file.name, f"seed {int(seed)}")
