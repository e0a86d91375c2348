"""The page of who sends what: its data, of the texts of `sends` and `places`."""

import layout
import program
import texts
from columns import differences

MAIN, STREAM = "Main", "OutStream"

# A picture has at most so many boxes; of more, the page draws the neighbours of one.
MOST_BOXES = 60

# Sizes of a box: its head, a row for a message, what is below the last row; its width by the longest name.
HEAD, ROW, FOOT = 38, 26, 8
CHARACTER, SIDES, LEAST_WIDTH, MOST_CHARACTERS = 8.4, 44, 120, 24
NEVER_WIDTH = 46

# What an arrow takes beside a box that it leads to in the picture for narrow windows.
BESIDE = 22


def box_size(name, rows, never):
    """The width and height of a box."""
    longest = max([len(name) * 1.1, *(len(it) for it in rows)], default=0)
    width = max(LEAST_WIDTH, min(longest, MOST_CHARACTERS) * CHARACTER + SIDES + (NEVER_WIDTH if never else 0))
    return round(width), HEAD + ROW * len(rows) + (FOOT if rows else 0)


def picture(sizes, arrows, first, tall):
    """Where everything is in one of the two pictures: layers from left to right, or from top to bottom."""
    extents = [width + BESIDE if tall else height for width, height in sizes]
    layer, centres, passed = layout.place(extents, arrows, first)
    return {
        "layer": layer,
        "at": centres,
        "ways": [[source, target, passed[source, target]] for source, target in arrows],
    }


class Messages:
    """The messages of a table, numbered in the order of the core, each an entity and a name."""

    def __init__(self, name, found, places):
        entities = [row[4] for row in places.entities]
        kinds = {(entities[row[0]], row[7]): row[1] for row in places.methods if row[1] in ("be", "spawn")}
        mentioned = {it for _, it in found.pairs} | set(found.never)
        if not mentioned <= kinds.keys():
            raise program.Failed(f"{name}: sends and places name different messages")
        self.rows = [it for it in kinds if it in mentioned]
        self.numbers = {it: number for number, it in enumerate(self.rows)}
        self.never = [self.numbers[it] for it in found.never]
        self.constructors = [number for number, it in enumerate(self.rows) if kinds[it] == "spawn"]

    def never_made(self):
        """The entities all of whose constructors are never sent. The program itself makes the first two actors."""
        dull = set(self.never)
        sent = {self.rows[it][0] for it in self.constructors if it not in dull}
        return {self.rows[it][0] for it in dull} - sent - {MAIN, STREAM}


def rows_of(found, boxes, messages):
    """The senders in the order of the table, and the differences of the numbers of what each may send."""
    rows = {}
    for sender, message in found.pairs:
        rows.setdefault(boxes[sender], []).append(messages.numbers[message])
    return {"senders": list(rows), "rows": [differences(row) for row in rows.values()]}


def pictures(names, messages, found, boxes):
    """The sizes of the boxes, and the two pictures."""
    dull = set(messages.never)
    own = [[number for number, it in enumerate(messages.rows) if it[0] == name] for name in names]
    sizes = [
        box_size(name, [messages.rows[it][1] for it in row], any(it in dull for it in row)) for name, row in zip(names, own)
    ]
    arrows = list(dict.fromkeys((boxes[sender], boxes[entity]) for sender, (entity, _) in found.pairs))
    first = boxes.get(MAIN)
    return {"sizes": sizes, "wide": picture(sizes, arrows, first, False), "tall": picture(sizes, arrows, first, True)}


def data(name, found, places):
    """The page's data. Boxes are in the order of the core's entities."""
    messages = Messages(name, found, places)
    never_made = messages.never_made()
    with_arrows = {sender for sender, _ in found.pairs} | {entity for _, (entity, _) in found.pairs}
    with_rows = {messages.rows[it][0] for it in messages.never} - never_made
    kinds = {row[4]: row[0] for row in places.entities}
    if not with_arrows <= kinds.keys():
        raise program.Failed(f"{name}: sends and places name different entities")
    drawn = [it for it in kinds if it in with_arrows | with_rows]
    boxes = {it: number for number, it in enumerate(drawn)}
    found_pictures = pictures(drawn, messages, found, boxes) if len(drawn) <= MOST_BOXES else {}
    return {
        "page": "sends",
        "name": name,
        "boxes": drawn,
        "kinds": [kinds[it] for it in drawn],
        "messages": [[boxes.get(entity, -1), "" if entity in boxes else entity, it] for entity, it in messages.rows],
        "constructors": messages.constructors,
        "never": messages.never,
        "never_made": [it for it in kinds if it in never_made],
        "first": boxes.get(MAIN),
        "pairs": len(found.pairs),
        **rows_of(found, boxes, messages),
        **found_pictures,
    }


def page(path):
    """The title of the page and its data."""
    name = program.shown_name(path)
    found = texts.sends(program.must("sends", path))
    places = texts.places(program.must("places", path))
    return f"Who sends what in {name}", data(name, found, places)
