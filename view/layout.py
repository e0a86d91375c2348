"""Where boxes and arrows are in the picture of who sends what. Nothing is random: a table has one picture.

Boxes are in layers by the longest way from those that nobody sends to, without the arrows that go back. An arrow over
several layers goes through a place in each, so that none passes under a box. The order in a layer is by the mean of the
neighbours, in twelve sweeps, of which the order with the fewest crossings is kept."""

import dataclasses

SWEEPS = 12

# The room between two things in a layer, and what an arrow that passes takes in it.
GAP = 26
PASSING = 12


@dataclasses.dataclass
class Thing:
    """A box, or a place through which arrows pass: its extent along its layer."""

    extent: float
    layer: int
    is_back: bool = False
    at: float = 0.0


def layers_of(count, arrows, first):
    """The layer of each box: by a walk from `first` and then from the rest, in which an arrow to a box that the walk is in is
    one back; then the longest way by the others."""
    after = [[] for _ in range(count)]
    for source, target in arrows:
        if source != target:
            after[source].append(target)
    state, ordered, kept = [0] * count, [], [[] for _ in range(count)]
    entered = [any(source != target and target == box for source, target in arrows) for box in range(count)]
    for root in [first, *(box for box in range(count) if not entered[box]), *range(count)]:
        if root is None or state[root]:
            continue
        state[root] = 1
        walk = [(root, iter(after[root]))]
        while walk:
            box, targets = walk[-1]
            target = next(targets, None)
            if target is None:
                state[box] = 2
                ordered.append(box)
                walk.pop()
            elif state[target] != 1:
                kept[box].append(target)
                if state[target] == 0:
                    state[target] = 1
                    walk.append((target, iter(after[target])))
    layer = [0] * count
    for box in reversed(ordered):
        for target in kept[box]:
            layer[target] = max(layer[target], layer[box] + 1)
    # A box that nobody sends to is right before the first of those it sends to.
    for box in range(count):
        if not entered[box] and box != first and kept[box]:
            layer[box] = max(0, min(layer[target] for target in kept[box]) - 1)
    used = sorted(set(layer))
    return [used.index(it) for it in layer]


def chains(layer, arrows):
    """Of each arrow the layers that it passes through between its ends. One back, or to its own box, passes beside the boxes
    of all layers from that of its start to that of its end."""
    found = {}
    for source, target in arrows:
        start, end = layer[source], layer[target]
        found[source, target] = list(range(start + 1, end)) if end > start else list(range(start, end - 1, -1))
    return found


def crossings(order, links):
    """How many pairs of links between two adjacent layers cross."""
    number = 0
    for layer in range(len(order) - 1):
        places = sorted((order[layer][a], order[layer + 1][b]) for a, b in links[layer])
        ends = [b for _, b in places]
        for i, end in enumerate(ends):
            number += sum(1 for other in ends[i + 1 :] if other < end)
    return number


def arranged(things, links, layers):
    """The order of the things in each layer."""
    rows = [[i for i, it in enumerate(things) if it.layer == layer] for layer in range(layers)]
    for row in rows:
        row.sort(key=lambda i: not things[i].is_back)
    before, after = [[] for _ in things], [[] for _ in things]
    for layer in links:
        for a, b in layer:
            after[a].append(b)
            before[b].append(a)

    def places():
        return [{it: place for place, it in enumerate(row)} for row in rows]

    best, fewest = [list(row) for row in rows], crossings(places(), links)
    for sweep in range(SWEEPS):
        down = sweep % 2 == 0
        for layer in range(1, layers) if down else range(layers - 2, -1, -1):
            beside = {it: place for place, it in enumerate(rows[layer - 1 if down else layer + 1])}
            near = before if down else after
            own = {it: place for place, it in enumerate(rows[layer])}

            def mean(it):
                found = [beside[other] for other in near[it] if other in beside]
                return sum(found) / len(found) if found else own[it]

            rows[layer].sort(key=lambda it: (mean(it), own[it]))
        number = crossings(places(), links)
        if number < fewest:
            best, fewest = [list(row) for row in rows], number
    return best


def spread(row, things, wanted):
    """Places of the things in a row, each as near to the wanted one as the order and the gaps allow: blocks of things that
    touch are joined until none overlaps, and a block stands at the mean of what its things want."""
    blocks = []
    for it in row:
        block = [[it], wanted[it], things[it].extent]
        blocks.append(block)
        while len(blocks) > 1 and blocks[-2][1] + blocks[-2][2] / 2 + GAP > blocks[-1][1] - blocks[-1][2] / 2:
            items, centre, extent = blocks.pop()
            others, middle, room = blocks.pop()
            whole = room + GAP + extent
            first = (len(others) * (middle - room / 2) + len(items) * (centre - extent / 2 - room - GAP)) / (len(others) + len(items))
            blocks.append([others + items, first + whole / 2, whole])
    for items, centre, extent in blocks:
        at = centre - extent / 2
        for it in items:
            things[it].at = at + things[it].extent / 2
            at += things[it].extent + GAP


def woven(extents, layer, arrows):
    """The boxes and the places of arrows as things, the boxes first; the links of each layer with the next one; and of each
    arrow the things through which it passes."""
    things = [Thing(extent, layer[box]) for box, extent in enumerate(extents)]
    links = [[] for _ in range(max(layer, default=0) + 1)]
    ways = {}
    for (source, target), passed in chains(layer, arrows).items():
        way = range(len(things), len(things) + len(passed))
        things += [Thing(PASSING, between, is_back=layer[target] <= layer[source]) for between in passed]
        ways[source, target] = way
        for a, b in zip([source, *way], [*way, target]):
            if things[b].layer == things[a].layer + 1:
                links[things[a].layer].append((a, b))
            elif things[b].layer == things[a].layer - 1:
                links[things[b].layer].append((b, a))
    return things, links, ways


def set_out(rows, things, links):
    """Gives each thing its place in its row: first side by side, and then near to what it is linked with."""
    near = [[] for _ in things]
    for pairs in links:
        for a, b in pairs:
            near[a].append(b)
            near[b].append(a)
    for row in rows:
        at = 0.0
        whole = sum(things[it].extent for it in row) + GAP * (len(row) - 1)
        for it in row:
            things[it].at = at - whole / 2 + things[it].extent / 2
            at += things[it].extent + GAP
    for sweep in range(SWEEPS):
        for row in rows if sweep % 2 == 0 else reversed(rows):
            wanted = {it: (sum(things[o].at for o in near[it]) / len(near[it]) if near[it] else things[it].at) for it in row}
            spread(row, things, wanted)


def place(extents, arrows, first):
    """Layers, centres along the layers, and of each arrow the centres through which it passes, layer by layer.

    `extents` has a number for each box, `arrows` each pair of a sender and a receiver once, `first` the box to begin with."""
    layer = layers_of(len(extents), arrows, first)
    things, links, ways = woven(extents, layer, arrows)
    set_out(arranged(things, links, max(layer, default=-1) + 1), things, links)
    least = min((it.at - it.extent / 2 for it in things), default=0)
    for it in things:
        it.at -= least
    centres = [round(things[box].at, 1) for box in range(len(extents))]
    passed = {arrow: [(things[it].layer, round(things[it].at, 1)) for it in way] for arrow, way in ways.items()}
    return layer, centres, passed
