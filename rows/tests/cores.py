"""What the text of `places` says of a core, as far as a row asks."""

from steps import Form


class Core:
    """The lines of a text of `places`, by their sort."""

    def __init__(self, out):
        lines = [line.split() for line in out.decode().splitlines()]
        self.entities, self.methods, self.slots, self.nodes = ([it[1:] for it in lines if it[0] == sort] for sort in "emsn")

    def has_body(self, method):
        """Whether a method has a body, whose node is its last."""
        return any(node[0] == "body" and node[1] == str(method) for node in self.nodes)

    def slot_count(self, method):
        """How many slots a method has."""
        starts = [int(it[4]) for it in self.methods] + [len(self.slots)]
        return starts[method + 1] - starts[method]


def methods(wanted):
    """The methods after that of the language: of each its entity, where its name starts, and whether it has a body."""

    def holds(came, before):
        core = Core(came)
        found = [(int(it[0]), int(it[2]), core.has_body(number)) for number, it in enumerate(core.methods)]
        return found[1:] == wanted

    return Form(f"the methods {wanted}", holds)


def methods_at(count, wanted):
    """How many methods there are, and at places the method: its entity, where its name starts, its kind and how many slots it
    has."""

    def holds(came, before):
        core = Core(came)
        found = [(int(it[0]), int(it[2]), it[1], core.slot_count(number)) for number, it in enumerate(core.methods)]
        return len(found) == count and all(found[place] == it for place, it in wanted.items())

    return Form(f"{count} methods, and among them {wanted}", holds)


def counts(entities, nodes):
    """How many entities and nodes there are."""

    def holds(came, before):
        core = Core(came)
        return (len(core.entities), len(core.nodes)) == (entities, nodes)

    return Form(f"{entities} entities and {nodes} nodes", holds)


def node_at(place, kind, method, start):
    """The node at a place: its kind, its method and where it starts."""

    def holds(came, before):
        found = Core(came).nodes[place]
        return (found[0], int(found[1]), int(found[3])) == (kind, method, start)

    return Form(f"at {place} the node {kind} of method {method} at {start}", holds)


def items_at(place, count):
    """The sequence at a place has this many items, which are the first nodes."""

    def holds(came, before):
        found = Core(came).nodes[place]
        return found[0] == "seq" and found[5:] == [str(number) for number in range(count)]

    return Form(f"at {place} a sequence of the first {count} nodes", holds)


def both(one, other):
    """What two forms say."""
    return Form(f"{one.words}; {other.words}", lambda came, before: one.holds(came, before) and other.holds(came, before))


def node_lines(came):
    """The lines of the nodes."""
    return [line for line in came.splitlines() if line.startswith(b"n ")]


def nodes_are(first, wanted):
    """From a place on the nodes have these lines, and so far go those of a method."""

    def holds(came, before):
        found = node_lines(came)
        method = wanted[0].split()[2]
        return found[first : first + len(wanted)] == wanted and sum(line.split()[2] == method for line in found) == len(wanted)

    return Form(f"from {first} on the nodes {wanted}", holds)


def nodes_at(count, wanted):
    """How many nodes there are, and at places the line of the node."""

    def holds(came, before):
        found = node_lines(came)
        return len(found) == count and all(found[place] == line for place, line in wanted.items())

    return Form(f"{count} nodes, and among them {wanted}", holds)
