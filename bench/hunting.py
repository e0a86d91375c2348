"""A hunt: sources are composed by chance, and the worst of them are changed again and again."""

import dataclasses
import resource

import fitting
import genes as descriptions

# How many shapes a command keeps in each way, and how many sources are composed by chance before any is changed.
SHAPES_KEPT = 16
BEGINNERS = 6

# Of a shorter source the time for each byte says little.
BYTES_AT_LEAST = 1_000

# A size from which it is a part of a source's shape.
LARGE = 32

# A source with fewer genes stands for another that takes up to this many times as much.
AS_BAD = 1.02


def shape_of(genes):
    """What a source is like: which of its sizes are large."""
    return tuple(name for name in descriptions.SIZES if getattr(genes, name) >= LARGE)


def changes(genes):
    """How many genes are not plain."""
    return sum(getattr(genes, name) != it.default for name, it in descriptions.FIELDS.items())


class Kept:
    """The worst sources of one command: of each shape the one that takes most, and the one that takes most for each byte.

    The first are what a hunt looks for. The second lead to it: in a small source one sees what grows with the product of two sizes,
    and a large one is as slow as others that are only large."""

    def __init__(self):
        self.by_amount, self.by_byte = {}, {}

    def worst(self):
        """Those that take most, the worst first."""
        return sorted(self.by_amount.values(), key=lambda it: -it.times)

    def densest(self):
        """Those that take most for each byte, the worst first."""
        return sorted(self.by_byte.values(), key=lambda it: -it.density())

    def add(self, found):
        """Keeps a source if it is the worst of its shape in one way, and says whether it takes most of all."""
        is_worst = all(found.times > it.times for it in self.by_amount.values())
        keep(self.by_amount, found, lambda it: it.times)
        if found.bytes >= BYTES_AT_LEAST:
            keep(self.by_byte, found, lambda it: it.density())
        return is_worst

    def replace(self, old, new):
        """Keeps a source in the place of one that has more genes and is hardly worse."""
        for kept in (self.by_amount, self.by_byte):
            if kept.get(shape_of(old.genes)) is old:
                del kept[shape_of(old.genes)]
        self.add(new)


def keep(kept, found, value):
    """Keeps a source if it has the greatest value of its shape, and of all shapes those with the greatest values."""
    old = kept.get(shape_of(found.genes))
    if old is None or value(found) > value(old):
        kept[shape_of(found.genes)] = found
    for shape in sorted(kept, key=lambda it: -value(kept[it]))[SHAPES_KEPT:]:
        del kept[shape]


def processor_seconds():
    """What the script and all that it has called have taken of the processor."""
    used = [resource.getrusage(it) for it in (resource.RUSAGE_SELF, resource.RUSAGE_CHILDREN)]
    return sum(it.ru_utime + it.ru_stime for it in used)


class Hunt:
    """The sources that are kept for each command, and what is to be tried next."""

    def __init__(self, measured, chance, commands, held, show):
        self.measured, self.chance, self.commands, self.held, self.show = measured, chance, commands, held, show
        self.kept = {it: Kept() for it in commands}
        self.next = []
        self.tried = 0

    def hold(self, genes):
        """The source with the genes that are held."""
        return dataclasses.replace(genes, **self.held)

    def fit(self, genes, names=()):
        """The source, consistent and within the limits, with the genes that are held; of the others those with these names are
        made smaller last."""
        return fitting.fitted(self.chance, self.hold(genes), {*self.held, *names})

    def begun(self):
        """A source by chance, with a size as large as it may be."""
        return fitting.filled(self.chance, self.fit(descriptions.by_chance(self.chance)), self.held)

    def plainer(self, genes):
        """The source with one to three of its genes plain."""
        names = [name for name, it in descriptions.FIELDS.items() if getattr(genes, name) != it.default]
        some = self.chance.sample(names, min(len(names), self.chance.randint(1, 3)))
        return self.fit(dataclasses.replace(genes, **{name: descriptions.FIELDS[name].default for name in some}))

    def changed(self, parent, others):
        """Another source, made of one that is kept."""
        way = self.chance.random()
        if way < 0.2:
            return self.plainer(parent)
        if way < 0.5:
            return fitting.filled(self.chance, parent, self.held)
        if way < 0.65:
            return self.fit(*descriptions.crossed(self.chance, parent, self.chance.choice(others).genes))
        changed = self.fit(*descriptions.mutated(self.chance, parent))
        return fitting.filled(self.chance, changed, self.held) if way < 0.85 else changed

    def parent(self, command):
        """One of the sources that are kept for a command, more often a bad one, and none at which it was stopped; nothing as long
        as there are few."""
        kept = self.kept[command]
        some = [it for it in (kept.worst() if self.chance.random() < 0.5 else kept.densest()) if it.status is not None]
        if len(kept.by_amount) < BEGINNERS or not some:
            return None
        return some[min(int(self.chance.expovariate(0.3)), len(some) - 1)]

    def try_one(self, command, genes, parent=None):
        """Measures a command on a source, keeps what was found, and offers a new worst one to the other commands."""
        found = self.measured.found(command, genes)
        self.tried += 1
        if found is None:
            return
        if parent and changes(genes) < changes(parent.genes) and found.times * AS_BAD >= parent.times:
            self.kept[command].replace(parent, found)
        elif self.kept[command].add(found):
            self.show(found)
            if parent is not None:
                self.next += [(it, genes) for it in self.commands if it != command]

    def turn(self):
        """Tries one source with one command."""
        if self.next:
            self.try_one(*self.next.pop())
            return
        command = self.commands[self.tried % len(self.commands)]
        parent = self.parent(command)
        if parent is None:
            self.try_one(command, self.begun())
        else:
            self.try_one(command, self.changed(parent.genes, self.kept[command].worst()), parent)

    def run(self, minutes):
        """Hunts for these minutes of the processor."""
        end = processor_seconds() + 60 * minutes
        while processor_seconds() < end:
            self.turn()

    def table(self):
        """All that is kept, by command and the worst first."""
        return [it for command in self.commands for it in self.kept[command].worst()]


def above(found):
    """Those that are above their limits or have a wrong status; each is an input for `worst`."""
    return [it for it in found if it.times > 1 or it.status != it.wanted]
