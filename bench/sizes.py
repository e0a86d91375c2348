"""The sizes of the source of a description, without its text."""

import dataclasses
import itertools

import composed
from composed import Inside, Names

BYTES_AT_MOST = 1_048_576
TOKENS_AT_MOST = 200_000
ENTITIES_AT_MOST = 1_000
SLOTS_AT_MOST = 64
NODES_AT_MOST = 200_000

# The slots of a body besides its parameters and locals: `this`. Main has two more, and has no parameters.
OTHER_SLOTS = 1

# From this excess on an estimate is enough.
MUCH_TOO_LARGE = 2


@dataclasses.dataclass(frozen=True)
class Sizes:
    """The sizes of a source that have limits. It has no more nodes than this."""

    bytes: int
    tokens: int
    methods: int
    nodes: int

    def excess(self, genes):
        """How many times the limits the size is that passes its own by most; at most 1 if none does."""
        methods = 0 if genes.past == "methods" else self.methods / composed.METHODS_AT_MOST
        return max(self.bytes / BYTES_AT_MOST, self.tokens / TOKENS_AT_MOST, self.nodes / NODES_AT_MOST, methods)


class Sum:
    """The bytes, tokens and nodes of what was added."""

    def __init__(self):
        self.bytes = self.tokens = self.nodes = 0

    def add(self, piece, count=1, names=0):
        """Adds a piece a number of times, and the bytes of names that it lacks."""
        self.bytes += count * len(piece.text) + names
        self.tokens += count * piece.tokens
        self.nodes += count * piece.nodes


def bytes_of_names(numbers, length):
    """The bytes of the names with these numbers, which are of this length, or longer if a number needs it."""
    total, digits = 0, 1
    while 10 ** (digits - 1) < numbers.stop or digits == 1:
        low, high = max(numbers.start, 10 ** (digits - 1) if digits > 1 else 0), min(numbers.stop, 10**digits)
        total += max(0, high - low) * max(length, 1 + digits)
        digits += 1
    return total


def add_methods(total, genes, own, numbers, first_name, has_bodies):
    """Adds the methods with names of these numbers of the entity with the name `own`."""
    if not len(numbers):
        return
    inside = Inside(own, first_name, composed.has_fields(genes))
    body = composed.body_of(genes, composed.plain_item(genes, inside), genes.items) if has_bodies else None
    each = composed.method_of(genes, "", composed.parameter_list(genes, own), body)
    total.add(each, len(numbers), bytes_of_names(numbers, genes.method_name))


def methods_of_writer(genes, writer):
    """The sizes of the methods that a trait writes."""
    total, names = Sum(), Names(genes)
    first = 0 if genes.trait_names == "same" else writer * genes.trait_methods
    numbers = range(first, first + genes.trait_methods)
    add_methods(total, genes, names.trait(writer), numbers, names.trait_method(writer, 0), genes.bodies == "yes")
    return total


def add_methods_of_traits(total, genes):
    """Adds the methods of all traits. Those of two traits have the same sizes if their numbers have as many digits."""
    known = {}
    for writer in range(min(genes.writers, genes.traits)):
        numbers = (writer, writer * genes.trait_methods, (writer + 1) * genes.trait_methods)
        digits = tuple(len(str(it)) for it in numbers)
        if digits not in known:
            known[digits] = methods_of_writer(genes, writer)
        for name in ("bytes", "tokens", "nodes"):
            setattr(total, name, getattr(total, name) + getattr(known[digits], name))


def add_traits(total, genes):
    """Adds the traits."""
    lengths = [len(Names(genes).trait(it)) for it in range(genes.traits)]
    before = [0, *itertools.accumulate(lengths)]
    for number, length in enumerate(lengths):
        total.add(composed.Piece(f"{genes.trait_kind} ", 2), 1, length)
        named = min(number, genes.traits_is)
        total.add(composed.is_list([""] * named), 1, before[number] - before[number - named])
    add_methods_of_traits(total, genes)


def add_class(total, genes, number, named):
    """Adds a class that names traits whose names have this number of bytes."""
    names = Names(genes)
    total.add(composed.Piece(f"{genes.class_kind} {names.entity(number)}", 2))
    total.add(composed.is_list([""] * genes.classes_is), 1, named)
    if genes.class_kind != "primitive":
        total.add(composed.field_of(""), genes.fields, bytes_of_names(range(genes.fields), genes.field_name))
        if genes.constructors:
            total.add(composed.constructor_of("create"))
            others = range(1, genes.constructors)
            total.add(composed.constructor_of(""), len(others), bytes_of_names(others, genes.method_name))
    add_methods(total, genes, names.entity(number), range(genes.class_methods), names.class_method(0), True)


def add_classes(total, genes):
    """Adds the classes. Those whose numbers have as many digits have the same sizes."""
    named = bytes_of_names(range(composed.first_named(genes), genes.traits), genes.trait_name)
    for digits in range(1, len(str(genes.classes)) + 1):
        numbers = range(10 ** (digits - 1) if digits > 1 else 0, min(genes.classes, 10**digits))
        if len(numbers):
            one = Sum()
            add_class(one, genes, numbers[0], named)
            total.bytes += len(numbers) * one.bytes
            total.tokens += len(numbers) * one.tokens
            total.nodes += len(numbers) * one.nodes


def nodes_of_a_class(genes):
    """At most how many nodes the bodies have that a class takes over, its constructors and the values of its fields."""
    names = Names(genes)
    initial = composed.number_of_constructors(genes) * (genes.fields * composed.NODES_OF_A_FIELD + composed.NODES_OF_A_BODY)
    inside = Inside(names.trait(0), names.method("m", 0), composed.has_fields(genes))
    body = composed.body_of(genes, composed.plain_item(genes, inside), genes.items)
    return initial + composed.taken_over(genes) * body.nodes


def sizes_of(genes):
    """The sizes of a source."""
    total = Sum()
    total.add(composed.comment_of(genes))
    add_traits(total, genes)
    if genes.bodies == "yes":
        # The nodes of a trait's body are those of the classes that take it over.
        total.nodes = 0
    add_classes(total, genes)
    for piece in composed.main_pieces(genes):
        total.add(piece)
    total.nodes += genes.classes * nodes_of_a_class(genes)
    return Sizes(total.bytes, total.tokens, composed.number_of_methods(genes), total.nodes)


def estimated(genes):
    """A part of the excess of a source that is known without any of its text, which may be too large to be made."""
    methods = min(genes.writers, genes.traits) * genes.trait_methods + genes.classes * (genes.class_methods + genes.constructors)
    lists = genes.traits * min(genes.traits, genes.traits_is) // 2 + genes.classes * genes.classes_is
    bodies = 1 if methods else 0
    items = bodies * genes.items + genes.main_items
    tokens = 4 * methods * (1 + genes.parameters) + 2 * lists + items * (2 * genes.length - 1 + 2 * genes.levels)
    longest = genes.comment + 4 * genes.comment_levels + methods * (genes.method_name + genes.parameters * genes.parameter_name)
    longest += lists * genes.trait_name + genes.locals * genes.local_name + genes.classes * genes.fields * genes.field_name
    longest += genes.traits * genes.trait_name + genes.classes * genes.class_name
    if genes.item == "text":
        longest += bodies * genes.items * genes.text
    if genes.main_item == "text":
        longest += genes.main_items * genes.text
    return max(tokens / TOKENS_AT_MOST, longest / BYTES_AT_MOST)


def excess(genes):
    """How many times its limit the largest size of a source is. It is estimated if that is much more than one."""
    about = estimated(genes)
    return about if about > MUCH_TOO_LARGE else sizes_of(genes).excess(genes)
