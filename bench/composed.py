"""The source of a description (`genes.py`), and the status of each command on it.

A source has traits, then classes, then Main. The pieces of its text come with their numbers of tokens and nodes (`sizes.py`).
"""

import dataclasses
import itertools

import genes as descriptions
from shapes import ACCEPTED, LIMIT, NO_RULE, NO_TOKENS, WRONG_NAMES

METHODS_AT_MOST = 10_000

# Nodes of a body besides its items, and of a field's value: each at most.
NODES_OF_A_BODY = 4
NODES_OF_A_LOCAL = 2
NODES_OF_A_FIELD = 3


@dataclasses.dataclass(frozen=True)
class Piece:
    """A part of a text, with its number of tokens and, in a body, at most this many nodes."""

    text: str
    tokens: int
    nodes: int = 0


def spelled(letter, number, length, differ):
    """A name of this length, or longer if its number does not fit into it. Names of different numbers or letters differ."""
    digits = str(number)
    filling = "a" * (length - 1 - len(digits))
    return letter + digits + filling if differ == "start" else letter + filling + digits


@dataclasses.dataclass(frozen=True)
class Names:
    """The names of a source."""

    genes: descriptions.Genes

    def trait(self, number):
        return spelled("T", number, self.genes.trait_name, self.genes.differ)

    def entity(self, number):
        return spelled("E", number, self.genes.class_name, self.genes.differ)

    def method(self, letter, number):
        return spelled(letter, number, self.genes.method_name, self.genes.differ)

    def trait_method(self, writer, number):
        """The name of a method that a trait writes. Those of the first trait have the numbers from 0 on, and so have all that are the
        same."""
        block = 0 if self.genes.trait_names == "same" else writer
        return self.method("m", block * self.genes.trait_methods + number)

    def class_method(self, number):
        return self.method("m" if self.genes.class_names == "same" else "n", number)

    def constructor(self, number):
        return "create" if number == 0 else self.method("c", number)

    def field(self, number):
        return spelled("f", number, self.genes.field_name, self.genes.differ)

    def parameter(self, number):
        return spelled("p", number, self.genes.parameter_name, self.genes.differ)

    def local(self, number):
        return spelled("l", number, self.genes.local_name, self.genes.differ)


# Which methods a trait and a class have.


def first_named(genes):
    """The first trait that a class names."""
    return genes.traits - genes.classes_is


def reached_writers(genes, trait):
    """The traits with methods of their own among this one and those above it."""
    if genes.traits_is > 0:
        return range(min(trait + 1, genes.writers))
    return range(trait, trait + 1) if trait < genes.writers else range(0)


def writers_of_a_class(genes):
    """The traits with methods of their own among those that are above each class."""
    if genes.classes_is == 0:
        return range(0)
    if genes.traits_is > 0:
        return range(min(genes.traits, genes.writers))
    return range(first_named(genes), max(first_named(genes), min(genes.traits, genes.writers)))


def number_of_names(genes, writers):
    """How many different names the methods of these traits have."""
    different = len(writers) if genes.trait_names == "new" else min(1, len(writers))
    return genes.trait_methods * different


def taken_over(genes):
    """How many methods each class takes over."""
    writers = writers_of_a_class(genes)
    if genes.bodies == "no":
        return 0
    has_first = writers and (genes.trait_names == "same" or 0 in writers)
    overlap = min(genes.class_methods, genes.trait_methods) if has_first and genes.class_names == "same" else 0
    return number_of_names(genes, writers) - overlap


def number_of_constructors(genes):
    """How many constructors each class has, an added one too."""
    return 0 if genes.class_kind == "primitive" else max(1, genes.constructors)


def number_of_methods(genes):
    """How many methods the source has, with those that entities take over and with added constructors."""
    in_traits = sum(number_of_names(genes, reached_writers(genes, it)) for it in range(genes.traits))
    of_a_class = genes.class_methods + taken_over(genes) + number_of_constructors(genes)
    return in_traits + genes.classes * of_a_class + 1


# Types.


def capability(genes):
    """What a value is passed as: actors are sent to, and objects are called."""
    return "tag" if genes.class_kind == "actor" else "box"


def types_of_parameters(genes, own):
    """The type of each parameter of the methods of the entity with this name: a name, or nothing for a number."""
    names = Names(genes)
    traits = {"first": names.trait(0), "last": names.trait(genes.traits - 1)} if genes.traits else {}
    same = traits.get(genes.parameter_type)
    types = [same] * genes.parameters
    if genes.parameter_type == "own":
        types = [own] * genes.parameters
    if genes.parameter_type == "own_last" and types:
        types[-1] = own
    return types


def parameter_list(genes, own):
    """The parameters of a method, with their parentheses."""
    names = Names(genes)
    parts, tokens = [], 2
    for number, name in enumerate(types_of_parameters(genes, own)):
        parts.append(f"{names.parameter(number)}: {f'{name} {capability(genes)}' if name else 'U64'}")
        tokens += 5 if name else 4
    return Piece(f"({', '.join(parts)})", max(2, tokens - 1))


def argument_list(genes, own, kept=None):
    """The arguments of a call of a method of this entity, with their parentheses: numbers, and what is kept or the caller's own
    parameters for what is no number."""
    names = Names(genes)
    types = types_of_parameters(genes, own)
    parts = [(kept or names.parameter(number)) if name else "0" for number, name in enumerate(types)]
    return Piece(f"({', '.join(parts)})", 2 + max(0, 2 * len(parts) - 1), len(parts))


# Items of bodies.

NUMBER = Piece("0", 1, 1)


@dataclasses.dataclass(frozen=True)
class Inside:
    """Where an item is: the entity's name, the name of its first method or nothing, and whether fields are there."""

    own: str
    first_method: str | None
    fields: bool


def first_method_of(genes, trait):
    """The name of a method that a trait has, or nothing."""
    writers = reached_writers(genes, trait)
    return Names(genes).trait_method(writers[0], 0) if len(writers) and genes.trait_methods else None


def asked_method(genes, inside):
    """The name of a method of the last parameter, or nothing if it is a number or has none."""
    if not genes.parameters or types_of_parameters(genes, inside.own)[-1] is None:
        return None
    if genes.parameter_type == "first":
        return first_method_of(genes, 0)
    if genes.parameter_type == "last":
        return first_method_of(genes, genes.traits - 1)
    return inside.first_method


def value_item(genes, inside):
    """An item that is a value or reads one, or a number if what it would read is not there."""
    names = Names(genes)
    if genes.item == "text":
        return Piece(f'"{"t" * genes.text}"', 1, 1)
    if genes.item == "local" and genes.locals:
        return Piece(names.local(genes.locals - 1), 1, 1)
    if genes.item == "parameter" and genes.parameters:
        return Piece(names.parameter(genes.parameters - 1), 1, 1)
    if genes.item == "field" and inside.fields:
        return Piece(names.field(genes.fields - 1), 1, 2)
    if genes.item == "object" and genes.classes:
        return Piece(names.entity(genes.classes - 1), 1, 1)
    return NUMBER


def plain_item(genes, inside):
    """An item of a method without the levels around it."""
    arguments = argument_list(genes, inside.own)
    if genes.item == "call" and inside.first_method:
        return Piece(f"{inside.first_method}{arguments.text}", 1 + arguments.tokens, 2 + arguments.nodes)
    asked = asked_method(genes, inside)
    if genes.item == "ask" and asked:
        receiver = Names(genes).parameter(genes.parameters - 1)
        return Piece(f"{receiver}.{asked}{arguments.text}", 3 + arguments.tokens, 2 + arguments.nodes)
    return value_item(genes, inside)


def kept_method(genes):
    """The name of a method that the object kept in Main has by the last trait, or nothing if it cannot be called there."""
    if not (genes.classes and genes.classes_is):
        return None
    if genes.parameter_type == "first" and genes.traits > 1 and genes.traits_is == 0:
        return None
    return first_method_of(genes, genes.traits - 1)


def main_item(genes):
    """An item of Main without the levels around it."""
    names = Names(genes)
    if genes.main_item == "text":
        return Piece(f'"{"t" * genes.text}"', 1, 1)
    if genes.main_item == "local" and genes.locals:
        return Piece(names.local(genes.locals - 1), 1, 1)
    if genes.main_item == "object" and genes.classes:
        return Piece(names.entity(genes.classes - 1), 1, 1)
    method = kept_method(genes)
    if genes.main_item == "call" and method:
        arguments = argument_list(genes, names.trait(genes.traits - 1), "kept")
        return Piece(f"kept.{method}{arguments.text}", 3 + arguments.tokens, 2 + arguments.nodes)
    return NUMBER


# What is around an item at each level: before it, after it, tokens and nodes.
AROUND = {
    "group": ("(", ")", 2, 1),
    "if": ("if true then ", " end", 4, 5),
    "while": ("while false do ", " end", 4, 4),
    "recover": ("recover ", " end", 2, 2),
}


def around(genes, item):
    """An item with its operands, if it is a number, and the levels around it. What is no number or text is in groups and not in
    `recover`, from which it may not be seen."""
    if item is NUMBER:
        item = Piece(" + ".join("0" for _ in range(genes.length)), 2 * genes.length - 1, 2 * genes.length - 1)
    nest = "group" if genes.nest == "recover" and item.text[0] not in '0"' else genes.nest
    before, after, tokens, nodes = AROUND[nest]
    text = before * genes.levels + item.text + after * genes.levels
    return Piece(f"    {text}\n", item.tokens + genes.levels * tokens, item.nodes + genes.levels * nodes)


def locals_of(genes):
    """The locals of a body."""
    names = Names(genes)
    text = "".join(f"    var {names.local(number)}: U64 = 0\n" for number in range(genes.locals))
    return Piece(text, 6 * genes.locals, NODES_OF_A_LOCAL * genes.locals)


def body_of(genes, item, count):
    """A body with its locals, and this item `count` times."""
    first, each = locals_of(genes), around(genes, item)
    nodes = first.nodes + count * each.nodes + NODES_OF_A_BODY
    return Piece(first.text + each.text * count, first.tokens + count * each.tokens, nodes)


# Entities.


def is_list(names):
    """What an entity is below: `is` and these names."""
    if not names:
        return Piece("\n", 0)
    return Piece(f" is ({' & '.join(names)})\n", 2 + 2 * len(names))


def method_of(genes, name, parameters, body):
    """A method with these parameters, and with this body or none."""
    word_of_it = "be" if genes.class_kind == "actor" else "fun"
    head = f"  {word_of_it} {name}{parameters.text}"
    if body is None:
        return Piece(f"{head}\n", 2 + parameters.tokens)
    return Piece(f"{head} =>\n{body.text}", 3 + parameters.tokens + body.tokens, body.nodes)


def methods_of(genes, own, names, has_bodies, has_fields):
    """The methods with these names of the entity with the name `own`."""
    inside = Inside(own, names[0] if names else None, has_fields)
    parameters = parameter_list(genes, own)
    body = body_of(genes, plain_item(genes, inside), genes.items) if has_bodies else None
    return [method_of(genes, name, parameters, body) for name in names]


def has_fields(genes):
    """Whether classes have fields."""
    return genes.fields > 0 and genes.classes > 0 and genes.class_kind != "primitive"


def trait_pieces(genes, number, traits):
    """The pieces of the trait with this number among the names of all."""
    names = Names(genes)
    yield Piece(f"{genes.trait_kind} {traits[number]}", 2)
    yield is_list(traits[max(0, number - genes.traits_is) : number][::-1])
    if number < genes.writers:
        own = [names.trait_method(number, it) for it in range(genes.trait_methods)]
        yield from methods_of(genes, traits[number], own, genes.bodies == "yes", has_fields(genes))


def field_of(name):
    """A field with this name."""
    return Piece(f"  var {name}: U64 = 0\n", 6)


def constructor_of(name):
    """A constructor with this name."""
    return Piece(f"  new {name}() => 0\n", 6)


def class_pieces(genes, number, traits):
    """The pieces of a class; the names of all traits are given."""
    names = Names(genes)
    yield Piece(f"{genes.class_kind} {names.entity(number)}", 2)
    yield is_list(traits[first_named(genes) :])
    if genes.class_kind != "primitive":
        yield from (field_of(names.field(it)) for it in range(genes.fields))
        yield from (constructor_of(names.constructor(it)) for it in range(genes.constructors))
    own = [names.class_method(it) for it in range(genes.class_methods)]
    yield from methods_of(genes, names.entity(number), own, True, has_fields(genes))


# The last item of Main, by what is wrong in it.
FAULTS = {"none": Piece("", 0), "token": Piece("    end\n", 1), "name": Piece("    zz\n", 1), "rule": Piece("    0.zz()\n", 5)}


def main_pieces(genes):
    """The pieces of Main."""
    names = Names(genes)
    yield Piece("actor Main\n  new create(env: Env) =>\n", 10)
    if kept_method(genes):
        last, made = names.trait(genes.traits - 1), names.entity(genes.classes - 1)
        yield Piece(f"    let kept: {last} {capability(genes)} = {made}\n", 7, NODES_OF_A_LOCAL)
    yield body_of(genes, main_item(genes), genes.main_items)
    yield FAULTS[genes.fault]


def comment_of(genes):
    """The comment before the first entity."""
    levels = max(genes.comment_levels, min(1, genes.comment))
    return Piece("/*" * levels + "c" * genes.comment + "*/" * levels + "\n", 0)


def pieces(genes):
    """The pieces of the source."""
    traits = [Names(genes).trait(it) for it in range(genes.traits)]
    yield comment_of(genes)
    yield from itertools.chain.from_iterable(trait_pieces(genes, it, traits) for it in range(genes.traits))
    yield from itertools.chain.from_iterable(class_pieces(genes, it, traits) for it in range(genes.classes))
    yield from main_pieces(genes)


# Statuses.


def checked(genes):
    """The status of `check`."""
    if genes.fault == "token":
        return NO_TOKENS
    if number_of_methods(genes) > METHODS_AT_MOST:
        return LIMIT
    return {"none": ACCEPTED, "name": WRONG_NAMES, "rule": NO_RULE}[genes.fault]


def status_of(command, genes):
    """The status of a command: `show` reads no names, `places` no types, and `explain` says why a source is refused."""
    status = checked(genes)
    if command == "show" and status != NO_TOKENS:
        return ACCEPTED
    if command == "places" and status == NO_RULE:
        return ACCEPTED
    if command == "explain" and status in (NO_RULE, WRONG_NAMES):
        return ACCEPTED
    return status
