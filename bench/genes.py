"""A source as a line of genes: how many of each part it has, of which form they are, and how long their names are.

`composed.py` makes the source of a line. The same line always gives the same source, so that an input which a hunt has found
is kept as its line.
"""

import dataclasses
import math

# The most bytes of a name or a comment, with room for the rest of a source.
LONGEST = 1_040_000


def size(plain, most, meaning, least=0):
    """A gene that counts: its value in a plain source, its greatest and least value, and what it counts."""
    return dataclasses.field(default=plain, metadata={"least": least, "most": most, "meaning": meaning})


def word(words, meaning):
    """A gene that chooses one of some words, of which the first stands in a plain source."""
    return dataclasses.field(default=words[0], metadata={"words": words, "meaning": meaning})


@dataclasses.dataclass(frozen=True)
class Genes:
    """A description of a source. Without arguments it is a plain one: an actor Main that evaluates a number."""

    comment: int = size(0, LONGEST, "bytes of a comment before the first entity")
    comment_levels: int = size(0, 262_000, "levels of comments in it")
    traits: int = size(0, 998, "traits, or interfaces")
    trait_kind: str = word(("trait", "interface"), "what they are")
    traits_is: int = size(0, 998, "how many of the traits before it each names after `is`, the next ones first")
    writers: int = size(1, 998, "how many of the traits, from the first on, have methods of their own", least=1)
    trait_methods: int = size(0, 50_000, "methods of each of these")
    trait_names: str = word(("same", "new"), "whether they have the names of those of the first trait")
    bodies: str = word(("no", "yes"), "whether they have bodies")
    classes: int = size(0, 998, "classes, actors or primitives besides Main")
    class_kind: str = word(("class", "actor", "primitive"), "what they are; methods are behaviours if they are actors")
    classes_is: int = size(0, 998, "how many traits each names after `is`, the last ones first")
    class_methods: int = size(0, 50_000, "methods that each writes")
    class_names: str = word(("same", "new"), "whether they have the names of those of the first trait")
    constructors: int = size(0, 10_000, "constructors that each writes")
    fields: int = size(0, 64, "fields of each, with values")
    parameters: int = size(0, 62, "parameters of each method")
    parameter_type: str = word(
        ("number", "first", "last", "own", "own_last"),
        "their type: U64, the first or the last trait, the entity itself, or the entity for the last one and U64 before it",
    )
    locals: int = size(0, 60, "locals of each body")
    items: int = size(1, 199_900, "items of each body of a method, after the locals", least=1)
    item: str = word(
        ("number", "text", "local", "parameter", "field", "call", "ask", "object"),
        "what they do: `call` calls the first method of `this`, `ask` that of the last parameter; the others are values or read",
    )
    main_items: int = size(1, 199_900, "items in the constructor of Main", least=1)
    main_item: str = word(
        ("number", "text", "local", "call", "object"), "what these do: `call` calls a method of an object that is kept as a trait"
    )
    text: int = size(1, 4_096, "bytes of each text")
    length: int = size(1, 99_900, "operands of an item that is a number", least=1)
    levels: int = size(0, 190, "levels around each item")
    nest: str = word(("group", "if", "while", "recover"), "what these levels are")
    trait_name: int = size(1, LONGEST, "bytes of the name of a trait", least=1)
    class_name: int = size(1, LONGEST, "the same of a class", least=1)
    method_name: int = size(1, LONGEST, "the same of a method", least=1)
    field_name: int = size(1, LONGEST, "the same of a field", least=1)
    parameter_name: int = size(1, LONGEST, "the same of a parameter", least=1)
    local_name: int = size(1, LONGEST, "the same of a local", least=1)
    differ: str = word(("end", "start"), "where the names of one kind differ from each other")
    fault: str = word(("none", "token", "name", "rule"), "what is wrong in the last item of Main")
    past: str = word(("none", "methods"), "which limit may be passed")


FIELDS = {it.name: it for it in dataclasses.fields(Genes)}
SIZES = [name for name, it in FIELDS.items() if "most" in it.metadata]
WORDS = [name for name, it in FIELDS.items() if "words" in it.metadata]


def line_of(genes):
    """The line of a description: the genes that are not plain."""
    parts = (f"{name}={getattr(genes, name)}" for name, it in FIELDS.items() if getattr(genes, name) != it.default)
    return " ".join(parts) or "plain"


def value_of(name, text):
    """The value of a gene that is written as this text."""
    if name not in FIELDS:
        raise ValueError(f"no gene {name}")
    about = FIELDS[name].metadata
    if "words" in about:
        if text not in about["words"]:
            raise ValueError(f"{name} is one of {', '.join(about['words'])}")
        return text
    if not text.isdecimal() or not about["least"] <= int(text) <= about["most"]:
        raise ValueError(f"{name} is a number from {about['least']} to {about['most']}")
    return int(text)


def parsed(line):
    """The description of a line.

    ValueError if it names no gene, or a value that the gene does not have."""
    values = {}
    for part in line.split():
        name, _, text = part.partition("=")
        if part != "plain":
            values[name] = value_of(name, text)
    return Genes(**values)


# A small program that has each part. A hunt begins with changes of it.
SMALL = Genes(
    traits=2,
    traits_is=1,
    trait_methods=2,
    bodies="yes",
    classes=2,
    classes_is=1,
    class_methods=1,
    fields=1,
    parameters=1,
    locals=1,
    items=2,
    main_items=2,
    text=8,
    trait_name=4,
    class_name=4,
    method_name=4,
    field_name=4,
    parameter_name=4,
    local_name=4,
)


def size_by_chance(chance, name):
    """A size of any order of magnitude, between the least and the most of a gene."""
    about = FIELDS[name].metadata
    return max(about["least"], int(math.exp(chance.uniform(0, math.log(about["most"])))))


def by_chance(chance):
    """The small program with about a sixth of the genes chosen by chance."""
    values = {}
    for name, it in FIELDS.items():
        if chance.random() < 1 / 6:
            values[name] = chance.choice(it.metadata["words"]) if name in WORDS else size_by_chance(chance, name)
    return dataclasses.replace(SMALL, **values)


def changed_size(chance, name, old):
    """Another size: any, the least, the most, or the old one several times or in part."""
    about = FIELDS[name].metadata
    ways = [size_by_chance(chance, name), about["least"], about["most"]]
    ways += [int(old * math.exp(chance.uniform(-2, 2))) + chance.randint(-1, 1) for _ in range(4)]
    return min(max(chance.choice(ways), about["least"]), about["most"])


def mutated(chance, genes):
    """The description with one to three genes changed, and the names of these."""
    names = chance.sample(list(FIELDS), chance.randint(1, 3))
    values = {}
    for name in names:
        if name in WORDS:
            values[name] = chance.choice(FIELDS[name].metadata["words"])
        else:
            values[name] = changed_size(chance, name, getattr(genes, name))
    return dataclasses.replace(genes, **values), names


def crossed(chance, one, other):
    """The first description with some genes of the other, and the names of these."""
    names = [name for name in FIELDS if chance.random() < 0.3]
    return dataclasses.replace(one, **{name: getattr(other, name) for name in names}), names


def scaled(genes, part):
    """The description with each size at this part of itself, down to its least and to 1."""
    values = {}
    for name in SIZES:
        old = getattr(genes, name)
        values[name] = min(old, max(FIELDS[name].metadata["least"], math.ceil(old * part)))
    return dataclasses.replace(genes, **values)
