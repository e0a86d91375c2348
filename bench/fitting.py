"""Descriptions that fit: their parts go together, and their sizes are within the limits of a source."""

import dataclasses

import composed
import genes as descriptions
import sizes

# Tries to make a description smaller, and steps to make it larger.
TRIES = 200
STEPS = 6


def in_bounds(genes):
    """The description with no more traits, methods and slots in one place than there may be."""
    traits = min(genes.traits, sizes.ENTITIES_AT_MOST - 1 - min(genes.classes, 1))
    return dataclasses.replace(
        genes,
        traits=traits,
        classes=min(genes.classes, sizes.ENTITIES_AT_MOST - 1 - traits),
        traits_is=min(genes.traits_is, max(0, traits - 1)),
        classes_is=min(genes.classes_is, traits),
        writers=max(1, min(genes.writers, traits)),
        locals=min(genes.locals, sizes.SLOTS_AT_MOST - sizes.OTHER_SLOTS - genes.parameters),
    )


def overrides(genes):
    """Whether classes write methods that their traits have."""
    return genes.class_methods > 0 and genes.class_names == "same" and genes.classes_is > 0


def with_fitting_types(genes):
    """The same with traits apart from those whose methods would not fit theirs: the types of parameters differ from entity to
    entity."""
    if genes.parameter_type in ("own", "own_last") and genes.parameters:
        if genes.writers > 1 and genes.trait_names == "same":
            genes = dataclasses.replace(genes, traits_is=0)
        if overrides(genes):
            genes = dataclasses.replace(genes, classes_is=0)
    return genes


def with_bodies(genes):
    """The same with bodies in traits, if classes would lack methods without them."""
    missing = composed.number_of_names(genes, composed.writers_of_a_class(genes))
    written = min(genes.class_methods, genes.trait_methods) if overrides(genes) else 0
    return dataclasses.replace(genes, bodies="yes") if genes.classes and missing > written else genes


def idle(genes):
    """The genes on which the source does not depend, since what they describe is not there."""
    methods = genes.traits * genes.trait_methods + genes.classes * genes.class_methods
    bodies = genes.classes * genes.class_methods + (genes.bodies == "yes") * genes.traits * genes.trait_methods
    texts = (genes.item == "text" and bodies) or genes.main_item == "text"
    needed = [
        (genes.traits, "trait_kind trait_name traits_is trait_methods writers classes_is"),
        (genes.traits * genes.trait_methods, "writers trait_names bodies"),
        (genes.classes, "classes_is class_methods constructors fields class_name"),
        (genes.classes * genes.class_methods, "class_names"),
        (genes.classes + methods, "class_kind"),
        (genes.classes * genes.fields * (genes.class_kind != "primitive"), "fields field_name"),
        (methods, "parameters"),
        (methods * genes.parameters, "parameter_type parameter_name"),
        (methods + genes.classes * genes.constructors, "method_name"),
        (bodies, "items item"),
        (texts, "text"),
        (genes.locals, "local_name"),
        (genes.levels, "nest"),
    ]
    return {name for is_there, names in needed if not is_there for name in names.split()}


def without_idle(genes):
    """The description with its idle genes plain."""
    return dataclasses.replace(genes, **{name: descriptions.FIELDS[name].default for name in idle(genes)})


def consistent(genes):
    """A description whose parts go together: one whose source has no other fault than it says, and which has no idle genes."""
    return without_idle(with_bodies(with_fitting_types(in_bounds(genes))))


def smaller(chance, genes, kept):
    """The description with one size that is not among the kept ones made smaller; nothing if there is none to make smaller."""
    names = [it for it in descriptions.SIZES if it not in kept and getattr(genes, it) > descriptions.FIELDS[it].metadata["least"]]
    if not names:
        return None
    name = chance.choice(names)
    least = descriptions.FIELDS[name].metadata["least"]
    return dataclasses.replace(genes, **{name: max(least, int(getattr(genes, name) * chance.uniform(0.3, 0.95)))})


def fitted(chance, genes, kept=()):
    """A consistent description within the limits. The sizes that are not kept are made smaller first."""
    for count in range(TRIES):
        genes = consistent(genes)
        if sizes.excess(genes) <= 1:
            return genes
        genes = smaller(chance, genes, kept if count < TRIES / 2 else ()) or smaller(chance, genes, ())
    return descriptions.Genes()


def filled(chance, genes, held=()):
    """The description with one of its sizes that are not held as large as the limits let it be, to within some percent."""
    name = chance.choice([it for it in descriptions.SIZES if getattr(genes, it) > 1 and it not in held] or ["comment"])
    low, high = getattr(genes, name), descriptions.FIELDS[name].metadata["most"]
    for _ in range(STEPS):
        middle = min(high, int((low * high) ** 0.5) + 1)
        tried = consistent(dataclasses.replace(genes, **{name: middle}))
        if getattr(tried, name) == middle and sizes.excess(tried) <= 1:
            low, genes = middle, tried
        else:
            high = max(low, middle - 1)
    return genes
