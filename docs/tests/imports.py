"""What imports of definitions and of proofs name. There is one for each crate and folder, with braces for the names of a file
inside those for the files, as `use Rattle.pc_core.specs.{CoreData.CoreData, Nodes.{HasArity, NodeFits}}`."""

import dataclasses
import re

# An import: the crate, the folder, and what follows.
IMPORT = re.compile(r"^use Rattle\.(\w+)\.(specs|proofs)\.(.+)$", re.MULTILINE)

# What comes after a name that is brought in under another.
ALIAS = " as "


@dataclasses.dataclass(frozen=True)
class Name:
    """A name that is imported: its crate, the way to it from the crate's folder, and itself. A module that is imported as a whole
    is a name as well."""

    crate: str
    way: str
    name: str

    def whole_way(self):
        """The way, and the name after it."""
        return f"{self.way}.{self.name}" if self.way else self.name


def parts(text):
    """The parts of a text between commas that are outside of braces."""
    depth, begin, found = 0, 0, []
    for place, letter in enumerate(text + ","):
        depth += {"{": 1, "}": -1}.get(letter, 0)
        if letter == "," and depth == 0:
            found.append(text[begin:place].strip())
            begin = place + 1
    return found


def names_in(text):
    """The way to each name in a tree of braces, and the name with its alias."""
    for part in parts(text):
        head, brace, inside = part.partition("{")
        if brace:
            before = head.rstrip(".")
            yield from ((".".join(filter(None, (before, way))), name) for way, name in names_in(inside[:-1]))
        else:
            way, _, name = head.split(ALIAS)[0].rpartition(".")
            yield way, name + head[len(head.split(ALIAS)[0]) :]


def imported(text, folder):
    """The names that a text imports from folders of this name."""
    for crate, of, tree in IMPORT.findall(text):
        if of == folder:
            yield from (Name(crate, way, name.split(ALIAS)[0]) for way, name in names_in(tree))
