"""How many lines of definitions have to be read, by what imports what."""

import re

import pages
from imports import imported

CRATES = pages.TOP / "crates"

# What the headline and the whole contract rest on, as they are named in docs/theorem.md.
HEADLINE = [("pc_top", "CoreOf"), ("pc_valid", "Valid"), ("pc_semantics", "Safety")]
ISOLATION = [("pc_top", "IsolatedCore")]
GUARANTEES = [("pc_top", "Guarantees")]
CONTRACT = [
    *(("pc_top", name) for name in ("Asked", "OnOut", "Referee")),
    ("pc_refusals", "Verdict"),
    ("pc_args", "Asked"),
    ("pc_io", "Sink"),
]

# The definitions of commands that came after the limits on these counts had been set, by command.
LATER_COMMANDS = {
    "explain": [("pc_top", "Commands/Explain"), ("pc_explain_command", "Explain")],
    "events": [("pc_top", "Commands/Events"), ("pc_commands", "Events")],
    "places": [("pc_top", "Commands/Places")],
    "schedule": [("pc_top", "Commands/Schedule"), ("pc_commands", "Schedule")],
    "play": [("pc_top", "Commands/Play"), ("pc_commands", "Play")],
    "outcomes": [("pc_top", "Commands/Outcomes"), ("pc_commands", "Outcomes")],
}


def files_of(commands):
    """The files of definitions that are of these commands alone."""
    return [it for name in commands for it in LATER_COMMANDS[name]]


LATER = files_of(LATER_COMMANDS)

# Imports of what comes from the code: types, and what the contracts of functions say.
NOT_WRITTEN = ("declared", "contracts")

# How the names of this repository's crates begin. The standard library's are not read.
OWN = "pc_"


def file_of(crate, name):
    return CRATES / crate / "specs" / f"{name}.antt"


def length(files):
    """How many lines files of definitions have."""
    return sum(len(file_of(*it).read_text().splitlines()) for it in files)


def filled(files):
    """How many of the lines of these files are not blank."""
    return sum(bool(line.strip()) for it in files for line in file_of(*it).read_text().splitlines())


def ways_of(text):
    """The crates and ways of the imports of a text."""
    return {(it.crate, it.whole_way()) for it in imported(text, "specs") if it.crate.startswith(OWN)}


def file_at(crate, way):
    """The file of definitions to which the way of an import leads. After it the way may go on to a type or a name of it."""
    parts = way.split(".")
    ways = ["/".join(parts[:count]) for count in range(len(parts), 0, -1)]
    return crate, next((it for it in ways if file_of(crate, it).exists()), ways[0])


def imports(starts, leave_out=(), without=()):
    """The files of definitions that these import, with them and all that those import. Crates may be left out, and files."""
    seen, left = set(), list(starts)
    while left:
        one = left.pop()
        if one not in seen and one not in without:
            seen.add(one)
            ways = ways_of(file_of(*one).read_text())
            uses = [file_at(*it) for it in ways if it[1].split(".")[0] not in NOT_WRITTEN]
            left += [it for it in uses if it[0] not in leave_out]
    return seen


def headline():
    """What the headline rests on."""
    return imports(HEADLINE)


def isolated():
    """What the headline and the clause on isolation rest on."""
    return headline() | imports(ISOLATION)


def guaranteed():
    """What these and the clauses on which compilers build rest on."""
    return isolated() | imports(GUARANTEES)


def contract(without=()):
    """What the whole contract rests on."""
    return imports(CONTRACT, without=without)


def heads(text):
    """The imports of a file, and its lines that name the files of a folder."""
    return re.findall(r"^(?:pub )?(?:use|mod) [^{\n]*(?:\{[^}]*\})?[^\n]*$", text, re.MULTILINE)


def of_imports(files):
    """How many of the lines of these files are imports."""
    return sum(len(head.splitlines()) for it in files for head in heads(file_of(*it).read_text()))


def text_of(crate, name):
    """What there is to read in a file: its definitions with their comments, under its name, without imports and blank lines."""
    text = file_of(crate, name).read_text()
    for head in heads(text):
        text = text.replace(head, "", 1)
    return [f"== {crate}: {name}", *(line for line in text.splitlines() if line.strip())]


def length_of_text(files):
    """How many lines there are to read in files of definitions."""
    return sum(len(text_of(*it)) for it in files)
