"""Odd pages, of texts that are written for them: large windows, empty runs, control bytes, and names that could be tags."""

import pathlib
import shutil

import pages

# More events than one window has, and more boxes than one picture has.
MORE_READS, ACTORS = 2500, 70

BUILT_IN = """e primitive val 0 0 None
e primitive val 0 0 U64
e primitive val 0 0 Bool
e primitive val 0 0 String
e class val 0 0 Env
e actor tag 0 0 OutStream
"""


def long_run(folder):
    """The run of the keeper, which then reads its field again and again."""
    for name in ("events", "trace"):
        file = folder / f"keeper.{name}"
        *lines, _ = file.read_text().splitlines()
        lines += [f"{57 + more} 2 read 2.0 0 clock 0,18,{17 + more}" for more in range(1, MORE_READS + 1)]
        last = f"events {10 + MORE_READS} accesses {4 + MORE_READS} ordered" if name == "events" else f"accesses {4 + MORE_READS} ordered"
        file.write_text("\n".join([*lines, last]) + "\n")
    return "run", "keeper.pony", "keeper.sched"


def empty_run(folder):
    """A run without a turn."""
    (folder / "keeper.events").write_text("events 0 accesses 0 ordered\n")
    (folder / "keeper.trace").write_text("accesses 0 ordered\n")
    (folder / "keeper.run").write_text("steps 0 skipped 0 actors 2 objects 3 waiting 1\n")
    return "run", "keeper.pony", "keeper.sched"


def ended_run(folder):
    """A run that makes too many actors."""
    (folder / "keeper.events.refused").write_text("8\nkeeper.sched: too many actors at step 1133\n")
    return "run", "keeper.pony", "keeper.sched"


def many_boxes(folder):
    """A ring of actors, each of which may send to the next one and to the one after it."""
    names = [f"A{number}" for number in range(ACTORS)]
    pairs = []
    for number, name in enumerate(names):
        targets = sorted((number + far) % ACTORS for far in (1, 2))
        pairs += [f"{name} sends {names[target]}.go" for target in targets]
    pairs += [f"Main sends {name}.create" for name in names]
    (folder / "stops.sends").write_text("\n".join(pairs) + "\n")
    entities = BUILT_IN + "".join(f"e actor tag {number} {number + 1} {name}\n" for number, name in enumerate(names)) + "e actor tag 90 94 Main\n"
    methods = "m 5 be 0 0 0 0 - print\n"
    methods += "".join(f"m {6 + number} be 0 1 0 0 - go\nm {6 + number} spawn 0 1 0 0 - create\n" for number in range(ACTORS))
    methods += f"m {6 + ACTORS} spawn 95 96 0 0 - create\n"
    head = f"rcap-places 1 {7 + ACTORS} 1 {2 + 2 * ACTORS} 0 0\n"
    (folder / "stops.places").write_text(head + entities + "f 4 let 5 tag out\n" + methods)
    return "sends", "stops.pony"


def empty_table(folder):
    """A table without a line."""
    (folder / "stops.sends").write_text("")
    return "sends", "stops.pony"


def control_bytes(folder):
    """A source with line ends of two bytes, tabs, control bytes, bytes that are no UTF-8, and tags."""
    file = folder / "cell.pony"
    more = b"//\t\x1b[31m \x00 \x7f \xff \xf0\x9f\x98\x80 </script><b onclick=x>&amp;\r\n\r\n/* a /* b */ c */\r\n"
    file.write_bytes(file.read_bytes() + more)
    return "derivation", "cell.pony"


def long_line(folder):
    """A source with a line of 300,000 characters."""
    file = folder / "cell.pony"
    file.write_bytes(file.read_bytes() + b"// " + b"x + " * 75_000 + b"\n")
    return "derivation", "cell.pony"


def many_lines(folder):
    """A source of 40,000 lines."""
    file = folder / "cell.pony"
    file.write_bytes(file.read_bytes() + b"// one more line\n" * 40_000)
    return "derivation", "cell.pony"


def tags_in_an_explanation(folder):
    """A refusal whose explanation has tags."""
    file = folder / "alias.explain"
    file.write_bytes(file.read_bytes().replace(b"the value `a`", b"the value `</script><b>a`"))
    return "derivation", "alias.pony"


def no_tree(folder):
    """A source that is refused before it has a core."""
    (folder / "alias.check.refused").write_text("3\nalias.pony:4:11: bad byte\n")
    return "derivation", "alias.pony"


def too_long(folder):
    """A source that is too long to be shown."""
    (folder / "alias.check.refused").write_text("8\nalias.pony: longer than 1048576 bytes\n")
    return "derivation", "alias.pony"


ALL = [long_run, empty_run, ended_run, many_boxes, empty_table, control_bytes, long_line, many_lines, tags_in_an_explanation, no_tree, too_long]


def made(folder):
    """The files of all odd pages, in a folder."""
    found = []
    for odd in ALL:
        room = pathlib.Path(folder) / odd.__name__
        shutil.copytree(pages.CASES, room)
        status, out, err = pages.make(*odd(room), stand_in=pages.STAND_IN, folder=room)
        if status or err:
            raise AssertionError(f"{odd.__name__}: {err}")
        file = pathlib.Path(folder) / f"{odd.__name__}.html"
        file.write_text(out)
        found.append(file)
    return found
