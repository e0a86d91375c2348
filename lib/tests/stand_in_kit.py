"""Plays the two files of the kit that `lib/build --after-gate` calls, `rt` and `rtlib.py`, over libraries that are one file each.

STAND_IN names a folder: each call of `rt lib` adds a line to its file `calls`, with the crate and the libraries that have their
stamp; a file `fail` has it fail, `hold` has it wait until that is gone, and `other.stamps` has it build each library anew, as if
its stamps were made in another way."""

RTLIB = '''
import os
import pathlib
import time

PARTS = ("src", "specs")


class Crate:
    def __init__(self, folder, root, known):
        self.folder, self.name = folder, pathlib.Path(folder).name
        self.rlib = f"{folder}/out/rlib/{self.name}.rlib"
        rows = dict(it.split(":") for it in pathlib.Path(root, "crates.txt").read_text().splitlines())
        self.deps = [known.get(it) or Crate(f"{root}/crates/{it}", root, known) for it in rows[self.name].split()]
        known[self.name] = self

    def below(self):
        found = []
        for dep in self.deps:
            found += [it for it in [*dep.below(), dep] if it not in found]
        return found

    def stamp(self):
        return f"stamp of {self.name}"


def main(verb):
    room, folder = pathlib.Path(os.environ["STAND_IN"]), pathlib.Path.cwd()
    stamps = {it.parents[2].name: it.read_text() for it in sorted(folder.parent.glob("*/out/rlib/stamp"))}
    stamped = [name for name, stamp in stamps.items() if stamp == f"stamp of {name}"]
    with open(room / "calls", "a") as calls:
        calls.write(f"{verb} {folder.name} over {' '.join(stamped)}\\n")
    while (room / "hold").exists():
        time.sleep(0.02)
    if (room / "other.stamps").exists():
        library = folder / "out" / "rlib" / f"{folder.name}.rlib" / "format"
        library.unlink()
        library.write_text("another one\\n")
    return (room / "fail").exists() and folder.name == "top"
'''

# The script beside it, which nothing here calls.
RT = """#!/bin/sh
exit 125
"""
