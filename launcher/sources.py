"""What the program is made of: which crates, in which order, and the checksum of their sources."""

import hashlib
import os
import stat
import subprocess

PROGRAM = "pc_cli"

# The folders of a crate that a build reads.
PARTS = ("src", "specs", "proofs")


def lines_of_crates(top):
    """The line of each crate in crates.txt, without its comment and with one blank between two words."""
    lines = {}
    for line in (top / "crates.txt").read_text(encoding="utf-8").splitlines():
        words = line.partition("#")[0].split()
        if words:
            lines[words[0].rstrip(":")] = " ".join(words)
    return lines


def read_crates(top):
    """The crates of crates.txt, each with those libraries of the repository that it names."""
    lines = lines_of_crates(top)
    return {name: [it for it in line.partition(":")[2].split() if it in lines] for name, line in lines.items()}


def crates_of_program(top):
    """The crates that the program is made of, each after those that it uses, with the libraries that it uses."""
    uses, found = read_crates(top), {}

    def visit(name):
        if name not in found:
            for library in uses.get(name, ()):
                visit(library)
            found[name] = uses.get(name, [])

    visit(PROGRAM)
    return found


def add_file(checksum, path, name):
    """Adds a file with its name. What is no plain file has no bytes that a build reads: it is refused there."""
    checksum.update(os.fsencode(name) + b"\0")
    if stat.S_ISREG(os.lstat(path).st_mode):
        with open(path, "rb") as file:
            data = file.read()
        checksum.update(b"%d\0" % len(data) + data)


def add_crate(checksum, folder):
    """Adds all files of a crate that a build reads, in the order of their names."""
    for part in PARTS:
        for at, folders, names in os.walk(folder / part):
            folders.sort()
            for name in sorted(names):
                path = os.path.join(at, name)
                add_file(checksum, path, os.path.relpath(path, folder))


def checksums(top):
    """The checksum of each crate of the program, with all crates below it."""
    lines, sums = lines_of_crates(top), {}
    handles = top / "HANDLES"
    for name, libraries in crates_of_program(top).items():
        checksum = hashlib.sha256()
        if handles.exists():
            add_file(checksum, handles, "HANDLES")
        checksum.update(lines.get(name, "").encode() + b"\0")
        add_crate(checksum, top / "crates" / name)
        for library in sorted(libraries):
            checksum.update(sums[library].encode())
        sums[name] = checksum.hexdigest()
    return sums


def checksum_of_program(top):
    """The checksum of all sources that the program is made of."""
    return checksums(top)[PROGRAM]


def list_files(top, folder):
    """The listing of the sources and of the program kept in the folder, as the launcher compares it at each call."""
    script = top / "launcher" / "list_files.sh"
    words = ["bash", "-c", '. "$0" && list_files "$@"', script, top, folder]
    return subprocess.run(words, stdin=subprocess.DEVNULL, stdout=subprocess.PIPE, check=False).stdout


def state(top):
    """The checksum of the program's sources, and the lines of the listing for them. The state is another after any writing
    to one of them, also if what was there is written back."""
    # The names in the listing are those below crates/: crate, folder and the rest.
    folders = {(os.fsencode(name), os.fsencode(part)) for name in crates_of_program(top) for part in PARTS}
    lines = list_files(top, top / "launcher").splitlines()
    names = [line.split(b" ", 3)[-1] for line in lines]
    own = [line for line, name in zip(lines, names) if tuple(name.split(b"/", 2)[:2]) in folders]
    return checksum_of_program(top), own
