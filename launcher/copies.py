"""Copies of the program's sources, in which crates are proved side by side.

`rt` keeps other commands out of a crate and of all below it while it builds one, so crates that are built side by side are
built in copies. The copies are outside the checkout, since the gate reads each source below it, and they stay if a call is
interrupted: a crate that was half proved goes on from there, in the copy that has its kept work."""

import contextlib
import hashlib
import os
import pathlib
import shutil
import tempfile

import sources
from report import CannotAnswer, why


def places_for_copies():
    """Where copies may be, the best place first."""
    home = os.environ.get("HOME", "")
    for cache in (os.environ.get("XDG_CACHE_HOME", ""), os.path.join(home, ".cache")):
        if os.path.isabs(cache):
            yield pathlib.Path(cache) / "rcap"
            break
    yield pathlib.Path(os.environ.get("TMPDIR") or "/tmp") / f"rcap-{os.getuid()}"


def folder_for_copies(top):
    """The folder of this checkout's copies, which is there and can be written."""
    name = f"{top.name}-{hashlib.sha256(os.fsencode(top)).hexdigest()[:12]}"
    refused = []
    for place in places_for_copies():
        try:
            folder = place / name
            folder.mkdir(parents=True, exist_ok=True)
            if place.stat().st_uid != os.getuid():
                refused.append(f"  {place}: belongs to another user")
                continue
            with tempfile.TemporaryFile(dir=folder):
                return folder
        except OSError as error:
            refused.append(f"  {why(error)}")
    raise CannotAnswer("there is no place to prove in", *refused)


def remove(folder):
    """Removes the copies, and the place in which they were if no others are there."""
    shutil.rmtree(folder, ignore_errors=True)
    with contextlib.suppress(OSError):
        folder.parent.rmdir()


def link_or_copy(one, other):
    """Gives a file a second name, or copies it to another disk. A build removes a library before it makes it anew."""
    try:
        os.link(one, other)
    except OSError:
        shutil.copyfile(one, other)


def library(place, name):
    """Where `rt` puts the library of a crate."""
    return place / "crates" / name / "out" / "rlib"


def stamp(folder):
    """By what `rt` knows whether a library is that of its sources; none if it is not whole."""
    try:
        return (folder / "stamp").read_bytes()
    except OSError:
        return None


def hand_library(name, place, to):
    """Gives a crate's library to another copy or to the checkout, unless that has it: the whole of it or nothing, since a part
    could have the stamp of the whole. `rt` looks itself whether it is the library of the sources there, and builds it if not."""
    given, taken = library(place, name), library(to, name)
    if not given.is_dir() or stamp(given) == stamp(taken):
        return
    fresh = taken.with_name("rlib.new")
    # The fresh one is there if a call was ended while it copied.
    for folder in (fresh, taken):
        shutil.rmtree(folder, ignore_errors=True)
    try:
        shutil.copytree(given, fresh, copy_function=link_or_copy)
    except shutil.Error:
        shutil.rmtree(fresh, ignore_errors=True)
    else:
        fresh.rename(taken)


class Copies:
    """The copies of the sources in a folder, as many as crates are proved at once, and which crates are built in them."""

    def __init__(self, top, folder, count):
        self.top = top
        self.folder = folder
        self.uses = sources.crates_of_program(top)
        self.sums = sources.checksums(top)
        self.places = [folder / f"copy-{number}" for number in range(1, count + 1)]
        self.notes = folder / "built"

    def make(self):
        """Has each copy hold the sources as they are in the checkout, and what is built there, and leaves what earlier
        calls kept."""
        self.notes.mkdir(exist_ok=True)
        for place in self.places:
            place.mkdir(exist_ok=True)
            self.copy_heads(place)
            there = sources.checksums(place)
            for name in self.uses:
                if there[name] != self.sums[name]:
                    self.copy_crate(name, place)
                # What the checkout has may be of other sources, so it takes the place of nothing that is noted.
                if not self.is_built(name):
                    hand_library(name, self.top, place)

    def copy_heads(self, place):
        """Copies the files at the top."""
        lines = sources.lines_of_crates(self.top)
        text = "".join(f"{lines[name]}\n" for name in self.uses if name in lines)
        (place / "crates.txt").write_text(text, encoding="utf-8")
        # An earlier call may have left one that is no longer in the checkout.
        (place / "HANDLES").unlink(missing_ok=True)
        with contextlib.suppress(FileNotFoundError):
            shutil.copyfile(self.top / "HANDLES", place / "HANDLES")

    def copy_crate(self, name, place):
        """Copies what a build of the crate reads."""
        whole, folder = self.top / "crates" / name, place / "crates" / name
        for part in sources.PARTS:
            shutil.rmtree(folder / part, ignore_errors=True)
            if (whole / part).is_dir():
                shutil.copytree(whole / part, folder / part, symlinks=True)

    def are_of_sources(self):
        """Whether each copy has the sources with the checksums that were taken first."""
        return all(sources.checksums(place) == self.sums for place in self.places)

    def is_built(self, name):
        """Whether this or an earlier call built the crate's library of the sources as they are, and each copy has it."""
        try:
            noted = (self.notes / name).read_text(encoding="utf-8")
        except OSError:
            return False
        return noted == self.sums[name] and all(library(place, name).is_dir() for place in self.places)

    def built(self, name, place):
        """Notes that the crate's library is built in one copy, and hands it to the others."""
        for other in self.places:
            if other != place:
                hand_library(name, place, other)
        (self.notes / name).write_text(self.sums[name], encoding="utf-8")

    def hand_to_checkout(self):
        """Gives the checkout all libraries."""
        for name in self.uses:
            hand_library(name, self.places[0], self.top)

    def best_place(self, name, free):
        """Of the free copies the one in which the crate was half proved before, or else the first."""
        begun = [it for it in free if (it / "crates" / name / "out" / "incremental").is_dir()]
        return (begun or free)[0]
