"""What `./rcap --version` says."""

import subprocess

import kit
from kept import Kept
from report import CannotAnswer


def commit(top):
    """The commit of the checkout, if it is one of git's."""
    words = ["git", "-C", str(top), "describe", "--always", "--dirty"]
    try:
        said = subprocess.run(words, stdin=subprocess.DEVNULL, capture_output=True, check=False)
    except OSError:
        return "not known: there is no git"
    return said.stdout.decode(errors="replace").strip() or "not known: this is no checkout of git's"


def kit_here():
    """The kit's line about itself, if there is a kit."""
    try:
        return kit.identity()
    except CannotAnswer:
        return "none: there is no rt on the path"


def program(top):
    """Which program answers, and what it was built of."""
    proved, unproved = Kept(top, "proved"), Kept(top, "unproved")
    if proved.is_of_sources():
        return f"proved of exactly these sources, with the kit {proved.kit()}"
    if proved.is_whole():
        return "proved of other sources; ./rcap --prove builds it of these"
    if unproved.is_of_sources():
        return "built of exactly these sources without their proofs; ./rcap --prove builds the proved one"
    return "not built; ./rcap --prove builds the proved one"


def lines(top):
    """The three lines."""
    return f"commit   {commit(top)}\nkit      {kit_here()}\nprogram  {program(top)}\n"
