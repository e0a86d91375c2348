"""What the launcher says, and how it ends if it cannot answer."""

import contextlib
import shutil
import sys

# No verdict of the program has this status.
CANNOT_ANSWER = 125
OUTPUT_FAILED = 10

# How many of the last lines of a command that failed are shown.
SHOWN_LINES = 8


class CannotAnswer(Exception):
    """What keeps the launcher from an answer: its lines, without their heads."""


class Stopped(Exception):
    """A signal that asked the launcher to end: its number."""


def say(*lines):
    """Writes lines of the launcher to standard error, if it takes them."""
    try:
        for line in lines:
            sys.stderr.write(f"rcap: {line}\n")
        sys.stderr.flush()
    except (AttributeError, OSError):
        pass


def say_on_terminal(line):
    """Says how a wait goes on, if somebody waits."""
    if sys.stderr is not None and sys.stderr.isatty():
        say(line)


def why(error):
    """The reason of an error of the system, with the file that it is about."""
    name = f"{error.filename}: " if error.filename is not None else ""
    return f"{name}{error.strerror or error}"


@contextlib.contextmanager
def explained(folder, wanted):
    """Says first how little is free on the disk of a folder, if what is done there fails and wants so many bytes."""
    try:
        yield
    except (CannotAnswer, OSError) as failed:
        free = shutil.disk_usage(folder).free
        if free >= wanted:
            raise
        lines = failed.args if isinstance(failed, CannotAnswer) else [why(failed)]
        raise CannotAnswer(f"only {free // 1_000_000} MB are free at {folder}", *lines) from failed


def last_lines(text):
    """The last lines of what a command said, to be shown below a line of the launcher's own."""
    said = text.decode(errors="replace").splitlines()
    return [f"  {line}" for line in said[-SHOWN_LINES:]]
