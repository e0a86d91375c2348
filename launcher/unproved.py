"""The first answer: the program built without its proofs.

`rt try` builds the program, and runs it once on the words that it gets. They name a pipe as the source, at which the
program waits until it is copied. The copy is the whole program, so it answers later calls too, has the caller's streams,
and no limit of `rt try`."""

import errno
import os
import pathlib
import shutil
import subprocess
import tempfile
import time

import kit
import sources
from kept import Kept, only_one
from report import CannotAnswer, explained, last_lines, say, say_on_terminal, why
from schedule import minutes_to_prove, processors

# What the program answers to no words, by which a copy that runs is known.
STATUS_WITHOUT_WORDS = 2
LINE_WITHOUT_WORDS = b"usage: rcap COMMAND ARGUMENT ...\n"

# What is said while somebody waits for the first answer.
WAIT = "the program is first built without its proofs, which takes a minute or two"

SECONDS_BETWEEN_LOOKS = 0.05

# What a build takes of the disk for a while, in bytes, with a margin.
BUILD_BYTES = 200_000_000


def notice(top):
    """The line that each answer of a build without proofs has first."""
    minutes = minutes_to_prove(top, processors())
    return (
        "answered by a build without its proofs; ./rcap --prove builds the proved program once, "
        f"in about {minutes} minutes"
    )


def open_once_read(pipe, command):
    """Waits until the program opens the pipe, and opens its other end; none if the command ends before."""
    while command.poll() is None:
        try:
            return os.open(pipe, os.O_WRONLY | os.O_NONBLOCK)
        except OSError as error:
            if error.errno != errno.ENXIO:
                raise
        time.sleep(SECONDS_BETWEEN_LOOKS)
    return None


def copy_program(room):
    """Copies the program that `rt try` runs, out of the folder in which it does."""
    found = [it for it in (room / "rt").rglob("program") if it.is_file()]
    if len(found) != 1:
        raise CannotAnswer("this kit's rt try runs no program that can be kept; ./rcap --prove builds the proved one")
    copied = room / "rcap"
    shutil.copyfile(found[0], copied)
    copied.chmod(0o755)
    return copied


def check_that_it_runs(program):
    """Runs the copy without words."""
    try:
        ended = subprocess.run([program], stdin=subprocess.DEVNULL, capture_output=True, check=False)
    except OSError as error:
        raise CannotAnswer(f"the program does not start: {why(error)}") from error
    if ended.returncode != STATUS_WITHOUT_WORDS or ended.stderr != LINE_WITHOUT_WORDS:
        lines = last_lines(ended.stderr)
        raise CannotAnswer(f"the program ended with status {ended.returncode} without words:", *lines)


def build(top, room):
    """Builds the program without its proofs in a folder that is there and empty, and returns its path."""
    pipe = room / "source"
    os.mkfifo(pipe)
    (room / "rt").mkdir()
    with open(room / "log", "w+b") as log:
        command = kit.start(["try", "--", "check", str(pipe)], top / "crates" / sources.PROGRAM, log, room / "rt")
        try:
            writer = open_once_read(pipe, command)
            if writer is None:
                log.seek(0)
                lines = last_lines(log.read())
                raise CannotAnswer(f"rt try built no program, and ended with status {command.returncode}:", *lines)
            with os.fdopen(writer, "wb"):
                program = copy_program(room)
        finally:
            kit.stop(command)
    check_that_it_runs(program)
    return program


def build_unchanged(top, room):
    """Builds the program of sources that stay as they are while it is built. Returns its path and their checksum."""
    before = sources.state(top)
    program = build(top, room)
    if before != sources.state(top):
        raise CannotAnswer("the sources were changed while the program was built: call again")
    return program, before[0]


def build_and_keep(top, kept):
    """Builds the program without its proofs, and keeps it in out/unproved. One call builds; others wait for it."""
    def wait():
        say_on_terminal("another call builds the program without its proofs; waiting for it")

    with only_one(kept.folder / "lock", wait):
        if kept.is_of_sources():
            return kept.program
        # Left by a call that was killed.
        for left in kept.folder.glob("build-*"):
            shutil.rmtree(left, ignore_errors=True)
        room = pathlib.Path(tempfile.mkdtemp(prefix="build-", dir=kept.folder))
        try:
            with explained(room, BUILD_BYTES):
                say_on_terminal(WAIT)
                program, checksum = build_unchanged(top, room)
                kept.write("notice", f"rcap: {notice(top)}\n".encode())
                kept.put(program, checksum, kit.identity())
                kept.is_of_sources()
        finally:
            shutil.rmtree(room, ignore_errors=True)
    return kept.program


def build_in_passing(top, refused):
    """Builds the program for one call, in the temporary folder, if the checkout takes no files."""
    try:
        room = pathlib.Path(tempfile.mkdtemp(prefix="rcap-"))
    except OSError as error:
        raise CannotAnswer("there is no place to build the program in", f"  {refused}", f"  {why(error)}") from error
    try:
        with explained(room, BUILD_BYTES):
            say_on_terminal(f"{WAIT}; it is not kept ({refused})")
            return build_unchanged(top, room)[0]
    except BaseException:
        shutil.rmtree(room, ignore_errors=True)
        raise


def find(top):
    """The path of the program that is to answer: the proved one, or else one without proofs, which is built first if it
    is not there. Then the notice is said."""
    proved, unproved = Kept(top, "proved"), Kept(top, "unproved")
    if proved.is_of_sources():
        return proved.program
    if unproved.is_of_sources():
        program = unproved.program
    else:
        refused = unproved.why_not_writable()
        program = build_in_passing(top, refused) if refused else build_and_keep(top, unproved)
    say(notice(top))
    return program
