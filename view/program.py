"""The program `rcap`, and what it answers."""

import dataclasses
import os
import pathlib
import subprocess

TOP = pathlib.Path(__file__).resolve().parent.parent

# Statuses of the program (docs/commands.md).
DONE = 0
NO_DERIVATION = 1
BAD_TREE = 3
BAD_NAMES = 4
LIMIT_PASSED = 8
TEXT_TOO_LONG = 12

# Lines of the launcher, which say by which build it answers, begin so. The line of an answer begins with a file's name.
LAUNCHER = b"rcap: "


class Failed(Exception):
    """A page cannot be made; the message is the one line that says why."""


@dataclasses.dataclass
class Answer:
    """A status, the bytes on standard output, and the line on standard error without its end."""

    status: int
    out: bytes
    line: str


def path():
    """The program: what RCAP names, or the one at the top of this checkout."""
    return os.environ.get("RCAP") or str(TOP / "rcap")


def shown(text):
    """Bytes as text to show: UTF-8, and U+FFFD for what is none."""
    return text.decode("utf-8", errors="replace")


def shown_path(path):
    """A path as the program's lines have it."""
    return shown(os.fsencode(path))


def shown_name(path):
    """The name of a file as pages show it."""
    return shown_path(pathlib.PurePath(path).name)


def ask(*words):
    """Calls the program with these words."""
    try:
        ran = subprocess.run([path(), *words], stdin=subprocess.DEVNULL, capture_output=True, check=False)
    except OSError as error:
        raise Failed(f"{path()} does not start: {error.strerror}") from error
    lines = [line for line in ran.stderr.splitlines() if line.strip()]
    spoken = [line for line in lines if not line.startswith(LAUNCHER)] or lines
    return Answer(ran.returncode, ran.stdout, shown(spoken[-1]) if spoken else "")


def failure(answer, *words):
    """What is said if an answer is no page: the program's own line, if it has one."""
    return Failed(answer.line or f"rcap {' '.join(words)} ended with status {answer.status}")


def must(*words):
    """What the program writes to standard output at status 0."""
    answer = ask(*words)
    if answer.status != DONE:
        raise failure(answer, *words)
    return answer.out
