"""A row: a program is called once or several times, and each call has its status, its text on out and its text on err."""

import concurrent.futures
import dataclasses
import os
import pathlib
import subprocess
import tempfile
import typing

# How long a call may take.
SECONDS = 600

# How much of a text is shown of a row that fails.
SHOWN = 400

# The variable by which a build that checks each access to memory is told to look for no leaks.
OPTIONS_OF_CHECKS = {"ASAN_OPTIONS": "exitcode=125:detect_leaks=0:allocator_may_return_null=1"}


@dataclasses.dataclass(frozen=True)
class Answer:
    """What a call ended with."""

    status: int
    out: bytes
    err: bytes

    def __str__(self):
        return f"status {self.status}, out {shown(self.out)}, err {shown(self.err)}"


@dataclasses.dataclass(frozen=True)
class Form:
    """What holds of a text or a status that is not written down as a whole: in words, and as a function of it and of the answers
    of the steps before."""

    words: str
    holds: typing.Callable


# Any text or status.
ANY = Form("any", lambda came, before: True)


@dataclasses.dataclass(frozen=True)
class Step:
    """A call: its words, the files that it finds, and what it has to end with.

    A file is its bytes, or a function that makes them of the answers of the steps before. A text that is wanted is its bytes, or a
    `Form`; so is a status."""

    words: tuple[str, ...]
    files: dict[str, bytes | typing.Callable]
    status: int | Form
    out: bytes | Form
    err: bytes | Form = b""

    def differs(self, answer, before):
        """How an answer differs from what is wanted after the answers before, or none."""
        parts = (("status", self.status, answer.status), ("out", self.out, answer.out), ("err", self.err, answer.err))
        told = [f"{name}: expected {wanted_of(wanted)}" for name, wanted, came in parts if not fits(wanted, came, before)]
        return f"{'; '.join(told)}; came {answer}" if told else None


@dataclasses.dataclass(frozen=True)
class Row:
    """A name that says what is tested, and the steps, in order. Of a long row a build without proofs takes a minute."""

    name: str
    steps: tuple[Step, ...]
    is_long: bool = False


def shown(text):
    """A text as it is written in a row, or its beginning and its end if it is long."""
    if len(text) <= SHOWN:
        return repr(text)
    half = SHOWN // 2
    return f"{text[:half]!r}..{text[-half:]!r} ({len(text)} bytes)"


def wanted_of(wanted):
    """What is wanted, in words."""
    if isinstance(wanted, Form):
        return wanted.words
    return shown(wanted) if isinstance(wanted, bytes) else str(wanted)


def fits(wanted, came, before):
    """Whether a text or a status is what is wanted."""
    return wanted.holds(came, before) if isinstance(wanted, Form) else came == wanted


def call(program, words, files):
    """The answer of a program that is called in a folder with these files and no others."""
    with tempfile.TemporaryDirectory(prefix="rcap-rows-") as folder:
        for name, text in files.items():
            (pathlib.Path(folder) / name).write_bytes(text)
        said = subprocess.run(
            [program, *words],
            cwd=folder,
            env={**os.environ, **OPTIONS_OF_CHECKS},
            stdin=subprocess.DEVNULL,
            capture_output=True,
            timeout=SECONDS,
            check=False,
        )
    return Answer(said.returncode, said.stdout, said.stderr)


def difference(program, row):
    """How the answers of a program differ from a row, or none."""
    answers = []
    for step in row.steps:
        files = {name: text(answers) if callable(text) else text for name, text in step.files.items()}
        try:
            answers.append(call(program, step.words, files))
        except (OSError, subprocess.TimeoutExpired) as error:
            return f"{' '.join(step.words)}: there is no answer: {error}"
        differs = step.differs(answers[-1], answers[:-1])
        if differs is not None:
            return f"{' '.join(step.words)}: {differs}"
    return None


def look(program, rows, results):
    """Runs each row, as many at once as there are processors."""
    with concurrent.futures.ThreadPoolExecutor(len(os.sched_getaffinity(0))) as pool:
        for row, differs in zip(rows, pool.map(lambda row: difference(program, row), rows)):
            results.check(differs is None, row.name, differs)
