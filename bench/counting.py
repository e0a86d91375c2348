"""What a command takes: instructions, by `perf` or by valgrind, or seconds of the processor where neither counts."""

import dataclasses
import os
import pathlib
import re
import resource
import shutil
import signal
import subprocess
import tempfile

# What `perf` writes, and what cachegrind writes at the end.
COUNTED = re.compile(rb"^(\d+),.*instructions", re.M)
REFERRED = re.compile(rb"I\s+refs:\s+([\d,]+)")

# How much of a command's output is read at once.
PART = 1 << 20


@dataclasses.dataclass(frozen=True)
class Taken:
    """What a call took: an amount of the counter's unit, seconds of the processor, the bytes that it wrote, and its status, or
    nothing if it was stopped."""

    amount: float
    seconds: float
    written: int
    status: int | None


def drained(stream):
    """How many bytes come from a stream until its end."""
    count = 0
    while part := os.read(stream.fileno(), PART):
        count += len(part)
    return count


def called(words, seconds, errors=subprocess.DEVNULL, output=subprocess.PIPE):
    """Calls a program, and stops it after these seconds of the processor. What it writes is counted, unless it goes to a file."""

    def limited():
        resource.setrlimit(resource.RLIMIT_CPU, (seconds, seconds + 1))
        resource.setrlimit(resource.RLIMIT_CORE, (0, 0))

    with subprocess.Popen(words, stdin=subprocess.DEVNULL, stdout=output, stderr=errors, preexec_fn=limited) as process:
        written = drained(process.stdout) if process.stdout else 0
        _, ended, used = os.wait4(process.pid, 0)
        process.returncode = os.waitstatus_to_exitcode(ended)
    taken = used.ru_utime + used.ru_stime
    # `perf` answers 0 if the command that it counts is stopped.
    stopped = process.returncode in (-signal.SIGXCPU, -signal.SIGKILL) or taken >= seconds
    return Taken(0, taken, written, None if stopped else process.returncode)


class Seconds:
    """Counts seconds of the processor. Other work on the machine makes them some tenths longer."""

    unit = "seconds"
    slower = 1

    def taken(self, words, seconds):
        """What a call takes, which is stopped after these seconds."""
        it = called(words, seconds)
        return dataclasses.replace(it, amount=it.seconds)


class Instructions:
    """Counts instructions by a program that is called before the command, and which writes its report to a file."""

    unit = "instructions"

    def __init__(self, before, report, slower):
        self.before, self.report, self.slower = before, report, slower

    def counted(self, words, seconds, path):
        """What a call takes, with the report in the file of this path."""
        with open(path, "w+b") as file:
            it = called([word.replace("REPORT", path) for word in self.before] + list(words), seconds * self.slower, file)
            found = self.report.search(pathlib.Path(path).read_bytes())
        amount = int(found[1].replace(b",", b"")) if found else 0
        return dataclasses.replace(it, amount=amount, status=it.status if found else None)

    def taken(self, words, seconds):
        """What a call takes, which is stopped after these seconds of its own."""
        with tempfile.NamedTemporaryFile() as file:
            return self.counted(words, seconds, file.name)


def by_perf():
    """Counts by `perf`, which takes no time."""
    return Instructions(["perf", "stat", "-x,", "-e", "instructions:u", "-o", "REPORT", "--"], COUNTED, 1)


def by_valgrind():
    """Counts by cachegrind, under which a command takes some 40 times as long."""
    before = ["valgrind", "--tool=cachegrind", "--cache-sim=no", "--cachegrind-out-file=/dev/null"]
    return Instructions(before, REFERRED, 40)


KINDS = {"perf": by_perf, "valgrind": by_valgrind, "seconds": Seconds}


def works(kind, program):
    """Whether a counter counts what this program takes without words."""
    if kind != "seconds" and shutil.which(kind) is None:
        return False
    return KINDS[kind]().taken([program], 10).amount > 0


def chosen(kind, program):
    """The counter of this kind, or without one the first that works: `perf`, valgrind, seconds."""
    kinds = [kind] if kind else list(KINDS)
    for it in kinds:
        if works(it, program):
            return it, KINDS[it]()
    raise ValueError(f"{kinds[-1]} counts nothing here")
