"""In which order crates are proved, and how long that takes."""

import os
import pathlib
import re

from measured import MEASURED_MINUTES, MEASURED_PROCESSORS, SECONDS, SECONDS_OF_OTHERS
from sources import crates_of_program

QUOTA = pathlib.Path("/sys/fs/cgroup/cpu.max")


def processors():
    """The number of processors that there are to use, by the quota of the control group too."""
    number = len(os.sched_getaffinity(0))
    try:
        quota = re.match(r"(\d+) (\d+)", QUOTA.read_text(encoding="utf-8"))
    except OSError:
        quota = None
    return min(number, max(1, int(quota[1]) // int(quota[2]))) if quota else number


def seconds_of(crate):
    """What proving a crate takes, as measured."""
    return SECONDS.get(crate, SECONDS_OF_OTHERS)


def chains(uses):
    """For each crate the seconds of the longest chain of crates that begins with it, each of which uses the one before."""
    longest = {name: seconds_of(name) for name in uses}
    for name in reversed(list(uses)):
        for library in uses[name]:
            longest[library] = max(longest[library], seconds_of(library) + longest[name])
    return longest


def in_order(uses):
    """The crates, those with the longest chain first, since what uses them takes longest."""
    longest = chains(uses)
    return sorted(uses, key=lambda name: (-longest[name], name))


def is_ready(name, uses, built):
    """Whether all libraries of a crate are built."""
    return all(library in built for library in uses[name])


def seconds_left(uses, built, running, at_once):
    """How long it takes until all crates are built, at most `at_once` of them at once: those in `running` have gone on for
    the seconds there, and each other one that is not built begins once its libraries are built and its turn comes."""
    built, now = set(built), 0.0
    ends = {name: max(seconds_of(name) - gone, 1.0) for name, gone in running.items()}
    waiting = [name for name in in_order(uses) if name not in built and name not in ends]
    while waiting or ends:
        for name in [it for it in waiting if is_ready(it, uses, built)][: max(0, at_once - len(ends))]:
            waiting.remove(name)
            ends[name] = now + seconds_of(name)
        first = min(ends, key=ends.get)
        now = ends.pop(first)
        built.add(first)
    return now


def minutes_to_prove(top, at_once):
    """About how many minutes the proved program takes with a number of processors: as measured, and scaled to them."""
    uses = crates_of_program(top)
    scale = seconds_left(uses, (), {}, at_once) / seconds_left(uses, (), {}, MEASURED_PROCESSORS)
    return max(1, round(MEASURED_MINUTES * scale))
