"""Builds a static library over the libraries that the gate has just proved in this checkout.

    after_gate.py TOP CRATE

The gate, `rt ci`, leaves each library that it proved in its crate's `out/`, but without the stamp by which the kit's other
commands know whether a library is that of its sources; so `rt lib` would prove all of them again. Here each library gets
that stamp, as the kit's own code computes it, and `rt lib` builds the crate over them. Then the stamps are removed, since
such a library holds the statements of its proofs alone, which fit only the libraries of the same gate.

The status is 0 if the crate is built. If not, a line on standard error says why, and the status is 1. A signal that asks for
the end has the stamps removed too."""

import functools
import importlib.util
import os
import pathlib
import shutil
import signal
import subprocess
import sys

sys.dont_write_bytecode = True


# In place of the folder at the top: a call of this script by itself.
BUILD_ALONE = "--build-alone"


class NotTaken(Exception):
    """Why the libraries of the gate are not taken."""


def kit():
    """The kit's own module of crates, which lies beside the `rt` on the path."""
    command = shutil.which("rt")
    if command is None:
        raise NotTaken("there is no rt on the path")
    file = pathlib.Path(command).resolve().with_name("rtlib.py")
    if not file.is_file():
        raise NotTaken(f"the kit has no {file}")
    spec = importlib.util.spec_from_file_location("rtlib", file)
    module = importlib.util.module_from_spec(spec)
    sys.modules["rtlib"] = module
    spec.loader.exec_module(module)
    # A crate's stamp is made of those of the crates below it, so that without this one would be computed thousands of times.
    module.Crate.stamp = functools.cache(module.Crate.stamp)
    return module


def times(folder):
    """The times at which the files of a folder were written."""
    return [os.stat(f"{at}/{name}").st_mtime_ns for at, _, names in os.walk(folder) for name in names]


def placed(folder):
    """The times at which a library's folders came to be here, if it has files. The files themselves may be older than the
    checkout, as the gate takes over what it proved before of the same sources; and a file that another checkout has too is
    changed by that one."""
    return [os.stat(at).st_ctime_ns for at, _, _ in os.walk(folder)] if times(folder) else []


def last_change(crate, parts):
    """The time of the last change of a crate's sources. If a file is gone or has another name, its folder has changed."""
    walked = [it for part in parts for it in os.walk(f"{crate.folder}/{part}")]
    paths = [at for at, _, _ in walked] + [f"{at}/{name}" for at, _, names in walked for name in names]
    return max(max(it.st_mtime_ns, it.st_ctime_ns) for it in map(os.stat, paths))


def stamp_file(crate):
    """Where the kit looks for the stamp of a library."""
    return pathlib.Path(crate.rlib).with_name("stamp")


def look(top, crates, parts):
    """Refuses libraries that are not all from one gate, over the sources as they are now."""
    listed = os.stat(top / "crates.txt").st_mtime_ns
    first, last = {}, {}
    for crate in crates:
        here = placed(crate.rlib)
        if not here:
            raise NotTaken(f"the library of {crate.name} is not there")
        if stamp_file(crate).exists():
            raise NotTaken(f"the library of {crate.name} has a stamp, so that it is not from the gate")
        first[crate.name], last[crate.name] = min(here), max(here)
        if first[crate.name] <= max(listed, last_change(crate, parts)):
            raise NotTaken(f"the library of {crate.name} is older than its sources")
        for below in crate.deps:
            if first[crate.name] < last[below.name]:
                raise NotTaken(f"the library of {crate.name} is older than that of {below.name}, which it uses")


def take_signals():
    """Has a signal that asks for the end raise, as an interrupt does, so that the stamps are removed first."""
    for number in (signal.SIGTERM, signal.SIGHUP):
        if signal.getsignal(number) != signal.SIG_IGN:
            signal.signal(number, signal.default_int_handler)


def rt_lib(folder):
    """Does in a process of its own what `rt lib` does in a crate's folder, and returns its status."""
    words = [sys.executable, "-ISB", __file__, BUILD_ALONE, folder]
    return subprocess.run(words, cwd=folder, stdin=subprocess.DEVNULL, stdout=sys.stderr, check=False).returncode


def build(crate, libraries):
    """Builds the crate over the libraries, which have their stamps meanwhile."""
    try:
        for library in libraries:
            stamp_file(library).write_text(library.stamp(), encoding="utf-8")
        # A kit with other stamps would prove this one again, and then all others, one by one.
        lowest = libraries[0]
        before = times(lowest.rlib)
        if rt_lib(lowest.folder) != 0 or times(lowest.rlib) != before:
            raise NotTaken(f"the kit proves {lowest.name} again in spite of its stamp")
        status = rt_lib(crate.folder)
        if status != 0:
            raise NotTaken(f"rt lib ended with {status} over them")
    finally:
        for library in libraries:
            stamp_file(library).unlink(missing_ok=True)


def main(top, name):
    """Builds the crate, and returns the status."""
    take_signals()
    top = pathlib.Path(top).resolve()
    try:
        rtlib = kit()
        crate = rtlib.Crate(f"{top}/crates/{name}", str(top), {})
        libraries = crate.below()
        if not libraries:
            raise NotTaken(f"{name} uses none")
        look(top, libraries, rtlib.PARTS)
        build(crate, libraries)
    except NotTaken as error:
        why = error
    except (Exception, SystemExit) as error:  # Another kit may have other names, or stop for reasons of its own.
        why = f"this kit is not as expected: {type(error).__name__}: {error}"
    else:
        return 0
    print(f"lib: the gate's libraries are not taken: {why}", file=sys.stderr)
    return 1


if __name__ == "__main__":
    # `rt lib` itself would compute stamps for minutes.
    sys.exit(kit().main("lib") if sys.argv[1] == BUILD_ALONE else main(*sys.argv[1:]))
