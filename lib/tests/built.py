"""What is tested, and the programs of this folder that call it."""

import pathlib
import subprocess
import tempfile

LIB = pathlib.Path(__file__).resolve().parents[1]
TOP = LIB.parent
TESTS = LIB / "tests"

COMPILERS = ("gcc", "clang")
CPP_COMPILERS = ("g++", "clang++")
WARNINGS = ("-Wall", "-Wextra", "-Wpedantic", "-Werror")
C_FLAGS = ("-std=c11", "-O1", "-g", *WARNINGS, "-I", str(LIB))

# A program that refuses memory takes the place of the calls that give it.
WRAPS = ("-Wl,--wrap=malloc,--wrap=realloc,--wrap=free",)

# Set by `find`: the folder of the library, and the program.
library = None
program = None

_room = tempfile.TemporaryDirectory(prefix="lib-test-")
_made = {}


def find(folder, path, after_gate=False):
    """Takes this library and this program, or builds what is not given, the library over what the gate has just proved if asked to."""
    global library, program
    if path is None:
        subprocess.run([TOP / "rcap", "--prove"], stdin=subprocess.DEVNULL, check=True)
    if folder is None:
        words = ["--after-gate"] if after_gate else []
        subprocess.run([LIB / "build", *words], stdin=subprocess.DEVNULL, check=True)
    library = (folder or TOP / "out" / "lib").resolve()
    program = (path or TOP / "out" / "proved" / "rcap").resolve()


def run(words, **how):
    """Runs a program, and returns what came of it."""
    return subprocess.run([str(it) for it in words], stdin=subprocess.DEVNULL, capture_output=True, check=False, **how)


def must(words, **how):
    """Runs a program that has to end with 0."""
    ran = run(words, **how)
    if ran.returncode != 0:
        raise AssertionError(f"{' '.join(str(it) for it in words)} ended with {ran.returncode}:\n{ran.stderr.decode(errors='replace')}")
    return ran


def compiled(compiler, sources, *flags):
    """The program of these sources, linked with the archive."""
    key = compiler, tuple(sources), flags
    if key not in _made:
        made = pathlib.Path(_room.name) / f"{len(_made)}"
        must([compiler, *C_FLAGS, *flags, "-o", made, *sources, library / "librcap.a", "-pthread"])
        _made[key] = made
    return _made[key]


def driver(compiler, name, *flags):
    """One of the programs of this folder."""
    return compiled(compiler, (TESTS / f"{name}.c", TESTS / "calls.c"), *flags)
