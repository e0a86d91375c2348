"""Which program the scripts of this folder try."""

import pathlib
import subprocess
import sys

TOP = pathlib.Path(__file__).resolve().parent.parent

# The proved program, which `rcap` at the top becomes. It is called itself, so that only its own time and memory are seen.
BUILT = TOP / "out" / "proved" / "rcap"

# The folder of the machine's tests, and the program that `rt test` makes of them: it runs the test that its word names.
TESTS_FOLDER = TOP / "crates" / "pc_machine_tests"
TESTS_BUILT = TESTS_FOLDER / "out" / "pc_machine_tests_tests"

# The status of a call without words.
NO_WORDS = 2


def add_program(parser):
    """Adds the option that names another program."""
    parser.add_argument("--program", metavar="PATH", help="the built program; without it rcap --prove at the top builds one")


def add_tests(parser):
    """Adds the option that names other tests of the machine."""
    parser.add_argument("--tests", metavar="PATH", help="the built tests of the machine; without it rt test builds them")


def tests_of(options):
    """The path of the machine's tests, which are there. Builds them if no others are named."""
    tests = TESTS_BUILT
    if options.tests is not None:
        tests = pathlib.Path(options.tests).resolve()
    else:
        # What it writes belongs to the build. After one that failed the tests of another build may still be there.
        built = subprocess.run(["rt", "test"], cwd=TESTS_FOLDER, stdin=subprocess.DEVNULL, stdout=sys.stderr, check=False)
        if built.returncode != 0:
            sys.exit("the tests of the machine are not built, or fail")
    if not tests.is_file():
        sys.exit(f"no tests {tests}")
    return str(tests)


def program_of(options):
    """The path of the program to try, which is there. Builds it if no other is named."""
    program = BUILT
    if options.program is not None:
        program = pathlib.Path(options.program).resolve()
    elif subprocess.run([TOP / "rcap", "--prove"], stdin=subprocess.DEVNULL, check=False).returncode != 0:
        sys.exit("the program is not proved")
    if not program.is_file():
        sys.exit(f"no program {program}")
    ended = subprocess.run([program], stdin=subprocess.DEVNULL, capture_output=True, check=False)
    if ended.returncode != NO_WORDS:
        sys.exit(f"{program} without words ends with {ended.returncode}, and not with {NO_WORDS}")
    return str(program)
