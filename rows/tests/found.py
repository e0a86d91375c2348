"""What is tested: the program, and the files of rows."""

import importlib.util
import pathlib
import subprocess
import sys

TOP = pathlib.Path(__file__).resolve().parents[2]
ROWS = TOP / "rows"


def program(path):
    """The program at a path, or else the one that ./rcap answers by, which is built first if it is not there."""
    if path is not None:
        return path.resolve()
    words = [sys.executable, "-ISB", TOP / "launcher" / "main.py", TOP, "find"]
    said = subprocess.run(words, stdin=subprocess.DEVNULL, stdout=subprocess.PIPE, check=True)
    return pathlib.Path(said.stdout.decode().strip())


def names(wanted, results):
    """The names of the files of rows, or of those that are wanted."""
    all_names = sorted(path.stem for path in ROWS.glob("*.py"))
    unknown = set(wanted) - set(all_names)
    results.check(all_names and not unknown, "a file of that name", f"there is none: {', '.join(sorted(unknown))}")
    return [name for name in all_names if not wanted or name in wanted]


def rows(name):
    """The rows of a file."""
    spec = importlib.util.spec_from_file_location(f"rows_of_{name}", ROWS / f"{name}.py")
    module = importlib.util.module_from_spec(spec)
    spec.loader.exec_module(module)
    return module.ROWS
