"""That a row which is wrong is found: rows are run over a stand-in for the program, which answers always the same."""

import pathlib
import sys
import tempfile

import steps
import tables

# What the stand-in writes: its words on out, and then the text of its file.
STAND_IN = f"""#!{sys.executable}
import pathlib, sys
print(*sys.argv[1:])
print(pathlib.Path("a.pony").read_text(), end="")
print("a line", file=sys.stderr)
sys.exit(7)
"""

WORDS = ("check", "a.pony")
FILES = {"a.pony": b"a text\n"}
OUT = b"check a.pony\na text\n"
LINE = b"a line\n"


def step(status=7, out=OUT, err=LINE, files=FILES):
    """A call of the stand-in, which is right unless something else is wanted."""
    return steps.Step(WORDS, files, status, out, err)


def before(answers):
    """What the call before wrote on out."""
    return answers[-1].out


# Steps, and which of the texts and the status are said to differ.
CASES = [
    ("a row that is right", [step()], None),
    ("another status", [step(status=0)], "status: expected 0"),
    ("another text on out", [step(out=OUT + b"\n")], f"out: expected {OUT + bytes([10])!r}"),
    ("no text on out", [step(out=b"")], "out: expected b''"),
    ("another line on err", [step(err=b"a lime\n")], "err: expected b'a lime\\n'"),
    ("no line on err", [step(err=b"")], "err: expected b''"),
    ("another file", [step(files={"a.pony": b"text\n"})], "out: expected"),
    ("any text", [step(out=steps.ANY)], None),
    ("the ends of a text", [step(out=tables.between(b"check", b"text\n"))], None),
    ("another beginning of a text", [step(out=tables.between(b"judge", b"text\n"))], "out: expected"),
    ("another end of a text", [step(out=tables.between(b"check", b"text"))], "out: expected"),
    ("some text", [step(out=tables.SOME)], None),
    ("the second of two steps is wrong", [step(), step(status=1)], "status: expected 1"),
    ("a file made of the step before", [step(), step(files={"a.pony": before}, out=b"check a.pony\n" + OUT)], None),
    ("the same as the step before", [step(), step(status=tables.STATUS_BEFORE, out=tables.OUT_BEFORE)], None),
    ("not the same as the step before", [step(), step(files={"a.pony": b""}, out=tables.OUT_BEFORE)], "out: expected"),
]


def look(results):
    """Runs each of these rows, and sees that what is said of it is so."""
    with tempfile.TemporaryDirectory(prefix="rcap-rows-own-") as folder:
        program = pathlib.Path(folder) / "program"
        program.write_text(STAND_IN)
        program.chmod(0o755)
        for name, row, said in CASES:
            differs = steps.difference(program, steps.Row(name, tuple(row)))
            is_right = differs is None if said is None else differs is not None and said in differs
            results.check(is_right, f"what is said of {name}", differs)
        differs = steps.difference(program.with_name("none"), steps.Row("no program", (step(),)))
        results.check(differs is not None and "there is no answer" in differs, "what is said of no program", differs)
