"""A first answer of this checkout's program by the kit itself, in a copy of the sources with nothing built."""

import pathlib
import shutil
import subprocess
import tempfile
import unittest

from checkouts import TOP
from first_answers import NOTICE

FILES = ("rcap", "crates.txt", "HANDLES")

PRINTS = 'actor Main\n  new create(env: Env) =>\n    env.out.print("hi")\n'
ACCEPTED = "class C\nactor Main\n  new create(env: Env) =>\n    let a: C iso = C\n"
REFUSED = ACCEPTED + "    let b: C iso = a\n"

# Worked out by hand from the rules: words, status, output and line.
DERIVATION = b"""rcap-derivation 1 4 7
s 6 ref
s 7 ref
s 4 val
s 6 iso
n prim 0 val 1 0 1 0
n seq 0 val 1 0 1 0
n body - 1 0 1 0
n new 6 iso^ 3 0 3 0
n define - 3 0 7 0
n seq - 3 0 3 0
n body - 3 0 3 0
"""
ANSWERS = (
    (("check", "a.pony"), 0, DERIVATION, b""),
    (("check", "b.pony"), 1, b"", b"b.pony:5:5: no rule\n"),
    (("run", "hi.pony", "s"), 0, b"hi\nsteps 11 skipped 0 actors 2 objects 3 waiting 0\n", b""),
    (("run", "hi.pony", "t"), 7, b"", b"t:1:7: bad word\n"),
    (("check", "empty"), 3, b"", b"empty:1:1: unexpected\n"),
    (("check", "gone"), 9, b"", b"gone: cannot be read\n"),
    ((), 2, b"", b"usage: rcap COMMAND ARGUMENT ...\n"),
)


def copy_sources(to):
    """Copies what a clone has of the program's sources."""
    for name in FILES:
        shutil.copy(TOP / name, to / name)
    ignored = shutil.ignore_patterns("out", "must-fail", "mutants", "tests", "__pycache__")
    for name in ("launcher", "crates"):
        shutil.copytree(TOP / name, to / name, ignore=ignored)


class RealAnswers(unittest.TestCase):
    """Answers of the program without its proofs."""

    def setUp(self):
        room = tempfile.TemporaryDirectory(prefix="launcher-test-")
        self.addCleanup(room.cleanup)
        self.top, self.work = pathlib.Path(room.name) / "clone", pathlib.Path(room.name) / "work"
        self.top.mkdir()
        self.work.mkdir()
        copy_sources(self.top)
        texts = {"a.pony": ACCEPTED, "b.pony": REFUSED, "hi.pony": PRINTS, "s": "1*10 0", "t": "7 1*0 x", "empty": ""}
        for name, text in texts.items():
            (self.work / name).write_text(text)

    def call(self, *words):
        return subprocess.run(
            [self.top / "rcap", *words], cwd=self.work, stdin=subprocess.DEVNULL, capture_output=True, check=False
        )

    def test_rows(self):
        for words, status, out, line in ANSWERS:
            ran = self.call(*words)
            self.assertRegex(ran.stderr, NOTICE)
            err = ran.stderr.partition(b"\n")[2]
            self.assertEqual((ran.returncode, ran.stdout, err), (status, out, line), words)
        self.assert_prints_much()

    def assert_prints_much(self):
        """The program writes more than a stream of `rt try` holds: 300 texts of 4,000 bytes, and a line of numbers."""
        text, number = "x" * 4000, 300
        source = f'actor Main\n  new create(env: Env) =>\n    let text: String val = "{text}"\n' + "    env.out.print(text)\n" * number
        (self.work / "much.pony").write_text(source)
        (self.work / "turns").write_text("1*100000 0*1000")
        ran = self.call("run", "much.pony", "turns")
        lines = ran.stdout.decode().splitlines()
        self.assertEqual((ran.returncode, lines[:-1]), (0, [text] * number), ran.stderr)
        self.assertTrue(lines[-1].startswith("steps "), lines[-1])
