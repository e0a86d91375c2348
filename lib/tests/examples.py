"""The header in C++, and the examples in C, Rust and Python."""

import os
import pathlib
import re
import shutil
import sys
import tempfile
import unittest

import built
import cases

ACCEPTED = "class C\nactor Main\n  new create(env: Env) =>\n    let a: C iso = C\n"
REFUSED = ACCEPTED + "    let b: C iso = a\n"

# Worked out by hand from the rules.
DERIVATION = """rcap-derivation 1 4 7
s 6 ref
s 7 ref
s 4 val
s 6 iso
n prim 0 val 1 0 1 0
n seq 0 val 1 0 1 0
n body - 1 0 1 0
n new 6 iso^ 3 0 3 0
n define - 3 0 7 0
n seq - 3 0 3 0
n body - 3 0 3 0
"""
EXPLANATION = """source:5:5: no rule
5 |     let b: C iso = a
  |     ^^^^^^^^^^^^^^^^
node: the definition of `b`, C iso, in Main.create
part: the value `a` is C iso
rule define: the value has the form iso, an alias, and `b`, an iso, takes only iso^
hint: write `consume a`: it has the form iso^, and after it the name cannot be used
"""
PLACE = "line 5, column 5, bytes 70 to 86"
REFUSAL = f"b.pony: status 1, {PLACE}\n" + EXPLANATION

# The same source with a token too many, which has no explanation.
ASTRAY = ACCEPTED + "    let b: C iso = else\n"
ASTRAY_REFUSAL = """astray.pony: status 3, line 5, column 20, bytes 85 to 89
source:5:20: unexpected
    let b: C iso = else
                   ^^^^
"""
EMPTY_REFUSAL = "empty.pony: status 3, line 1, column 1, bytes 0 to 0\nsource:1:1: unexpected\n\n^\n"

ACCEPTED_LINE = f"a.pony: accepted, with a derivation of {len(DERIVATION)} bytes\n"


class Examples(unittest.TestCase):
    """What is shown to callers compiles without a warning, and answers what was worked out by hand."""

    def setUp(self):
        room = tempfile.TemporaryDirectory(prefix="lib-test-")
        self.addCleanup(room.cleanup)
        self.room = pathlib.Path(room.name)
        for name, text in {"a.pony": ACCEPTED, "b.pony": REFUSED, "astray.pony": ASTRAY, "empty.pony": ""}.items():
            (self.room / name).write_text(text)

    def test_header_in_cpp(self):
        source = self.room / "asks.cpp"
        source.write_text(ASKS)
        for compiler in built.CPP_COMPILERS:
            program = self.room / compiler
            built.must([compiler, "-std=c++11", *built.WARNINGS, "-I", built.LIB, "-o", program, source, built.library / "librcap.a"])
            built.must([program])

    def test_header_is_whole(self):
        self.assertEqual((built.library / "rcap.h").read_bytes(), (built.LIB / "rcap.h").read_bytes())

    def test_c(self):
        for compiler in built.COMPILERS:
            program = built.compiled(compiler, (built.LIB / "example.c",))
            wanted = (("a.pony", 0, DERIVATION), ("b.pony", 1, REFUSAL), ("astray.pony", 3, ASTRAY_REFUSAL), ("empty.pony", 3, EMPTY_REFUSAL))
            for name, status, out in wanted:
                ran = built.run([program, name], cwd=self.room)
                self.assertEqual((ran.returncode, ran.stdout.decode(), ran.stderr), (status, out, b""))

    def test_confirming(self):
        for compiler in built.COMPILERS:
            ran = built.must([built.compiled(compiler, (built.LIB / "confirm.c",))])
            self.assertEqual(ran.stdout, b"confirmed\nnot confirmed\n")
            self.assertEqual(ran.stderr, b"internal error: derivation: node 3\n")

    def test_page_shows_the_example(self):
        page = (built.TOP / "docs" / "library.md").read_text()
        shown = re.findall(r"```c\n(.*?)```", page, re.DOTALL)
        self.assertTrue(shown)
        for block in shown:
            self.assertIn(block, (built.LIB / "confirm.c").read_text())

    def copy_of(self, language):
        """A copy of the examples in a language, with the library where they look for it."""
        copy = self.room / "lib" / language
        shutil.copytree(built.LIB / language, copy, ignore=shutil.ignore_patterns("__pycache__", "target"))
        (self.room / "out").mkdir()
        (self.room / "out" / "lib").symlink_to(built.library)
        return copy

    def cargo(self, copy, *words):
        """What cargo does in the copy, without a network."""
        surroundings = {**os.environ, "CARGO_TARGET_DIR": str(self.room / "target"), "RUSTC_WRAPPER": ""}
        surroundings.pop("RUSTFLAGS", None)
        return built.must(["cargo", words[0], "--offline", "--quiet", *words[1:]], cwd=copy, env=surroundings)

    def test_python(self):
        copy = self.copy_of("python")
        ran = built.must([sys.executable, "-B", copy / "example.py", "a.pony", "b.pony"], cwd=self.room)
        wanted = ACCEPTED_LINE + f"b.pony: status 1, {PLACE}: source:5:5: no rule\n  let b: C iso = a\n"
        self.assertEqual(ran.stdout.decode(), wanted)
        utf8 = {**os.environ, "PYTHONUTF8": "1"}
        ran = built.must([sys.executable, "-B", copy / "example.py", *FILES], cwd=FOLDER, env=utf8)
        self.assertEqual(ran.stdout, b"".join(line_of(name, lambda status: f"status {status}") for name in FILES))

    def test_rust(self):
        copy = self.copy_of("rust")
        self.cargo(copy, "test")
        ran = self.cargo(copy, "run", "--example", "check", "--", self.room / "a.pony", self.room / "b.pony")
        wanted = ACCEPTED_LINE + f"b.pony: NoDerivation, {PLACE}: source:5:5: no rule\n  let b: C iso = a\n"
        self.assertEqual(ran.stdout.decode().replace(f"{self.room}/", ""), wanted)
        ran = built.must([self.room / "target" / "debug" / "examples" / "check", *FILES], cwd=FOLDER)
        self.assertEqual(ran.stdout, b"".join(line_of(name, RUST_STATUS.get) for name in FILES))

    def test_c_over_all_examples(self):
        program = built.compiled("gcc", (built.LIB / "example.c",))
        for name in FILES:
            ran = built.run([program, name], cwd=FOLDER)
            status = cases.wanted(case_of(name)).status
            self.assertEqual((ran.returncode, ran.stdout, ran.stderr), (status, shown_by_c(name), b""), name)


# The sources of the examples, by their names in their folder.
FOLDER = built.TOP / "examples"
FILES = [str(it.relative_to(FOLDER)) for it in sorted(FOLDER.rglob("*.pony"))]

# What the crate calls the statuses with which a source is refused.
RUST_STATUS = {1: "NoDerivation", 3: "BadSyntax", 4: "BadNames", 8: "PastALimit"}

# How much of a line the example in C has room for.
LINE_ROOM = 128


def case_of(name, command="check"):
    return cases.Case(command, (FOLDER / name).read_bytes())


def where(place):
    """The place of a refusal, as all examples print it."""
    _, line, column, offset, _, _, end = place
    return f"line {line}, column {column}, bytes {offset} to {end}"


def line_of(name, status_word):
    """What the examples in Rust and Python print of a file, by what the program answers."""
    case = case_of(name)
    answer = cases.wanted(case)
    if answer.status == 0:
        return f"{name}: accepted, with a derivation of {len(answer.out)} bytes\n".encode()
    said = f"{name}: {status_word(answer.status)}"
    if answer.place[0] == 0:
        return f"{said}: {answer.err.decode()}".encode()
    piece = case.source[answer.place[3] : answer.place[6]].decode(errors="replace")
    return f"{said}, {where(answer.place)}: {answer.err.decode()}  {piece}\n".encode()


def shown_by_c(name):
    """What the example in C prints of a file, by what the program answers."""
    answer = cases.wanted(case_of(name))
    if answer.status == 0:
        return answer.out
    head = f"{name}: status {answer.status}, {where(answer.place)}\n".encode()
    explained = cases.wanted(case_of(name, "explain"))
    if explained.status == 0:
        return head + explained.out
    return head + answer.err[:LINE_ROOM] + (marked(case_of(name).source, answer.place) if answer.place[0] else b"")


def marked(source, place):
    """The line of the source that has a place, and a mark under each byte of the piece, as far as the line goes."""
    _, _, column, offset, _, _, end = place
    start = offset - (column - 1)
    line = source[start:].split(b"\n")[0]
    marks = max(1, min(end, start + len(line)) - offset)
    # Printing a line ends at a byte 0.
    return line.split(b"\0")[0] + b"\n" + b" " * (column - 1) + b"^" * marks + b"\n"


ASKS = """
#include "rcap.h"
#include <cstring>
int main() {
    unsigned char out[64], err[64];
    rcap_answer answer;
    const char *source = "actor Main";
    unsigned char status = rcap_show(reinterpret_cast<const unsigned char *>(source), std::strlen(source), out, sizeof out, err, sizeof err, &answer);
    return status == RCAP_DONE && answer.place.text == RCAP_NOWHERE ? 0 : 1;
}
"""
