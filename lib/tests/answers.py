"""The library answers what the program answers."""

import dataclasses
import pathlib
import sys
import tempfile
import unittest

import built
import cases

sys.path.insert(0, str(built.LIB / "python"))

# The cases are many, and far more than one of each command.
LEAST_CASES = 1000

STATUSES = {0, 1, 2, 3, 4, 5, 6, 7, 8, 12, 15}


def ask(program, case):
    """What a program that was linked with the library answers."""
    with tempfile.TemporaryDirectory() as folder:
        words = cases.write(case, pathlib.Path(folder))
        ran = built.run([program, *words], cwd=folder)
    line, _, rest = ran.stdout.partition(b"\n")
    if ran.returncode != 0:
        raise AssertionError(f"{case.title()}: ended with {ran.returncode}: {ran.stderr.decode(errors='replace')}")
    status, out_length, err_length, *place = (int(it) for it in line.split())
    if len(rest) != out_length + err_length:
        raise AssertionError(f"{case.title()}: {len(rest)} bytes, and not {out_length} and {err_length}")
    return cases.Answer(status, rest[:out_length], rest[out_length:], tuple(place))


class Answers(unittest.TestCase):
    """Status, texts and place of every case."""

    def compare(self, ask_library):
        for case in cases.all_cases():
            self.assertEqual(ask_library(case), cases.wanted(case), case.title())

    def test_cases_are_many(self):
        self.assertGreaterEqual(len(cases.all_cases()), LEAST_CASES)

    def test_cases_have_each_status(self):
        self.assertEqual({cases.wanted(case).status for case in cases.all_cases()}, STATUSES)

    def test_cases_have_places_in_both_texts(self):
        self.assertEqual({cases.wanted(case).place[0] for case in cases.all_cases()}, {0, 1, 2})

    def test_cases_have_pieces_of_each_size(self):
        places = {place for place in (cases.wanted(case).place for case in cases.all_cases()) if place[0] != 0}
        pieces = {(place[6] - place[3], place[4] - place[1]) for place in places}
        self.assertTrue({0, 1} < {size for size, _ in pieces})
        self.assertTrue(any(lines for _, lines in pieces))

    def test_gcc(self):
        self.compare(lambda case: ask(built.driver("gcc", "ask"), case))

    def test_clang(self):
        self.compare(lambda case: ask(built.driver("clang", "ask"), case))

    def test_shared_object(self):
        import rcap

        library = rcap.Library(built.library / "librcap.so")

        def ask_shared(case):
            given = [it for it in (case.source, case.beside, case.number) if it is not None]
            answer = getattr(library, case.command)(*given)
            place = answer.place
            numbers = (0,) * 7 if place is None else dataclasses.astuple(place)
            return cases.Answer(answer.status, answer.out, answer.err, numbers)

        self.compare(ask_shared)

    def test_numbers_that_are_out_of_range(self):
        import rcap

        library = rcap.Library(built.library / "librcap.so")
        for number in (-1, 2**32):
            self.assertRaises(OverflowError, library.swap, b"", b"", number)
            self.assertRaises(OverflowError, library.outcomes, b"", number)
        for number in (-1, 2**64):
            self.assertRaises(OverflowError, library.schedule, b"", number)
            self.assertRaises(OverflowError, library.play, b"", number)

    def test_shared_object_exports_the_header(self):
        said = built.must(["nm", "--dynamic", "--defined-only", built.library / "librcap.so"]).stdout.decode()
        names = {line.split()[-1] for line in said.splitlines()}
        declared = {f"rcap_{command}" for command in (*cases.OF_SOURCE, *cases.OF_DERIVATION, *cases.OF_SCHEDULE, *cases.OF_SEED, "swap", "outcomes")}
        self.assertEqual(names, declared)
