"""Memory, threads and the stack."""

import pathlib
import re
import tempfile
import unittest

import built
import cases

# The most levels of nesting that are read, of what takes the most stack.
DEEP = b"actor Main\n  new create(env: Env) =>\n" + b"if true then " * 199 + b"None" + b" end" * 199 + b"\n"

# The same, which is refused at the deepest place.
DEEP_REFUSED = DEEP.replace(b"None", b"let x: U64 = true")

# What a call takes at most at such a source, by the header's comment, and what it takes at a usual one.
STACK = int(re.search(r"#define RCAP_STACK (\d+)", (built.LIB / "rcap.h").read_text())[1])
USUAL_STACK = 100_000

LEAST_REQUESTS = 10


class Limits(unittest.TestCase):
    """Calls with little memory, from several threads, and what they take of the stack."""

    def run_driver(self, words, case):
        """Runs a program of this folder on a case, and returns the numbers that it prints."""
        with tempfile.TemporaryDirectory() as folder:
            ran = built.must([*words, *cases.write(case, pathlib.Path(folder))], cwd=folder)
        return [int(it) for it in ran.stdout.split()]

    def test_each_request_for_memory_is_refused(self):
        for compiler in built.COMPILERS:
            program = built.driver(compiler, "refuse", *built.WRAPS)
            for case in cases.small_cases():
                status, requests, served = self.run_driver([program], case)
                self.assertEqual(status, cases.wanted(case).status, case.title())
                self.assertGreater(requests, LEAST_REQUESTS, case.title())
                # Few requests are for more than is needed at once, so that a smaller one serves.
                self.assertLess(served, requests // 10, case.title())

    def test_four_threads(self):
        for compiler in built.COMPILERS:
            for case in cases.small_cases():
                (status,) = self.run_driver([built.driver(compiler, "threads")], case)
                self.assertEqual(status, cases.wanted(case).status, case.title())

    def test_valgrind(self):
        words = ["valgrind", "--quiet", "--error-exitcode=98", "--leak-check=full", "--show-leak-kinds=all", "--errors-for-leak-kinds=all"]
        for case in cases.small_cases():
            with tempfile.TemporaryDirectory() as folder:
                asked = cases.write(case, pathlib.Path(folder))
                built.must([*words, built.driver("gcc", "ask"), *asked], cwd=folder)

    def test_valgrind_finds_a_byte_too_many(self):
        """A caller that promises a byte more than it has is found, so the test above can fail."""
        with tempfile.TemporaryDirectory() as folder:
            source = pathlib.Path(folder) / "owes.c"
            source.write_text(OWES)
            program = built.compiled("gcc", (source,))
            ran = built.run(["valgrind", "--quiet", "--error-exitcode=98", program])
        self.assertEqual(ran.returncode, 98, ran.stderr.decode())

    def test_stack(self):
        program = built.driver("gcc", "stack")
        deep = cases.Case("check", DEEP)
        self.assertEqual(cases.wanted(deep).status, 0)
        self.assertEqual(cases.wanted(cases.Case("check", DEEP_REFUSED)).status, 1)
        own = cases.wanted(deep).out
        explained = cases.Case("explain", DEEP_REFUSED)
        for case in (deep, cases.Case("show", DEEP), cases.Case("sends", DEEP), explained, cases.Case("judge", DEEP, own), cases.Case("run", DEEP, b"1*5000")):
            (taken,) = self.run_driver([program], case)
            self.assertLess(taken, STACK, case.title())
        for case in cases.small_cases():
            (taken,) = self.run_driver([program], case)
            self.assertLess(taken, USUAL_STACK, case.title())


OWES = """
#include "rcap.h"
#include <stdlib.h>
int main(void) {
    unsigned char *source = malloc(1), out[1], err[1];
    struct rcap_answer answer;
    source[0] = ' ';
    unsigned char status = rcap_check(source, 2, out, 1, err, 1, &answer);
    free(source);
    return status == RCAP_BAD_SYNTAX ? 0 : 1;
}
"""
