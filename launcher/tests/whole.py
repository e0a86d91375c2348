"""Tests of `./test`, the command that runs tests."""

import shutil

from checkouts import TOP
from first_answers import LauncherTest

CLOSING = b"5 passed, 0 failed\n"


class PartsTest(LauncherTest):
    """`./test` with a stand-in for the gate and for each other part."""

    def setUp(self):
        super().setUp()
        self.test = self.checkout.top / "test"
        shutil.copy(TOP / "test", self.test)
        for part in ("a", "b"):
            self.write_part(part, CLOSING)
        for name in ("TESTS", "QUICK_TESTS"):
            head, found, rest = self.test.read_text().partition(f"\n{name} = [\n")
            self.assertTrue(found)
            tail = rest.partition("\n]\n")[2]
            self.test.write_text(f'{head}\n{name} = [["launcher/a"], ["launcher/b"]]\n{tail}')

    def write_part(self, part, out, status=0):
        """Has a part write something and end with a status. It notes its words."""
        file = self.checkout.top / "launcher" / part
        file.write_text(f"#!/bin/sh\necho \"$@\" >> \"$0.words\"\ncat <<'END'\n{out.decode()}END\nexit {status}\n")
        file.chmod(0o755)

    def words_of(self, part):
        """The words with which a part was run, a line for each time."""
        file = self.checkout.top / "launcher" / f"{part}.words"
        return file.read_text().splitlines() if file.exists() else []

    def call(self, *words):
        return self.checkout.call(*words, launcher=self.test)

    def assert_nothing_was_run(self):
        calls = self.checkout.stand_in / "calls"
        self.assertFalse(calls.exists(), calls)
        self.assertEqual((self.words_of("a"), self.words_of("b")), ([], []))


class AllTests(PartsTest):
    """All parts, without a word."""

    def setUp(self):
        super().setUp()
        (self.checkout.top / ".ci").mkdir()
        shutil.copy(TOP / ".ci" / "run", self.checkout.top / ".ci" / "run")
        # It is on the path, so that none is installed.
        shutil.copy("/bin/true", self.checkout.room / "bin" / "chromium")

    def assert_ends(self, gate, closing, status):
        """What the gate wrote, and how all ends."""
        self.checkout.tell("ci", gate)
        for command in ("test", ".ci/run"):
            ran = self.checkout.call(launcher=self.checkout.top / command)
            self.assertEqual((ran.out.splitlines()[-1], ran.status), (closing, status), ran.out)

    def test_sums(self):
        self.assert_ends("0 proved\n1200 passed, 0 failed\n", b"1210 passed, 0 failed", 0)
        self.assertEqual(self.checkout.calls("ci"), ["checkout", "checkout"])
        self.assertEqual(self.checkout.words_of("ci"), [[], []])

    def test_gate_that_fails(self):
        self.assert_ends("1 1199 passed, 1 failed\n", b"1209 passed, 1 failed", 1)

    def test_gate_that_says_nothing(self):
        self.assert_ends("0 well\n", b"10 passed, 1 failed", 1)
        self.assert_ends("0 ", b"10 passed, 1 failed", 1)

    def test_gate_that_ends_with_another_status(self):
        self.assert_ends("2 7 passed, 0 failed\n", b"17 passed, 1 failed", 1)

    def test_part_that_fails(self):
        self.write_part("b", b"3 passed, 2 failed\n", 1)
        self.assert_ends("0 1 passed, 0 failed\n", b"9 passed, 2 failed", 1)

    def test_part_that_fails_with_status_0(self):
        self.write_part("a", b"3 passed, 2 failed\n")
        self.assert_ends("0 1 passed, 0 failed\n", b"9 passed, 2 failed", 1)

    def test_part_whose_line_is_not_its_last(self):
        self.write_part("b", CLOSING + b"and more\n")
        self.assert_ends("0 1 passed, 0 failed\n", b"6 passed, 1 failed", 1)

    def test_part_that_is_not_there(self):
        (self.checkout.top / "launcher" / "a").unlink()
        self.assert_ends("0 1 passed, 0 failed\n", b"6 passed, 1 failed", 1)


class Words(PartsTest):
    """The words after `./test`."""

    def assert_ended(self, ran, closing, status):
        self.assertEqual((ran.out.splitlines()[-1], ran.status), (closing, status), ran.out)

    def test_help_starts_nothing(self):
        for word in ("--help", "-h"):
            ran = self.call(word)
            self.assertEqual((ran.status, ran.err), (0, b""))
            self.assertIn(b"usage: ./test ", ran.out)
            self.assert_nothing_was_run()

    def test_other_words_are_refused(self):
        refused = ["--all"], ["low"], [""], ["--help", "--quick"], ["--quick", "low"], ["--for"], ["--for", "none"], ["--for", "low", "-h"]
        for words in refused:
            ran = self.call(*words)
            self.assertEqual((ran.status, ran.out), (2, b""), words)
            self.assertNotEqual(ran.err, b"")
            self.assert_nothing_was_run()

    def test_quick(self):
        self.assert_ended(self.call("--quick"), b"10 passed, 0 failed", 0)
        self.assertEqual((self.checkout.calls("try"), self.checkout.calls("ci")), (["pc_cli"], []))

    def test_quick_with_a_part_that_fails(self):
        self.write_part("a", b"3 passed, 2 failed\n", 1)
        self.assert_ended(self.call("--quick"), b"8 passed, 2 failed", 1)

    def test_quick_without_a_program(self):
        self.checkout.tell("fail.try")
        self.assert_ended(self.call("--quick"), b"0 passed, 1 failed", 1)
        self.assertEqual((self.words_of("a"), self.words_of("b")), ([], []))

    def test_crates(self):
        (self.checkout.top / "tests.txt").write_text("# Tests.\nlow le*: launcher/a x y\nlow: launcher/a y z, launcher/b w\nright: launcher/b\n")
        self.checkout.tell("ci", "0 7 passed, 0 failed\n")
        for crates, closing, words in (
            (["low"], b"17 passed, 0 failed", (["x y z"], ["w"])),
            (["low", "left"], b"17 passed, 0 failed", (["x y z"], ["w"])),
            (["low", "right"], b"17 passed, 0 failed", (["x y z"], [""])),
            (["left"], b"12 passed, 0 failed", (["x y"], [])),
            (["other"], b"7 passed, 0 failed", ([], [])),
        ):
            self.assert_ended(self.call("--for", *crates), closing, 0)
            self.assertEqual((self.words_of("a"), self.words_of("b")), words, crates)
            self.assertEqual(self.checkout.words_of("ci"), [crates])
            self.forget()

    def test_mutants_of_a_crate(self):
        (self.checkout.top / "tests.txt").write_text("")
        self.checkout.tell("ci", "0 7 passed, 0 failed\n")
        (self.checkout.top / "tools").mkdir()
        shutil.move(self.checkout.top / "launcher" / "a", self.checkout.top / "tools" / "mutants")
        (self.checkout.top / "crates" / "low" / "mutants").mkdir()
        (self.checkout.top / "crates" / "low" / "mutants" / "one.edit").write_text("file: src/lib.rt\n")
        self.assert_ended(self.call("--for", "low"), b"12 passed, 0 failed", 0)
        self.assert_ended(self.call("--for", "left"), b"7 passed, 0 failed", 0)
        self.assertEqual((self.checkout.top / "tools" / "mutants.words").read_text(), "low\n")

    def forget(self):
        """Forgets what was run."""
        self.checkout.forget_calls()
        for part in ("a", "b"):
            (self.checkout.top / "launcher" / f"{part}.words").unlink(missing_ok=True)
