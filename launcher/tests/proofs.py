"""Tests of `./rcap --prove`, and of the calls during and after it."""

import os
import re
import signal
import subprocess

from first_answers import LauncherTest

LINE = re.compile(rb"rcap: (\w+) \((\d) of 5\): \d+ minutes? gone, about \d+ minutes? left\n")


class ProveTest(LauncherTest):
    """A test of proving."""

    def prove(self, **how):
        return self.checkout.call("--prove", **how)

    def assert_proved(self):
        """A call is answered by the proved program alone."""
        ran = self.checkout.call("kind")
        self.assertEqual((ran.status, ran.out, ran.err), (0, b"proved\n", b""))

    def assert_checkout_has_libraries(self):
        """Each library of the program is in the checkout, built of the text there."""
        for crate in ("low", "left", "right", "above"):
            stamp = self.checkout.top / "crates" / crate / "out" / "rlib" / "stamp"
            self.assertEqual(stamp.read_text(), self.checkout.source(crate).read_text())

    def start_and_stop(self, number):
        """Starts to prove, and stops it by a signal while the crates above the first one are built, `right` among them."""
        held = ("hold.lib.left", "hold.lib.right")
        for name in held:
            self.checkout.tell(name)
        command = self.checkout.start("--prove")
        self.checkout.wait_for_call("lib", "right")
        os.kill(command.pid, number)
        out, err = command.communicate(timeout=60)
        if number != signal.SIGKILL:
            self.assert_nothing_runs()
        for name in held:
            self.checkout.take_back(name)
        return command.returncode, out, err


class Proves(ProveTest):
    """What proving does."""

    def test_says_each_crate_with_its_number(self):
        ran = self.prove()
        self.assertEqual((ran.status, ran.out), (0, b""), ran.err)
        lines = ran.err.splitlines(keepends=True)
        found = [LINE.fullmatch(line) for line in lines[:5]]
        self.assertTrue(all(found), ran.err)
        self.assertEqual([int(it[2]) for it in found], [1, 2, 3, 4, 5])
        self.assertEqual({it[1] for it in found}, {b"low", b"left", b"right", b"above", b"pc_cli"})
        self.assertEqual(lines[5:], [b"rcap: the proved program is built, in 0 minutes\n"])
        self.assert_proved()

    def test_longest_chain_first(self):
        one = {min(os.sched_getaffinity(0))}
        self.prove(preexec_fn=lambda: os.sched_setaffinity(0, one))
        built = self.checkout.calls("lib")
        self.assertEqual(built, ["low", "right", "above", "left"])

    def test_no_crate_before_its_libraries(self):
        self.checkout.tell("seconds.lib", "0.2")
        self.prove()
        calls = (self.checkout.stand_in / "calls").read_text().splitlines()
        for library, crate in (("low", "left"), ("low", "right"), ("right", "above"), ("above", "pc_cli"), ("left", "pc_cli")):
            begun = next(at for at, line in enumerate(calls) if line in (f"lib {crate}", f"run {crate}"))
            self.assertLess(calls.index(f"built {library}"), begun)
        self.assertNotIn("lib other", calls)

    def test_a_second_time_calls_no_kit(self):
        self.prove()
        self.checkout.forget_calls()
        ran = self.prove()
        self.assertEqual((ran.status, ran.err), (0, b"rcap: the proved program of exactly these sources is there\n"))
        self.assertEqual(self.checkout.calls("lib") + self.checkout.calls("run"), [])

    def test_leaves_no_copies(self):
        self.prove()
        self.assertEqual(list((self.checkout.room / "home" / ".cache").iterdir()), [])
        self.assertEqual(list(self.checkout.temporary.iterdir()), [])

    def test_without_a_home(self):
        environment = self.checkout.environment()
        del environment["HOME"]
        self.assertEqual(self.prove(environment=environment).status, 0)
        self.assertEqual(list(self.checkout.temporary.iterdir()), [])
        self.assert_proved()

    def test_checkout_has_the_libraries(self):
        self.prove()
        self.assert_checkout_has_libraries()

    def test_version_says_it(self):
        self.prove()
        program = self.checkout.call("--version").out.splitlines()[2]
        self.assertEqual(program, b"program  proved of exactly these sources, with the kit stand-in 1")
        self.checkout.source("low").write_text("another text\n")
        program = self.checkout.call("--version").out.splitlines()[2]
        self.assertEqual(program, b"program  proved of other sources; ./rcap --prove builds it of these")


class Interrupted(ProveTest):
    """Proving that was stopped, or that failed, goes on where it was."""

    def test_signals(self):
        for number in (signal.SIGINT, signal.SIGTERM, signal.SIGHUP):
            status, out, err = self.start_and_stop(number)
            self.assertEqual((status, out), (128 + number, b""))
            self.assertIn(b"rcap: interrupted; what is proved is kept in ", err)
            self.checkout.forget_calls()
        ran = self.prove()
        self.assertEqual(ran.status, 0, ran.err)
        self.assertRegex(ran.err, rb"\Arcap: \d of 5 crates are proved already\n")
        self.assertNotIn("low", self.checkout.calls("lib"))
        self.assert_proved()

    def test_killed(self):
        status, _, _ = self.start_and_stop(signal.SIGKILL)
        self.assertEqual(status, -signal.SIGKILL)
        ran = self.prove()
        self.assertEqual(ran.status, 0, ran.err)
        self.assertEqual(self.checkout.calls("lib").count("low"), 1)
        self.assert_proved()

    def test_half_proved_crate_goes_on_in_its_copy(self):
        self.start_and_stop(signal.SIGTERM)
        cache = self.checkout.room / "home" / ".cache" / "rcap"
        begun = {it.parent.parent.parent for it in cache.glob("*/copy-*/crates/right/out/incremental")}
        self.assertEqual(len(begun), 1)
        self.checkout.tell("fail.lib.right")
        self.prove()
        self.assertEqual({it.parent.parent.parent for it in cache.glob("*/copy-*/crates/right/out/incremental")}, begun)

    def test_crate_that_fails(self):
        self.checkout.tell("fail.lib.right")
        ran = self.prove()
        self.assert_cannot_answer(ran, b"rcap: right is not proved: rt lib ended with 1\nrcap:   a goal is open\n")
        self.assertEqual(self.checkout.calls("run"), [])
        self.checkout.take_back("fail.lib.right")
        self.checkout.forget_calls()
        self.assertEqual(self.prove().status, 0)
        self.assertNotIn("low", self.checkout.calls("lib"))
        self.assert_proved()

    def test_program_that_fails(self):
        for name in ("fail.run", "silent.run"):
            self.checkout.tell(name)
            self.assert_cannot_answer(self.prove(), b"rcap: the program is not proved: rt run ended with ")
            self.checkout.take_back(name)
        self.assert_answered(self.checkout.call("kind"), 0, b"unproved\n")

    def test_interrupt_after_an_edit(self):
        self.prove()
        self.checkout.source("low").write_text("another text\n")
        self.checkout.forget_calls()
        self.start_and_stop(signal.SIGTERM)
        cache = self.checkout.room / "home" / ".cache" / "rcap"
        self.checkout.tell("fail.run")
        self.prove()
        stamps = [it.read_text() for it in cache.glob("*/copy-*/crates/low/out/rlib/stamp")]
        self.assertEqual(set(stamps), {"another text\n"})
        self.checkout.take_back("fail.run")
        self.prove()
        self.assertEqual(self.checkout.calls("lib").count("low"), 1)
        self.assert_checkout_has_libraries()
        self.assert_proved()

    def test_edit_after_an_interrupt(self):
        self.start_and_stop(signal.SIGTERM)
        self.checkout.source("low").write_text("another text\n")
        self.checkout.forget_calls()
        self.assertEqual(self.prove().status, 0)
        self.assertEqual(sorted(self.checkout.calls("lib")), ["above", "left", "low", "right"])
        self.assert_proved()

    def test_handles_that_go_after_an_interrupt(self):
        self.start_and_stop(signal.SIGTERM)
        (self.checkout.top / "HANDLES").unlink()
        ran = self.prove()
        self.assertEqual(ran.status, 0, ran.err)
        self.assert_proved()


class SideBySide(ProveTest):
    """Calls while one proves."""

    def test_answers_come_without_proofs(self):
        self.checkout.tell("hold.lib")
        command = self.checkout.start("--prove")
        self.checkout.wait_for_call("lib")
        self.assert_answered(self.checkout.call("kind"), 0, b"unproved\n")
        self.assert_answered(self.checkout.call("status", "7"), 7, b"out\n", b"SRC:1:1: no rule\n")
        self.checkout.take_back("hold.lib")
        command.communicate(timeout=60)
        self.assertEqual(command.returncode, 0)
        self.assert_proved()

    def test_a_second_one_waits(self):
        self.checkout.tell("hold.lib")
        first = self.checkout.start("--prove")
        self.checkout.wait_for_call("lib")
        second = self.checkout.start("--prove")
        self.assertEqual(second.stderr.readline(), b"rcap: another ./rcap --prove is at work here; waiting for it\n")
        self.checkout.take_back("hold.lib")
        first.communicate(timeout=60)
        err = second.communicate(timeout=60)[1]
        self.assertEqual((first.returncode, second.returncode), (0, 0))
        self.assertEqual(err, b"rcap: the proved program of exactly these sources is there\n")
        self.assertEqual(self.checkout.calls("run"), ["pc_cli"])


class OfTheseSources(ProveTest):
    """The proved program answers only for the sources that it was proved of."""

    def test_edit_and_back(self):
        self.prove()
        source = self.checkout.source("above")
        text = source.read_text()
        source.write_text("another text\n")
        self.assert_answered(self.checkout.call("kind"), 0, b"unproved\n")
        source.write_text(text)
        self.checkout.forget_calls()
        self.assert_proved()
        self.assertFalse((self.checkout.stand_in / "calls").exists())

    def test_edit_with_the_times_and_the_size_of_before(self):
        self.prove()
        source = self.checkout.source("low")
        times = source.stat()
        source.write_text(source.read_text().replace("text", "TEXT"))
        os.utime(source, ns=(times.st_atime_ns, times.st_mtime_ns))
        self.assert_answered(self.checkout.call("kind"), 0, b"unproved\n")

    def test_new_and_lost_files(self):
        self.prove()
        more = self.checkout.source("low").parent / "more.rt"
        more.write_text("more\n")
        self.assert_answered(self.checkout.call("kind"), 0, b"unproved\n")
        more.unlink()
        self.assert_proved()
        self.checkout.source("right").rename(more)
        self.assert_answered(self.checkout.call("kind"), 0, b"unproved\n")

    def test_file_with_another_name(self):
        self.prove()
        source = self.checkout.source("right")
        source.rename(source.with_name("other.rt"))
        self.assert_answered(self.checkout.call("kind"), 0, b"unproved\n")
        source.with_name("other.rt").rename(source)
        self.assert_proved()

    def test_file_that_moves_to_another_crate(self):
        self.prove()
        low, left = self.checkout.source("low").parent / "m.rt", self.checkout.source("left").parent / "m.rt"
        low.write_text("more\n")
        self.checkout.call("kind")
        low.rename(left)
        self.checkout.call("kind")
        self.assertEqual(len(self.checkout.calls("try")), 2)

    def test_program_that_was_written_over(self):
        self.prove()
        program = self.checkout.top / "out" / "proved" / "rcap"
        program.write_text(program.read_text().replace("proved", "forged"))
        self.assert_answered(self.checkout.call("kind"), 0, b"unproved\n")

    def test_moved_checkout(self):
        self.prove()
        moved = self.checkout.room / "moved"
        self.checkout.top.rename(moved)
        self.checkout.top = moved
        self.assert_proved()

    def test_copied_checkout(self):
        self.prove()
        copied = self.checkout.room / "copied"
        subprocess.run(["cp", "-r", self.checkout.top, copied], check=True)
        self.checkout.top = copied
        self.assert_proved()

    def test_edit_while_it_proves(self):
        for back in (False, True):
            self.checkout.tell("hold.lib")
            command = self.checkout.start("--prove")
            self.checkout.wait_for_call("lib")
            source = self.checkout.source("right")
            text = source.read_text()
            source.write_text(f"another {text}")
            if back:
                source.write_text(text)
            self.checkout.take_back("hold.lib")
            err = command.communicate(timeout=60)[1]
            self.assertEqual(command.returncode, 125)
            self.assertIn(b"rcap: the sources were changed while they were proved: call again", err)
            self.assert_answered(self.checkout.call("kind"), 0, b"unproved\n")
            self.checkout.forget_calls()
        self.assertEqual(self.prove().status, 0)
        self.assert_proved()

    def test_edit_of_another_crate_while_it_proves(self):
        self.checkout.tell("hold.lib")
        command = self.checkout.start("--prove")
        self.checkout.wait_for_call("lib")
        self.checkout.source("other").write_text("another text\n")
        crates = self.checkout.top / "crates.txt"
        crates.write_text(crates.read_text().replace("other: low", "other: low left"))
        self.checkout.take_back("hold.lib")
        err = command.communicate(timeout=60)[1]
        self.assertEqual(command.returncode, 0, err)
        self.assert_proved()

    def test_start_is_quick(self):
        self.prove()
        self.checkout.call("kind")
        # The listing is compared, and nothing is read: no Python is started.
        environment = self.checkout.environment()
        tools = self.checkout.room / "tools"
        tools.mkdir()
        (tools / "python3").write_text("#!/bin/sh\nexit 1\n")
        (tools / "python3").chmod(0o755)
        environment["PATH"] = f"{tools}:{environment['PATH']}"
        ran = self.checkout.call("kind", environment=environment)
        self.assertEqual((ran.status, ran.out, ran.err), (0, b"proved\n", b""))
