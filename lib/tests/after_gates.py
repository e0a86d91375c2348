"""Tests of `lib/build --after-gate`, with a stand-in for the kit: it takes the libraries of the gate, or says why not."""

import os
import pathlib
import shutil
import signal
import subprocess
import sys
import tempfile
import time
import unittest

import built
import stand_in_kit

# Two libraries, one over the other, the crate that is built over both, and one that it does not use.
CRATES = "low:\nhigh:low\ntop:high low\nother:low\n"
LIBRARIES = ("low", "high", "other")

SECONDS_TO_WAIT = 60


class AfterGate(unittest.TestCase):
    """What is built over the libraries of a gate."""

    def setUp(self):
        folder = tempfile.TemporaryDirectory(prefix="lib-test-")
        self.addCleanup(folder.cleanup)
        self.room = pathlib.Path(folder.name)
        self.top = self.room / "top"
        self.top.mkdir()
        (self.top / "crates.txt").write_text(CRATES)
        for name in (*LIBRARIES, "top"):
            self.source(name).parent.mkdir(parents=True)
            self.source(name).write_text("a text\n")
        kit = self.room / "kit"
        kit.mkdir()
        (kit / "rtlib.py").write_text(stand_in_kit.RTLIB)
        (kit / "rt").write_text(stand_in_kit.RT)
        (kit / "rt").chmod(0o755)
        # As in the kit's own folder, `rt` on the path may be a link.
        (self.room / "bin").mkdir()
        (self.room / "bin" / "rt").symlink_to(kit / "rt")
        self.pass_time()
        for name in LIBRARIES:
            self.write_library(name)
            self.pass_time()

    def pass_time(self):
        """Later files have a later time."""
        time.sleep(0.02)

    def source(self, crate):
        return self.top / "crates" / crate / "src" / "lib.rt"

    def library(self, crate):
        return self.top / "crates" / crate / "out" / "rlib" / f"{crate}.rlib"

    def write_library(self, crate):
        """Puts a library where the gate does."""
        shutil.rmtree(self.library(crate), ignore_errors=True)
        self.library(crate).mkdir(parents=True)
        (self.library(crate) / "format").write_text(f"the library {crate}\n")

    def environment(self):
        return {**os.environ, "PATH": f"{self.room / 'bin'}:{os.environ['PATH']}", "STAND_IN": str(self.room)}

    def calls(self):
        """What `rt` was called for."""
        file = self.room / "calls"
        return file.read_text().splitlines() if file.exists() else []

    def words(self):
        """The call that builds the crate `top`."""
        return [sys.executable, "-ISB", built.LIB / "after_gate.py", self.top, "top"]

    def build(self):
        """Builds the crate `top`."""
        return built.run(self.words(), env=self.environment())

    def assert_not_taken(self, why):
        ran = self.build()
        self.assertEqual(ran.returncode, 1, ran.stderr)
        line = ran.stderr.decode().splitlines()[-1]
        self.assertTrue(line.startswith("lib: the gate's libraries are not taken: "), line)
        self.assertIn(why, line)
        self.assertEqual(self.stamps(), [])

    def stamps(self):
        return sorted(it.parents[2].name for it in self.top.glob("crates/*/out/rlib/stamp"))

    def test_takes_libraries(self):
        ran = self.build()
        self.assertEqual(ran.returncode, 0, ran.stderr)
        self.assertEqual(self.calls(), ["lib low over high low", "lib top over high low"])
        self.assertEqual(self.stamps(), [])

    def test_takes_them_twice(self):
        self.assertEqual((self.build().returncode, self.build().returncode), (0, 0))

    def test_takes_libraries_that_the_gate_has_kept(self):
        """The gate puts them here after the sources, and their files are from another day."""
        for name in LIBRARIES:
            os.utime(self.library(name) / "format", (0, 0))
        self.assertEqual(self.build().returncode, 0)

    def test_library_without_files(self):
        (self.library("high") / "format").unlink()
        self.assert_not_taken("the library of high is not there")

    def test_library_that_is_missing(self):
        shutil.rmtree(self.library("high"))
        self.assert_not_taken("the library of high is not there")
        self.assertEqual(self.calls(), [])

    def test_library_that_is_not_used_may_be_missing(self):
        shutil.rmtree(self.library("other"))
        self.assertEqual(self.build().returncode, 0)

    def test_source_that_changed(self):
        for change in (
            lambda source: source.write_text("another text\n"),
            lambda source: (source.parent / "more.rt").write_text("a text\n"),
            lambda source: source.rename(source.with_name("other.rt")),
            lambda source: source.with_name("other.rt").unlink(),
            lambda source: os.utime(source.parent / "more.rt", (0, 0)),
        ):
            self.write_library("low")
            self.pass_time()
            self.write_library("high")
            self.pass_time()
            change(self.source("high"))
            self.assert_not_taken("the library of high is older than its sources")
        self.assertEqual(self.calls(), [])

    def test_list_of_crates_that_changed(self):
        (self.top / "crates.txt").write_text(CRATES)
        self.assert_not_taken("is older than its sources")

    def test_library_that_was_built_later(self):
        self.write_library("low")
        self.assert_not_taken("the library of high is older than that of low, which it uses")

    def test_library_that_is_not_from_the_gate(self):
        stamp = self.library("low").with_name("stamp")
        stamp.write_text("stamp of low")
        ran = self.build()
        self.assertEqual((ran.returncode, self.calls()), (1, []))
        self.assertIn(b"the library of low has a stamp", ran.stderr)
        self.assertEqual(stamp.read_text(), "stamp of low")

    def test_crate_that_is_not_proved(self):
        (self.room / "fail").touch()
        self.assert_not_taken("rt lib ended with 1 over them")

    def test_signals_that_ask_for_the_end(self):
        """The stamps go, and nothing is said of the kit."""
        for number in (signal.SIGTERM, signal.SIGHUP, signal.SIGINT):
            (self.room / "hold").touch()
            command = self.start_with_default(number)
            self.wait_for_stamps()
            command.send_signal(number)
            self.assertNotEqual(command.wait(SECONDS_TO_WAIT), 0)
            self.assertEqual(self.stamps(), [])
            for name in ("hold", "calls"):
                (self.room / name).unlink()
            self.assertNotIn(b"lib: ", command.communicate()[1])

    def start_with_default(self, number):
        """Starts to build the crate. A signal that is ignored, as in a shell's background, is not ignored there."""
        how = {"env": self.environment(), "stdin": subprocess.DEVNULL, "stderr": subprocess.PIPE}
        return subprocess.Popen(self.words(), preexec_fn=lambda: signal.signal(number, signal.SIG_DFL), **how)

    def wait_for_stamps(self):
        """Waits until the kit is called over the libraries with their stamps."""
        end = time.monotonic() + SECONDS_TO_WAIT
        while not self.calls():
            self.assertLess(time.monotonic(), end, "the kit was not called")
            time.sleep(0.02)
        self.assertEqual(self.stamps(), ["high", "low"])

    def test_kit_with_other_stamps(self):
        (self.room / "other.stamps").touch()
        self.assert_not_taken("the kit proves low again in spite of its stamp")
        self.assertEqual(len(self.calls()), 1)

    def test_kit_without_the_module(self):
        (self.room / "kit" / "rtlib.py").unlink()
        self.assert_not_taken("rtlib.py")

    def test_kit_with_another_module(self):
        for text in ("", "this is no Python", "import sys\nsys.exit(2)\n", stand_in_kit.RTLIB.replace("def stamp", "def sum")):
            (self.room / "kit" / "rtlib.py").write_text(text)
            self.assert_not_taken("this kit is not as expected")
        self.assertEqual(self.calls(), [])

    def test_no_kit(self):
        (self.room / "bin" / "rt").unlink()
        (self.room / "bin" / "python3").symlink_to(sys.executable)
        ran = built.run(self.words(), env={"PATH": str(self.room / "bin")})
        self.assertEqual((ran.returncode, ran.stderr), (1, b"lib: the gate's libraries are not taken: there is no rt on the path\n"))

    def test_build_proves_what_it_cannot_take(self):
        """`lib/build --after-gate` goes on as without the word."""
        (self.top / "lib").mkdir()
        for name in ("build", "after_gate.py"):
            shutil.copy(built.LIB / name, self.top / "lib" / name)
        (self.top / "rcap").write_text('#!/bin/sh\necho "$@" >"$STAND_IN/rcap"\nexit 1\n')
        (self.top / "rcap").chmod(0o755)
        ran = subprocess.run([self.top / "lib" / "build", "--after-gate"], env=self.environment(), capture_output=True, check=False)
        self.assertEqual(ran.returncode, 1)
        self.assertIn(b"lib: the gate's libraries are not taken: ", ran.stderr)
        self.assertEqual((self.room / "rcap").read_text(), "--prove\n")
