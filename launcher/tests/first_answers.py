"""Tests of answers by a build without proofs."""

import os
import pty
import select
import signal
import subprocess
import threading
import time
import unittest

from checkouts import SECONDS_TO_WAIT, TOP, Checkout

# The number of minutes depends on the machine's processors; tests/schedules.py tests it.
NOTICE = rb"\Arcap: answered by a build without its proofs; \./rcap --prove builds the proved program once, in about \d+ minutes\n"
USAGE = b"usage: rcap COMMAND ARGUMENT ...\n"


class LauncherTest(unittest.TestCase):
    """A test in a small checkout."""

    folder = "checkout"

    def setUp(self):
        self.checkout = Checkout(self.folder)
        self.addCleanup(self.checkout.end)

    def assert_answered(self, ran, status, out, err=b""):
        """The answer is the program's, after the launcher's one line."""
        self.assertRegex(ran.err, NOTICE)
        self.assertEqual((ran.status, ran.out, ran.err.partition(b"\n")[2]), (status, out, err))

    def assert_cannot_answer(self, ran, *parts):
        """The launcher ends with its own status, and all its lines are known as its own."""
        self.assertEqual((ran.status, ran.out), (125, b""), ran.err)
        for line in ran.err.splitlines():
            self.assertTrue(line.startswith(b"rcap: "), line)
        for part in parts:
            self.assertIn(part, ran.err)

    def assert_nothing_runs(self):
        """What a call started has ended."""
        end = time.monotonic() + 10
        while self.checkout.processes() and time.monotonic() < end:
            time.sleep(0.05)
        self.assertEqual(self.checkout.processes(), [])


class Answers(LauncherTest):
    """Answers, and what they cost."""

    def test_status_output_and_line_are_the_programs(self):
        for status in (*range(13), 15, 77):
            ran = self.checkout.call("status", str(status))
            self.assert_answered(ran, status, b"out\n", b"SRC:1:1: no rule\n")

    def test_program_without_words_is_called(self):
        self.assert_answered(self.checkout.call(), 2, b"", USAGE)

    def test_second_call_builds_nothing(self):
        self.checkout.call("kind")
        self.checkout.forget_calls()
        self.assert_answered(self.checkout.call("kind"), 0, b"unproved\n")
        self.assertEqual(self.checkout.calls("try"), [])

    def test_edit_builds_anew(self):
        self.checkout.call("kind")
        self.checkout.source("low").write_text("another text\n")
        self.assert_answered(self.checkout.call("kind"), 0, b"unproved\n")
        self.assertEqual(self.checkout.calls("try"), ["pc_cli", "pc_cli"])

    def test_edit_with_the_times_and_the_size_of_before_builds_anew(self):
        source = self.checkout.source("low")
        self.checkout.call("kind")
        times = source.stat()
        source.write_text(source.read_text().replace("text", "TEXT"))
        os.utime(source, ns=(times.st_atime_ns, times.st_mtime_ns))
        self.assertEqual(source.stat().st_size, times.st_size)
        self.checkout.call("kind")
        self.assertEqual(len(self.checkout.calls("try")), 2)

    def test_new_times_alone_build_nothing(self):
        self.checkout.call("kind")
        for crate in ("low", "pc_cli"):
            os.utime(self.checkout.source(crate))
        (self.checkout.top / "crates.txt").touch()
        self.assert_answered(self.checkout.call("kind"), 0, b"unproved\n")
        self.assertEqual(len(self.checkout.calls("try")), 1)

    def test_edit_of_a_crate_that_is_not_the_programs_builds_nothing(self):
        self.checkout.call("kind")
        self.checkout.source("other").write_text("another text\n")
        self.assert_answered(self.checkout.call("kind"), 0, b"unproved\n")
        self.assertEqual(len(self.checkout.calls("try")), 1)

    def test_line_of_crates_and_handles_count(self):
        self.checkout.call("kind")
        crates = self.checkout.top / "crates.txt"
        crates.write_text(crates.read_text().replace("left: low", "left: low right"))
        self.checkout.call("kind")
        self.assertEqual(len(self.checkout.calls("try")), 2)
        # A library of the kit's, which has no text here.
        crates.write_text(crates.read_text().replace("right: low", "right: low clap"))
        self.checkout.call("kind")
        self.assertEqual(len(self.checkout.calls("try")), 3)
        (self.checkout.top / "HANDLES").write_text("Handles allowed: Net.\n")
        self.checkout.call("kind")
        self.assertEqual(len(self.checkout.calls("try")), 4)

    def test_program_that_was_written_over_does_not_answer(self):
        self.checkout.call("kind")
        program = self.checkout.top / "out" / "unproved" / "rcap"
        program.write_text(program.read_text().replace("unproved", "another"))
        self.assert_answered(self.checkout.call("kind"), 0, b"unproved\n")

    def test_calls_at_once_build_once(self):
        self.checkout.tell("hold.try")
        commands = [self.checkout.start("kind") for _ in range(3)]
        self.checkout.wait_for_call("try")
        self.checkout.take_back("hold.try")
        for command in commands:
            out, err = command.communicate(timeout=60)
            self.assertEqual((command.returncode, out), (0, b"unproved\n"), err)
        self.assertEqual(len(self.checkout.calls("try")), 1)

    def test_terminal_shows_the_wait(self):
        for lines in (2, 1):
            terminal, streams = pty.openpty()
            ran = self.checkout.call("kind", stderr=streams)
            self.assertEqual(select.select([terminal], [], [], SECONDS_TO_WAIT)[0], [terminal], "nothing is said")
            said = os.read(terminal, 10_000).splitlines()
            os.close(streams)
            os.close(terminal)
            self.assertEqual((ran.status, ran.out, len(said)), (0, b"unproved\n", lines), said)
            self.assertTrue(all(line.startswith(b"rcap: ") for line in said))

    def test_nothing_is_left_but_what_is_kept(self):
        self.checkout.call("kind")
        self.assertEqual(list(self.checkout.temporary.iterdir()), [])
        self.assertEqual(self.checkout.processes(), [])
        kept = self.checkout.top / "out" / "unproved"
        self.assertEqual(sorted(it.name for it in kept.iterdir()), ["listing", "lock", "made_of", "notice", "rcap"])
        self.assertEqual(list(self.checkout.top.rglob("__pycache__")), [])


class Streams(LauncherTest):
    """The program has the caller's words, folder and streams."""

    def setUp(self):
        super().setUp()
        self.checkout.call("kind")

    def answer(self, *words, **how):
        ran = self.checkout.call(*words, **how)
        self.assertRegex(ran.err, NOTICE)
        return ran

    def test_names_of_files(self):
        names = ("plain", "with two  blanks", "-begins", "ends\n", "below/it", "ünï", "star*")
        (self.checkout.work / "below").mkdir()
        for name in names:
            path = self.checkout.work / name
            path.write_text(f"text of {name}")
            for word in (name, path, f"./{name}"):
                self.assert_answered(self.checkout.call("check", word), 0, f"text of {name}".encode())

    def test_name_that_is_no_text(self):
        path = os.fsencode(self.checkout.work) + b"/\xff"
        with open(path, "wb") as file:
            file.write(b"\xfe")
        self.assert_answered(self.checkout.call("check", b"\xff"), 0, b"\xfe")
        self.assert_answered(self.checkout.call("check", b"gone\xff"), 9, b"", b"gone\xff: cannot be read\n")

    def test_empty_and_odd_words(self):
        words = ("", "a b", "-x", "--prove", "--help", "*", "\n", "")
        self.assert_answered(self.checkout.call("words", *words), 0, "".join(f"<{it}>" for it in words).encode())
        self.assert_answered(self.checkout.call(""), 2, b"", USAGE)
        self.assert_answered(self.checkout.call("--prove", "more"), 2, b"", USAGE)
        self.assert_answered(self.checkout.call("check", ""), 9, b"", b": cannot be read\n")

    def test_named_pipe(self):
        pipe = self.checkout.work / "pipe"
        os.mkfifo(pipe)
        writer = threading.Thread(target=lambda: pipe.write_text("through a pipe"))
        writer.start()
        self.assert_answered(self.checkout.call("check", "pipe"), 0, b"through a pipe")
        writer.join()

    def test_standard_input(self):
        for words in (("check", "/dev/stdin"), ("input",)):
            self.assert_answered(self.checkout.call(*words, data=b"from before"), 0, b"from before")

    def test_standard_input_of_the_first_call(self):
        other = Checkout()
        self.addCleanup(other.end)
        self.assert_answered(other.call("check", "/dev/stdin", data=b"from before"), 0, b"from before")

    def test_more_than_a_stream_of_the_kit_holds(self):
        self.assert_answered(self.checkout.call("large", "3000000"), 0, b"x" * 3_000_000)

    def test_output_that_is_full_or_closed(self):
        for redirected in (">/dev/full", ">&-"):
            ran = self.checkout.call("-c", f'exec "$0" words a {redirected}', self.checkout.top / "rcap", launcher="bash")
            self.assertRegex(ran.err, NOTICE)
            self.assertEqual((ran.status, ran.out), (10, b""))

    def test_standard_error_that_is_closed(self):
        ran = self.checkout.call("-c", 'exec "$0" status 1 2>&-', self.checkout.top / "rcap", launcher="bash")
        self.assertEqual((ran.status, ran.out, ran.err), (1, b"out\n", b""))

    def test_reader_that_goes_away(self):
        script = 'set -o pipefail; "$0" large 3000000 | head -c 1'
        ran = self.checkout.call("-c", script, self.checkout.top / "rcap", launcher="bash")
        self.assertEqual((ran.status, ran.out), (141, b"x"))


class Refusals(LauncherTest):
    """Calls that end without an answer."""

    def test_sources_that_do_not_compile(self):
        self.checkout.tell("fail.try")
        for _ in range(2):
            ran = self.checkout.call("kind")
            self.assert_cannot_answer(ran, b"rcap: rt try built no program, and ended with status 1:\n", b"rcap:   a goal is open\n")
        self.checkout.take_back("fail.try")
        self.assert_answered(self.checkout.call("kind"), 0, b"unproved\n")

    def test_no_kit(self):
        self.assert_cannot_answer(self.call_with_tools("python3"), b"rcap: rt does not start")

    def test_no_python(self):
        self.assert_cannot_answer(self.call_with_tools(), b"rcap: there is no python3 on the path\n")

    def call_with_tools(self, *more):
        """A call with few commands on the path."""
        tools = self.checkout.room / "tools"
        tools.mkdir()
        for name in ("bash", "cat", "cmp", "find", "readlink", "rm", *more):
            found = subprocess.run(["bash", "-c", f"command -v {name}"], capture_output=True, text=True, check=True)
            (tools / name).symlink_to(os.path.realpath(found.stdout.strip()))
        return self.checkout.call("kind", environment=self.checkout.environment(PATH=str(tools)))

    def test_kit_that_runs_another_file(self):
        self.checkout.tell("other.try")
        self.assert_cannot_answer(self.checkout.call("kind"), b"./rcap --prove")
        self.assert_nothing_runs()

    def test_sources_that_change_meanwhile(self):
        self.checkout.tell("hold.try")
        command = self.checkout.start("kind")
        self.checkout.wait_for_call("try")
        self.checkout.source("low").write_text("another text\n")
        self.checkout.take_back("hold.try")
        err = command.communicate(timeout=60)[1]
        self.assertEqual((command.returncode, err), (125, b"rcap: the sources were changed while the program was built: call again\n"))
        self.assert_answered(self.checkout.call("kind"), 0, b"unproved\n")

    def test_interrupt(self):
        self.checkout.tell("hold.try")
        command = self.checkout.start("kind")
        self.checkout.wait_for_call("try")
        os.killpg(command.pid, signal.SIGINT)
        out = command.communicate(timeout=60)[0]
        self.assertIn(command.returncode, (130, -signal.SIGINT))
        self.assertEqual(out, b"")
        self.assert_nothing_runs()
        self.assertEqual([it.name for it in (self.checkout.top / "out" / "unproved").iterdir()], ["lock"])

    def test_no_whole_checkout(self):
        self.checkout.source("pc_cli").unlink()
        self.checkout.source("pc_cli").parent.rmdir()
        self.checkout.source("pc_cli").parent.parent.rmdir()
        self.assert_cannot_answer(self.checkout.call("kind"), b"this is no whole checkout")
        (self.checkout.top / "crates.txt").unlink()
        self.assert_cannot_answer(self.checkout.call("kind"), b"crates.txt: No such file or directory")


class OwnAnswers(LauncherTest):
    """What the launcher answers itself."""

    def test_help(self):
        text = (TOP / "launcher" / "help.txt").read_bytes()
        self.assertTrue(text.startswith(b"usage: rcap COMMAND ARGUMENT ...\n"))
        for word in ("--help", "-h", "help"):
            ran = self.checkout.call(word)
            self.assertEqual((ran.status, ran.out, ran.err), (0, text, b""))
        self.assertEqual(self.checkout.calls("try"), [])

    def test_help_names_each_status(self):
        text = (TOP / "launcher" / "help.txt").read_text().partition("The exit status")[2]
        named = [int(line.split()[0]) for line in text.splitlines()[1:]]
        self.assertEqual(named, [*range(13), 15, 125])

    def test_output_that_is_full_or_closed(self):
        for word in ("--help", "-h", "help", "--version"):
            for redirected in (">/dev/full", ">&-"):
                ran = self.checkout.call("-c", f'exec "$0" {word} {redirected}', self.checkout.top / "rcap", launcher="bash")
                self.assertEqual((ran.status, ran.out, ran.err), (10, b"", b""))

    def test_version_before_and_after(self):
        ran = self.checkout.call("--version")
        self.assertEqual((ran.status, ran.err), (0, b""))
        lines = ran.out.decode().splitlines()
        self.assertEqual(lines[1:], ["kit      stand-in 1", "program  not built; ./rcap --prove builds the proved one"])
        self.checkout.call("kind")
        lines = self.checkout.call("--version").out.decode().splitlines()
        self.assertTrue(lines[2].startswith("program  built of exactly these sources without their proofs"))

    def test_version_says_the_commit(self):
        git = ["git", "-c", "user.name=n", "-c", "user.email=e", "-C", str(self.checkout.top)]
        ran = self.checkout.call("--version")
        self.assertEqual(ran.out.splitlines()[0], b"commit   not known: this is no checkout of git's")
        for words in (["init", "-q"], ["add", "crates"], ["commit", "-q", "-m", "first"]):
            subprocess.run([*git, *words], check=True)
        said = subprocess.run([*git, "rev-parse", "--short", "HEAD"], capture_output=True, check=True).stdout
        ran = self.checkout.call("--version")
        self.assertEqual(ran.out.splitlines()[0], b"commit   " + said.strip())
        self.checkout.source("low").write_text("another text\n")
        ran = self.checkout.call("--version")
        self.assertEqual(ran.out.splitlines()[0], b"commit   " + said.strip() + b"-dirty")
