"""Tests of checkouts and machines in which something is out of the way."""

import os
import shutil
import subprocess

from checkouts import NOBODY
from first_answers import LauncherTest

# A part of the system in which a disk can be added that no other process sees.
UNSHARED = ("--mount", *([] if os.geteuid() == 0 else ["--map-root-user"]))


def as_nobody():
    """How a call is made by a user whom permissions bind, if root makes the tests."""
    return {"user": NOBODY, "group": NOBODY, "extra_groups": []} if os.geteuid() == 0 else {}


class Blanks(LauncherTest):
    """A checkout in a folder with an odd name."""

    folder = " a  checkout's $HOME\n*"

    def test_all(self):
        self.assert_answered(self.checkout.call("kind"), 0, b"unproved\n")
        self.assert_answered(self.checkout.call("kind"), 0, b"unproved\n")
        ran = self.checkout.call("--prove")
        self.assertEqual(ran.status, 0, ran.err)
        ran = self.checkout.call("kind")
        self.assertEqual((ran.status, ran.out, ran.err), (0, b"proved\n", b""))
        self.assertEqual(self.checkout.call("--version").status, 0)


class Places(LauncherTest):
    """Links, and folders and disks that take nothing."""

    def close(self, *folders):
        """Has folders take no files."""
        for folder in folders:
            subprocess.run(["chmod", "-R", "a-w", folder], check=True)

    def open_rest(self):
        """Lets anybody write what is not closed."""
        for folder in (self.checkout.work, self.checkout.temporary, self.checkout.stand_in):
            folder.chmod(0o777)

    def test_link_to_the_launcher(self):
        first, second = self.checkout.work / "first", self.checkout.work / "second"
        first.symlink_to(self.checkout.top / "rcap")
        second.symlink_to("first")
        for link in (first, second, "./second"):
            self.assert_answered(self.checkout.call("kind", launcher=link), 0, b"unproved\n")

    def test_launcher_on_the_path(self):
        path = f"{self.checkout.top}:{self.checkout.environment()['PATH']}"
        environment = self.checkout.environment(PATH=path)
        ran = self.checkout.call("-c", "rcap kind", launcher="bash", environment=environment)
        self.assert_answered(ran, 0, b"unproved\n")

    def test_launcher_alone(self):
        shutil.rmtree(self.checkout.top / "launcher")
        for words in (("kind",), ("--help",), ("--version",), ("--prove",)):
            self.assert_cannot_answer(self.checkout.call(*words), b"launcher is not whole\n")

    def test_checkout_that_takes_no_files(self):
        self.close(self.checkout.top)
        self.open_rest()
        for _ in range(2):
            self.assert_answered(self.checkout.call("status", "3", **as_nobody()), 3, b"out\n", b"SRC:1:1: no rule\n")
        self.assertEqual(list(self.checkout.temporary.iterdir()), [])
        self.assertFalse((self.checkout.top / "out").exists())
        ran = self.checkout.call("--prove", **as_nobody())
        self.assert_cannot_answer(ran, b"rcap: the proved program cannot be kept: ", b"out: Permission denied\n")

    def test_checkout_that_takes_no_files_any_more(self):
        self.assertEqual(self.checkout.call("--prove").status, 0)
        self.close(self.checkout.top)
        ran = self.checkout.call("kind", **as_nobody())
        self.assertEqual((ran.status, ran.out, ran.err), (0, b"proved\n", b""))

    def test_temporary_folder_that_takes_no_files(self):
        self.close(self.checkout.temporary)
        self.checkout.top.chmod(0o777)
        self.assert_answered(self.checkout.call("kind", **as_nobody()), 0, b"unproved\n")

    def test_no_place_to_build_in(self):
        self.open_rest()
        self.close(self.checkout.top)
        # Under this limit no file takes a byte, so no folder is taken as the temporary one.
        script = 'ulimit -f 0; exec "$0" kind'
        ran = self.checkout.call("-c", script, self.checkout.top / "rcap", launcher="bash", **as_nobody())
        self.assert_cannot_answer(ran, b"rcap: there is no place to build the program in\n")

    def test_no_place_to_prove_in(self):
        self.checkout.top.chmod(0o777)
        home = self.checkout.room / "home"
        home.mkdir()
        self.close(home, self.checkout.temporary)
        ran = self.checkout.call("--prove", **as_nobody())
        self.assert_cannot_answer(ran, b"rcap: there is no place to prove in\n")


class FullDisks(LauncherTest):
    """A disk that is full: a small one of its own if the system gives one, or else files that take no byte."""

    def on_full_disk(self, folder, *words, **more):
        """A call while a folder is on a full disk."""
        folder.mkdir(parents=True, exist_ok=True)
        if not self.has_mounts():
            return self.checkout.call("-c", 'ulimit -f 0; exec "$0" "$@"', self.checkout.top / "rcap", *words, launcher="bash", **more)
        script = (
            'mount -t tmpfs -o size=64k none "$1" && head -c 1000000 /dev/zero >"$1/filled" 2>/dev/null; '
            'shift; exec "$0" "$@"'
        )
        return self.checkout.call(*UNSHARED, "bash", "-c", script, self.checkout.top / "rcap", folder, *words, launcher="unshare", **more)

    def has_mounts(self):
        """Whether this user may have a small disk."""
        words = ["unshare", *UNSHARED, "mount", "-t", "tmpfs", "-o", "size=64k", "none", self.checkout.temporary]
        try:
            return subprocess.run(words, capture_output=True, check=False).returncode == 0
        except OSError:
            return False

    def reasons(self):
        """What the lines say of a disk of its own."""
        return [b"rcap: only 0 MB are free at "] if self.has_mounts() else []

    def test_first_answer(self):
        ran = self.on_full_disk(self.checkout.top / "out", "kind")
        self.assert_cannot_answer(ran, *self.reasons())
        self.assert_answered(self.checkout.call("kind"), 0, b"unproved\n")

    def test_copies(self):
        cache = self.checkout.room / "cache"
        ran = self.on_full_disk(cache, "--prove", environment=self.checkout.environment(XDG_CACHE_HOME=str(cache)))
        self.assert_cannot_answer(ran, *self.reasons())

    def test_proved_program(self):
        ran = self.on_full_disk(self.checkout.top / "out", "--prove")
        self.assert_cannot_answer(ran, *self.reasons())
        self.assert_answered(self.checkout.call("kind"), 0, b"unproved\n")
