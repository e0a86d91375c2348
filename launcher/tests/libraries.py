"""Tests of libraries that are handed from one copy to another."""

import errno
import pathlib
import shutil
import sys
import tempfile
import unittest
from unittest import mock

from checkouts import TOP

sys.path.insert(0, str(TOP / "launcher"))

import copies  # noqa: E402


class Libraries(unittest.TestCase):
    """A library is given whole, or not at all."""

    def setUp(self):
        room = tempfile.TemporaryDirectory(prefix="launcher-test-")
        self.addCleanup(room.cleanup)
        self.place, self.to = (pathlib.Path(room.name) / name for name in ("place", "to"))
        self.library(self.place, "stamp of now")

    def library(self, place, stamp):
        """Puts a library of one file into a copy."""
        folder = copies.library(place, "low")
        (folder / "low.rlib").mkdir(parents=True)
        (folder / "low.rlib" / "format").write_text(f"built for the {stamp}")
        (folder / "stamp").write_text(stamp)
        return folder

    def assert_has(self, *files):
        """The other copy has exactly these files of the library."""
        out = copies.library(self.to, "low").parent
        found = sorted(str(it.relative_to(out)) for it in out.rglob("*") if it.is_file())
        self.assertEqual(found, sorted(files))

    def hand(self):
        copies.hand_library("low", self.place, self.to)

    def test_whole(self):
        self.hand()
        self.assert_has("rlib/low.rlib/format", "rlib/stamp")

    def test_another_one_is_replaced(self):
        taken = self.library(self.to, "stamp of before")
        (taken / "low.rlib" / "more").write_text("more")
        self.hand()
        self.assert_has("rlib/low.rlib/format", "rlib/stamp")
        self.assertEqual((taken / "low.rlib" / "format").read_text(), "built for the stamp of now")

    def test_the_same_one_stays(self):
        taken = self.library(self.to, "stamp of now")
        (taken / "low.rlib" / "more").write_text("more")
        self.hand()
        self.assert_has("rlib/low.rlib/format", "rlib/low.rlib/more", "rlib/stamp")

    def test_file_that_cannot_be_copied(self):
        def copy_stamps(one, other):
            if pathlib.Path(one).name != "stamp":
                raise OSError(errno.ENOSPC, "the disk is full")
            shutil.copyfile(one, other)

        with mock.patch.object(copies, "link_or_copy", copy_stamps):
            self.hand()
        self.assert_has()

    def test_what_a_call_left_that_was_ended_while_it_copied(self):
        left = copies.library(self.to, "low").with_name("rlib.new")
        left.mkdir(parents=True)
        (left / "lost").write_text("a part")
        self.hand()
        self.assert_has("rlib/low.rlib/format", "rlib/stamp")
