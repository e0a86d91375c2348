"""Tests of the order in which crates are proved, and of the minutes that are said."""

import sys
import unittest
from unittest import mock

from checkouts import TOP

sys.path.insert(0, str(TOP / "launcher"))

import schedule  # noqa: E402
from measured import SECONDS  # noqa: E402
from sources import crates_of_program  # noqa: E402

# `below` has two crates above it, and `top` one of them below.
USES = {"below": [], "long": ["below"], "short": ["below"], "top": ["long"]}
TIMES = {"below": 10, "long": 20, "short": 5, "top": 1}


@mock.patch.dict(schedule.SECONDS, TIMES)
class Schedules(unittest.TestCase):
    """Worked out by hand."""

    def left(self, at_once, built=(), running=None):
        return schedule.seconds_left(USES, built, running or {}, at_once)

    def test_chains(self):
        self.assertEqual(schedule.chains(USES), {"below": 31, "long": 21, "short": 5, "top": 1})

    def test_order(self):
        self.assertEqual(schedule.in_order(USES), ["below", "long", "short", "top"])

    def test_seconds_from_nothing(self):
        self.assertEqual((self.left(1), self.left(2), self.left(4)), (36, 31, 31))

    def test_seconds_of_what_is_left(self):
        self.assertEqual(self.left(2, running={"below": 4}), 27)
        self.assertEqual(self.left(1, built=("below", "long")), 6)
        self.assertEqual(self.left(1, built=USES), 0)

    def test_crate_that_takes_longer_than_expected_may_end_soon(self):
        self.assertEqual(self.left(2, built=("below", "long", "short"), running={"top": 50}), 1)

    def test_minutes_are_scaled_to_the_processors(self):
        # 36 seconds with one processor and 31 with two or more, so that 62 minutes are 72 with one.
        measured = {"MEASURED_MINUTES": 62, "MEASURED_PROCESSORS": 2, "crates_of_program": lambda _: USES}
        with mock.patch.multiple(schedule, **measured):
            self.assertEqual([schedule.minutes_to_prove(TOP, number) for number in (1, 2, 4)], [72, 62, 62])


class Minutes(unittest.TestCase):
    """The number in the line of an answer without proofs, for the crates of this checkout."""

    def test_crates_that_were_measured_are_those_of_the_program(self):
        self.assertLessEqual(set(SECONDS), set(crates_of_program(TOP)))

    def test_fewer_processors_take_longer(self):
        found = [schedule.minutes_to_prove(TOP, number) for number in (1, 2, 4, 8)]
        self.assertEqual(found, sorted(found, reverse=True))
        self.assertGreater(found[0], found[2])
