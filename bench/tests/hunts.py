"""A hunt over a stand-in for the program, whose times are those of a formula."""

import random
import unittest

import composed
import genes
import hunting
import measuring
import sizes


class StandIn:
    """Measures nothing: a call takes its bytes, and as many bytes again as the names that each class takes over have."""

    def __init__(self):
        self.sources = []

    def found(self, command, described):
        """What a command takes."""
        self.sources.append(described)
        size = sizes.sizes_of(described).bytes
        amount = size + described.classes * composed.taken_over(described) * described.method_name
        return measuring.Found(command, described, amount, 0.0, size, 1.0, amount / 3e6, 0, 0)


# How many times its limit a source takes if it is the product of two sizes that makes it slow: the bytes alone of the largest
# source are a third of the limit.
MANY_TIMES = 3


def hunted(seed, turns, held=None):
    """The hunt after a number of turns, or when something is found, and all that it tried."""
    stand_in = StandIn()
    hunt = hunting.Hunt(stand_in, random.Random(seed), ["check"], held or {}, lambda found: None)
    for _ in range(turns):
        hunt.turn()
        if hunt.table()[0].times > MANY_TIMES:
            break
    return hunt, stand_in.sources


class Hunts(unittest.TestCase):
    """What a hunt finds, keeps and repeats."""

    def test_a_product_of_two_sizes_is_found(self):
        hunt, _ = hunted(1, 400)
        worst = hunt.table()[0]
        self.assertGreater(worst.times, MANY_TIMES)
        self.assertGreater(worst.genes.classes * composed.taken_over(worst.genes) * worst.genes.method_name, 6_000_000)

    def test_one_seed_tries_the_same_sources(self):
        self.assertEqual(hunted(3, 60)[1], hunted(3, 60)[1])

    def test_genes_that_are_held_stay(self):
        _, sources = hunted(0, 60, {"method_name": 9})
        self.assertEqual({it.method_name for it in sources if it.traits * it.trait_methods + it.classes * it.class_methods}, {9})

    def test_of_one_shape_the_worst_is_kept(self):
        kept = hunting.Kept()
        light = measuring.Found("check", genes.parsed("classes=40"), 1, 0, 2_000, 1, 0.5, 0, 0)
        heavy = measuring.Found("check", genes.parsed("classes=50"), 2, 0, 2_000, 1, 1.5, 0, 0)
        other = measuring.Found("check", genes.parsed("traits=50"), 2, 0, 1_000, 1, 0.7, 0, 0)
        short = measuring.Found("check", genes.parsed("fields=50"), 2, 0, 999, 1, 0.1, 0, 0)
        self.assertEqual([kept.add(it) for it in (light, heavy, other, light, short)], [True, True, False, False, False])
        self.assertEqual(kept.worst(), [heavy, other, short])
        self.assertEqual(kept.densest(), [other, heavy])
        self.assertEqual(hunting.above(kept.worst()), [heavy])

    def test_a_source_with_fewer_genes_replaces_another(self):
        kept = hunting.Kept()
        large = measuring.Found("check", genes.parsed("classes=50 fields=40"), 2, 0, 2_000, 1, 1.5, 0, 0)
        plainer = measuring.Found("check", genes.parsed("classes=50"), 2, 0, 2_000, 1, 1.49, 0, 0)
        kept.add(large)
        kept.replace(large, plainer)
        self.assertEqual((kept.worst(), kept.densest()), ([plainer], [plainer]))


class Statuses(unittest.TestCase):
    """A status that is not the expected one is reported."""

    def test_another_status_is_above(self):
        wrong = measuring.Found("check", genes.Genes(), 1, 0, 1, 1, 0.5, 4, 0)
        stopped = measuring.Found("check", genes.Genes(), 1, 0, 1, 1, 0.5, None, 0)
        self.assertEqual(hunting.above([wrong, stopped]), [wrong, stopped])
        self.assertIn("WRONG: 4, not 0", wrong.shown("instructions"))
        self.assertIn("STOPPED", stopped.shown("seconds"))
