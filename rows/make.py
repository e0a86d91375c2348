"""`make`: what is written for which seed and size, and what is refused."""

from steps import Row, Step
from tables import USAGE, between, named, spoken

ONE_OUT = b"""\
seed 0 size 1 nodes 37
468
steps 62 skipped 740 actors 3 objects 5 waiting 0
"""

TWO_OUT = b"""\
seed 0 size 2 nodes 47
585
steps 93 skipped 1110 actors 4 objects 6 waiting 0
"""

LARGE_OUT = b"""\
seed 2147483648 size 1 nodes 37
468
steps 62 skipped 740 actors 3 objects 5 waiting 0
"""

LARGEST_OUT = b"""\
seed 18446744073709551615 size 1 nodes 48
409
steps 78 skipped 724 actors 3 objects 5 waiting 0
"""

# A seed, a size, and what is on out.
MADE = [
    ("0", "1", ONE_OUT),
    ("0", "2", TWO_OUT),
    # There may be leading zeros, up to twenty digits and to three.
    ("00000000000000000000", "001", ONE_OUT),
    ("2147483648", "1", LARGE_OUT),
    ("18446744073709551615", "1", LARGEST_OUT),
]

NO_NUMBERS = [
    (["make"], 2, USAGE),
    (["make", "0"], 2, USAGE),
    (["make", "0", "1", "2"], 2, USAGE),
    (["make", "0", "0"], 2, USAGE),
    (["make", "0", "901"], 2, USAGE),
    (["make", "0", "0001"], 2, USAGE),
    (["make", "0", "+1"], 2, USAGE),
    (["make", "x", "1"], 2, USAGE),
    (["make", "0x", "1"], 2, USAGE),
    (["make", "", "1"], 2, USAGE),
    (["make", "+0", "1"], 2, USAGE),
    (["make", "000000000000000000000", "1"], 2, USAGE),
    (["make", "18446744073709551616", "1"], 2, USAGE),
]

# Seeds, and what is written for size 8. It was worked out by hand: the draws give each worker's kind and number, the texts are the
# sums of the numbers, and a worker has the nodes and takes the steps of its kind.
EIGHT = [
    ("0", b"seed 0 size 8 nodes 191\n5362\n6237\n6237\nsteps 653 skipped 2956 actors 10 objects 14 waiting 0\n"),
    ("1", b"seed 1 size 8 nodes 185\n2905\n4313\nsteps 602 skipped 3007 actors 10 objects 13 waiting 0\n"),
    ("2", b"seed 2 size 8 nodes 177\n1731\n4769\n4769\nsteps 549 skipped 3060 actors 10 objects 14 waiting 0\n"),
    ("3", b"seed 3 size 8 nodes 193\n107\n3021\nsteps 530 skipped 3079 actors 10 objects 13 waiting 0\n"),
    ("4", b"seed 4 size 8 nodes 219\n877\n1373\n5010\n5010\nsteps 736 skipped 2873 actors 10 objects 15 waiting 0\n"),
    ("5", b"seed 5 size 8 nodes 168\n457\n2565\nsteps 410 skipped 3199 actors 10 objects 13 waiting 0\n"),
    ("6", b"seed 6 size 8 nodes 219\n4614\n6988\n6988\nsteps 861 skipped 2748 actors 10 objects 14 waiting 0\n"),
    ("7", b"seed 7 size 8 nodes 185\n1845\n6846\nsteps 602 skipped 3007 actors 10 objects 13 waiting 0\n"),
    ("8", b"seed 8 size 8 nodes 214\n4118\n4707\n4884\n5643\n5643\nsteps 771 skipped 2838 actors 10 objects 16 waiting 0\n"),
    ("9", b"seed 9 size 8 nodes 199\n626\n2712\n2713\nsteps 581 skipped 3028 actors 10 objects 14 waiting 0\n"),
    ("10", b"seed 10 size 8 nodes 211\n214\n1318\n3807\n3917\n3917\nsteps 683 skipped 2926 actors 10 objects 16 waiting 0\n"),
    ("11", b"seed 11 size 8 nodes 185\n772\n1744\n2062\nsteps 477 skipped 3132 actors 10 objects 14 waiting 0\n"),
    ("12", b"seed 12 size 8 nodes 213\n563\n1575\n1778\n1778\nsteps 560 skipped 3049 actors 10 objects 15 waiting 0\n"),
    ("13", b"seed 13 size 8 nodes 210\n5167\n6356\nsteps 722 skipped 2887 actors 10 objects 13 waiting 0\n"),
    ("14", b"seed 14 size 8 nodes 163\n1787\n2202\n2742\nsteps 445 skipped 3164 actors 10 objects 14 waiting 0\n"),
    ("15", b"seed 15 size 8 nodes 207\n7012\nsteps 759 skipped 2850 actors 10 objects 12 waiting 0\n"),
]

# The first line for size 900, and the last ones.
MOST_LINE = b"seed 0 size 900 nodes 18391\n"

MOST_END = b"""\

561093
steps 69755 skipped 291546 actors 902 objects 1128 waiting 0
"""


def made(title, seed, size, out):
    """A program is made and run, with this on out."""
    return Row(named(title, f"seed {seed}, size {size}"), (Step(("make", seed, size), {}, 0, out),))


ROWS = [
    *(made("a made program is run", seed, size, out) for seed, size, out in MADE),
    *(made("a made program prints what its draws give", seed, "8", out) for seed, out in EIGHT),
    made("a made program may have 900 workers", "0", "900", between(MOST_LINE, MOST_END)),
    *spoken("other words are no numbers", b"", NO_NUMBERS),
]
