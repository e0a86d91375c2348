"""`schedule`, `play` and `outcomes` on whole programs: lists of seeds that were worked out by hand from the definition of a turn,
what is played, and each different outcome."""

import re

from programs import BANK, DOUBLES, HELLO, READERS, UNSENDABLE
from steps import Form, Row
from tables import USAGE, answered, between, cut, long, named, refusals, same_run, spoken

PRINTS = b"actor Main\n  new create(env: Env) => env.out.print(\"\")\n"

ENDLESS = b"actor Main\n  new create(env: Env) =>\n    while true do None end\n"

CHAIN = b"""\
actor Chain
  new create() => Chain
actor Main
  new create(env: Env) => Chain
"""

# Two actors that print a text each.
TWO = b"""\
actor A
  new create(out: OutStream, s: String) => out.print(s)
actor Main
  new create(env: Env) =>
    A(env.out, "a")
    A(env.out, "b")
"""

# A seed, a source, and what is on out. Main of PRINTS has 10 steps, of which the ninth sends, and the stream one; Main of READERS
# has 43, each of its two readers 29, of which the 28th sends, and the stream one for each text.
SCHEDULED = [
    # A round begins with Main, the only able actor, and there is no higher one in it; the next begins with the stream.
    ("one able actor", "0", PRINTS, b"1*10 0\n"),
    # The draws are place 0 and count 63, and place 0 and count 44, and each time only one actor is able.
    ("one able actor, by draws", "1", PRINTS, b"1*10 0\n"),
    # The count of the first turn is 58. The number has as many digits as a seed may have.
    ("the largest seed", "18446744073709551615", PRINTS, b"1*10 0\n"),
    ("twenty zeros", "00000000000000000000", PRINTS, b"1*10 0\n"),
    # The second round is of all four. Its readers end in their turns, and the third begins with the stream.
    ("round robin", "0", READERS, b"1*43 2*29 3*29 0*2\n"),
    # Counts 63, 44, 60 and 60. The second turn draws place 1 of the readers, and the third place 1 of the stream and the
    # other.
    ("draws of places and counts", "1", READERS, b"1*43 3*29 2*29 0*2\n"),
    # Each actor takes its six steps in a turn of its own, and makes the next one: 95,000 turns.
    ("actors that make actors", "0", CHAIN, b" ".join(b"%d*6" % actor for actor in range(1, 95_001)) + b"\n"),
]

LONG_SCHEDULED = [
    ("a program without an end", "0", ENDLESS, b"1*1000000\n"),
    ("a program without an end, by draws", "7", ENDLESS, b"1*1000000\n"),
]

PLAYED = [
    ("a greeting", "0", HELLO, b"hi\nsteps 11 skipped 0 actors 2 objects 3 waiting 0\n"),
    ("a greeting, by draws", "1", HELLO, b"hi\nsteps 11 skipped 0 actors 2 objects 3 waiting 0\n"),
    ("two readers", "1", READERS, b"5\n5\nsteps 103 skipped 0 actors 4 objects 6 waiting 0\n"),
]

LONG_PLAYED = [
    ("a program without an end", "0", ENDLESS, b"steps 1000000 skipped 0 actors 2 objects 3 waiting 0\n"),
    # Main and 94,999 more each have a turn of six steps, in which they make an actor. The last one that is made has none.
    ("actors that make actors", "0", CHAIN, b"steps 570000 skipped 0 actors 95002 objects 95003 waiting 1\n"),
]

# A count, a source, and what is on out.
TABLED = [
    ("one play", "1", HELLO, b"seed 0: 1 of 1, 11 steps\n  hi\n"),
    ("two plays, with leading zeros", "00002", HELLO, b"seed 0: 2 of 2, 11 steps\n  hi\n"),
    ("an empty text", "2", PRINTS, b"seed 0: 2 of 2, 11 steps\n  \n"),
    ("a text that is too long", "1", DOUBLES, b"seed 0: 1 of 1, 157 steps (too long)\n  go\n"),
]

LONG_TABLED = [
    ("a play that is cut", "1", ENDLESS, b"seed 0: 1 of 1, 1000000 steps (cut)\n"),
    ("two plays that are cut", "2", ENDLESS, b"seed 0: 2 of 2, 1000000 steps (cut)\n"),
]

# The two entries of fifty plays, of which the first has the text of round robin.
TWO_ENTRIES = re.compile(rb"seed 0: (\d+) of 50, \d+ steps\n  a\n  b\nseed [1-9]\d*: (\d+) of 50, \d+ steps\n  b\n  a\n")


def are_two(came, before):
    """Whether a text has these two entries, and their numbers of plays add up to all."""
    found = TWO_ENTRIES.fullmatch(came)
    return found is not None and int(found[1]) + int(found[2]) == 50


# By round robin Main comes first, and then the actors in the order in which they were made. Other seeds have them in the opposite
# order, which is the last entry of the table.
BOTH = [
    ("one play", "1", between(b"seed 0: ", b" steps\n  a\n  b\n")),
    ("fifty plays", "50", Form("two entries, of fifty plays together", are_two)),
]

NO_NUMBERS = [
    (["schedule", "a.pony", "one"], 2, USAGE),
    (["schedule", "a.pony", "+1"], 2, USAGE),
    (["schedule", "a.pony", "18446744073709551616"], 2, USAGE),
    (["play", "a.pony", "000000000000000000001"], 2, USAGE),
    (["play", "a.pony", ""], 2, USAGE),
    (["play", "a.pony"], 2, USAGE),
    (["outcomes", "a.pony", "0"], 2, USAGE),
    (["outcomes", "a.pony", "10001"], 2, USAGE),
    (["outcomes", "a.pony", "000001"], 2, USAGE),
    (["outcomes", "a.pony", "1", "2"], 2, USAGE),
    # The number comes before the source.
    (["schedule", "none.pony", "x"], 2, USAGE),
    (["play", "none.pony", "x"], 2, USAGE),
    (["outcomes", "none.pony", "x"], 2, USAGE),
]

REFUSED = [
    ("no tree", b"", b"", 3, b"a.pony:1:1: unexpected\n"),
    ("a parameter that may not be sent", UNSENDABLE, b"", 1, b"a.pony:3:11: parameter not sendable\n"),
]

SCHEDULE = ("schedule", "a.pony", "0")
PLAY = ("play", "a.pony", "0")
OUTCOMES = ("outcomes", "a.pony", "1")

PROGRAMS = [("a greeting", HELLO), ("two readers", READERS), ("a bank", BANK), ("two actors", TWO), ("a text that doubles", DOUBLES)]


def chosen(title, command, rows):
    """A command on sources, each with a seed or a count, and what is on out."""
    return [Row(named(title, name), (answered((command, "a.pony", number), source, b"", out),)) for name, number, source, out in rows]


ROWS = [
    *chosen("a schedule is that by hand", "schedule", SCHEDULED),
    *long(chosen("a schedule is that by hand", "schedule", LONG_SCHEDULED)),
    *chosen("a play writes its text", "play", PLAYED),
    *long(chosen("a play writes its text", "play", LONG_PLAYED)),
    cut("a play ends at a text that is too long", PLAY, DOUBLES, b"", 12, b"go\n", b"a.pony: text too long at step 157\n"),
    *(
        same_run(f"a play is the run by the line of its schedule: {name}, seed {seed}", source, seed)
        for seed in ("0", "1", "4711")
        for name, source in PROGRAMS
    ),
    *chosen("a table has each outcome", "outcomes", TABLED),
    *long(chosen("a table has each outcome", "outcomes", LONG_TABLED)),
    *chosen("a table shows both outcomes", "outcomes", [(name, count, TWO, out) for name, count, out in BOTH]),
    *spoken("words without such numbers are refused", HELLO, NO_NUMBERS),
    *refusals("a source is refused (schedule)", SCHEDULE, REFUSED),
    *refusals("a source is refused (play)", PLAY, REFUSED),
    *refusals("a source is refused (outcomes)", OUTCOMES, REFUSED),
]
