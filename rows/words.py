"""Which words name a command."""

from programs import ONE_OBJECT
from tables import USAGE, spoken

WORDS = [
    ([], 2, USAGE),
    (["help"], 2, USAGE),
    (["--help"], 2, USAGE),
    (["check"], 2, USAGE),
    (["check", "a.pony", "b"], 2, USAGE),
    (["judge", "a.pony"], 2, USAGE),
    (["judge", "a.pony", "a.der", "b"], 2, USAGE),
    # A word that begins with `-` is an option, unless it comes after `--`.
    (["check", "-x"], 2, USAGE),
    (["check", "--help"], 2, USAGE),
    (["check", "--", "-x"], 9, b"-x: cannot be read\n"),
    (["check", ""], 9, b": cannot be read\n"),
    (["check", "gone.pony"], 9, b"gone.pony: cannot be read\n"),
    (["judge", "a.pony", "gone.der"], 9, b"gone.der: cannot be read\n"),
    (["run"], 2, USAGE),
    (["run", "a.pony"], 2, USAGE),
    (["run", "a.pony", "a.sched", "b"], 2, USAGE),
    (["run", "a.pony", "gone.sched"], 9, b"gone.sched: cannot be read\n"),
]

ROWS = spoken("words are taken or refused", ONE_OBJECT, WORDS)
