"""Sources that have no tokens: the first fault is named, whatever comes after it."""

from tables import built, endings

FAULTS = [
    (b"\xff", 3, b"a.pony:1:1: bad byte\n"),
    (b"_ a", 3, b"a.pony:1:1: bad byte\n"),
    (b"_1", 3, b"a.pony:1:1: bad byte\n"),
    (b"a !b", 3, b"a.pony:1:3: bad byte\n"),
    (b"'a", 3, b"a.pony:1:1: bad byte\n"),
    (b"x [", 3, b"a.pony:1:3: bad byte\n"),
    (b"class C /* a /* b */", 3, b"a.pony:1:9: not closed\n"),
    (b"/*/", 3, b"a.pony:1:1: not closed\n"),
    (b"/* /* */", 3, b"a.pony:1:1: not closed\n"),
    (b"class C \"\\q", 3, b"a.pony:1:9: not closed\n"),
    (b"\"", 3, b"a.pony:1:1: not closed\n"),
    (b"\"a\\", 3, b"a.pony:1:1: not closed\n"),
    (b"\"a\\\"", 3, b"a.pony:1:1: not closed\n"),
    (b"\"\"\"", 3, b"a.pony:1:1: not closed\n"),
    (b"\"\"\"\"\"", 3, b"a.pony:1:1: not closed\n"),
    (b"\"\"\"a\"\"", 3, b"a.pony:1:1: not closed\n"),
    (b"0b2", 3, b"a.pony:1:1: bad number\n"),
    (b"1__2", 3, b"a.pony:1:1: bad number\n"),
    (b" 1_", 3, b"a.pony:1:2: bad number\n"),
    (b"0x", 3, b"a.pony:1:1: bad number\n"),
    (b"0x_1", 3, b"a.pony:1:1: bad number\n"),
    (b"0xg", 3, b"a.pony:1:1: bad number\n"),
    (b"0b12", 3, b"a.pony:1:1: bad number\n"),
    (b"1a", 3, b"a.pony:1:1: bad number\n"),
    (b"1'", 3, b"a.pony:1:1: bad number\n"),
    (b"x 18446744073709551616", 3, b"a.pony:1:3: bad number\n"),
    (b"0x1_0000_0000_0000_0000", 3, b"a.pony:1:1: bad number\n"),
    (b"class C \"\\q\"", 3, b"a.pony:1:10: bad escape\n"),
    (b"\"\\x1\"", 3, b"a.pony:1:2: bad escape\n"),
    (b"\"a\\n\\x1g\\e\"", 3, b"a.pony:1:5: bad escape\n"),
    (b"\"\\N\"", 3, b"a.pony:1:2: bad escape\n"),
    (b"1 \"\\q\" $ /*", 3, b"a.pony:1:4: bad escape\n"),
]

# After 200,000 dots a blank, a byte that begins no token, and a token, and that byte after one dot more.
DOTS = [
    ("200000 tokens and a blank", b"." * 200_000 + b" ", 3, b"a.pony:1:1: unexpected\n"),
    ("200000 tokens and a bad byte", b"." * 200_000 + b"$", 3, b"a.pony:1:200001: bad byte\n"),
    ("200000 tokens and one more", b"." * 200_000 + b".", 8, b"a.pony:1:200001: too many tokens\n"),
    ("200001 tokens and a bad byte", b"." * 200_001 + b"$", 8, b"a.pony:1:200001: too many tokens\n"),
]

ROWS = [
    *endings("the first fault of the tokens is named", FAULTS),
    *built("a bad byte and one token too many are told apart", DOTS),
]
