"""Sources that have no tree."""

from tables import built, endings
from texts import grouped, in_groups, opened

# Two operators without parentheses.
TWO_BODIES = b"""\
actor Main
  new create(env: Env) =>
    let a: U64 = 18446744073709551615
    let b: U64 = 1 + 2 * 3
"""

# The same after a number that is too large.
TOO_LARGE = b"""\
actor Main
  new create(env: Env) =>
    let a: U64 = 18446744073709551616
    let b: U64 = 1 + 2 * 3
"""

TREELESS = [
    (b"", 3, b"a.pony:1:1: unexpected\n"),
    (b"class", 3, b"a.pony:1:6: unexpected\n"),
    (b"class C fun f() => 1 - 2 - 3", 4, b"a.pony: no Main\n"),
    (b"class C fun f() => 1 \n- 2 - 3", 3, b"a.pony:2:1: unexpected\n"),
    (b"class C fun f() => a.1", 3, b"a.pony:1:22: unexpected\n"),
    (TWO_BODIES, 3, b"a.pony:4:24: unexpected\n"),
    (TOO_LARGE, 3, b"a.pony:3:18: bad number\n"),
    (b"class C fun f() => 1 var x: U64", 3, b"a.pony:1:22: unexpected\n"),
    (b"class C fun f() class D", 3, b"a.pony:1:17: unexpected\n"),
    (b"actor A new iso create() => 1", 3, b"a.pony:1:13: unexpected\n"),
    (b"class C is (A, B)", 3, b"a.pony:1:14: unexpected\n"),
    (b"interface I", 4, b"a.pony: no Main\n"),
    (b"struct S", 3, b"a.pony:1:1: unexpected\n"),
]

# Each is named for what stands at the first token that cannot continue a file.
UNEXPECTED = [
    ("nothing at all", b"", 3, b"a.pony:1:1: unexpected\n"),
    ("a method alone", b"fun f() => 1", 3, b"a.pony:1:1: unexpected\n"),
    ("another word", b"struct S", 3, b"a.pony:1:1: unexpected\n"),
    ("a name in the place of a type name", b"class c", 3, b"a.pony:1:7: unexpected\n"),
    ("two capabilities", b"class iso iso C", 3, b"a.pony:1:11: unexpected\n"),
    ("a capability of an actor", b"actor iso A", 3, b"a.pony:1:7: unexpected\n"),
    ("a capability of a primitive", b"primitive ref P", 3, b"a.pony:1:11: unexpected\n"),
    ("no type name after is", b"class C is", 3, b"a.pony:1:11: unexpected\n"),
    ("nothing in the brackets", b"class C is ()", 3, b"a.pony:1:13: unexpected\n"),
    ("a comma", b"class C is (A, B)", 3, b"a.pony:1:14: unexpected\n"),
    ("no end of the brackets", b"class C is (A & B", 3, b"a.pony:1:18: unexpected\n"),
    ("names without brackets", b"class C is A & B", 3, b"a.pony:1:14: unexpected\n"),
    ("a field after a method", b"class C fun f() => 1 let x: U64", 3, b"a.pony:1:22: unexpected\n"),
    ("a field of a primitive", b"primitive P let x: U64", 3, b"a.pony:1:13: unexpected\n"),
    ("a field of a trait", b"trait T var x: U64", 3, b"a.pony:1:9: unexpected\n"),
    ("a field without a type", b"class C let x = 1", 3, b"a.pony:1:15: unexpected\n"),
    ("a field of a type with ^", b"class C let x: U64^ = 1", 3, b"a.pony:1:19: unexpected\n"),
    ("a value with =", b"class C let x: U64 = y = 1", 3, b"a.pony:1:24: unexpected\n"),
    ("be in a class", b"class C be b() => 1", 3, b"a.pony:1:9: unexpected\n"),
    ("be in a primitive", b"primitive P be b() => 1", 3, b"a.pony:1:13: unexpected\n"),
    ("new in a primitive", b"primitive P new create() => 1", 3, b"a.pony:1:13: unexpected\n"),
    ("new in a trait", b"trait T new create()", 3, b"a.pony:1:9: unexpected\n"),
    ("a capability after new in an actor", b"actor A new iso create() => 1", 3, b"a.pony:1:13: unexpected\n"),
    ("a capability after be", b"actor A be tag b() => 1", 3, b"a.pony:1:12: unexpected\n"),
    ("a result of be", b"actor A be b(): U64 => 1", 3, b"a.pony:1:15: unexpected\n"),
    ("a result of new", b"class C new create(): C => 1", 3, b"a.pony:1:21: unexpected\n"),
    ("a method without a body at the end", b"class C fun f()", 3, b"a.pony:1:16: unexpected\n"),
    ("a method without a body before another", b"class C fun f() fun g() => 1", 3, b"a.pony:1:17: unexpected\n"),
    ("an actor's method without a body", b"actor A be b() be c() => 1", 3, b"a.pony:1:16: unexpected\n"),
    (
        "a primitive's method without a body, after a trait's",
        b"trait T fun f() primitive P fun f() class C",
        3,
        b"a.pony:1:37: unexpected\n",
    ),
    ("a body of nothing in a trait", b"trait T fun f() =>", 3, b"a.pony:1:19: unexpected\n"),
    (
        "a body of nothing in an interface, before another method",
        b"interface I fun f() => fun g()",
        3,
        b"a.pony:1:24: unexpected\n",
    ),
    ("a body without => in a trait", b"trait T fun f() 1", 3, b"a.pony:1:17: unexpected\n"),
    ("a body of nothing", b"class C fun f() => fun g() => 1", 3, b"a.pony:1:20: unexpected\n"),
    ("a comma before )", b"class C fun f(a: A,) => 1", 3, b"a.pony:1:20: unexpected\n"),
    ("a parameter without a type", b"class C fun f(a) => 1", 3, b"a.pony:1:16: unexpected\n"),
    ("a parameter of a type with ^", b"class C fun f(a: A^) => 1", 3, b"a.pony:1:19: unexpected\n"),
    ("no parameters", b"class C fun f => 1", 3, b"a.pony:1:15: unexpected\n"),
    ("^ before the capability", b"class C fun f(): A^ iso => 1", 3, b"a.pony:1:21: unexpected\n"),
    ("a - that is first on its line", b"class C fun f() => 1\n- 2 - 3", 3, b"a.pony:2:1: unexpected\n"),
    ("a number after a dot", b"class C fun f() => a.1", 3, b"a.pony:1:22: unexpected\n"),
    ("two docstrings of a file", b"\"\"\"a\"\"\" \"\"\"b\"\"\" class C", 3, b"a.pony:1:9: unexpected\n"),
    ("two docstrings of an entity", b"class C \"\"\"a\"\"\" \"\"\"b\"\"\"", 3, b"a.pony:1:17: unexpected\n"),
    ("a docstring after a body", b"class C fun f() => 1 \"\"\"a\"\"\"", 3, b"a.pony:1:22: unexpected\n"),
    ("two entities, and a name", b"class C class D d", 3, b"a.pony:1:17: unexpected\n"),
]

# A body and a value are at level 1, so that 199 more can be opened. Empty arguments open a level, too. Those without a Main have
# a tree; the place is that of the level that is too many.
LEVELS = [
    ("199 groups in one another", in_groups(199), 0, b""),
    ("200 groups in one another", in_groups(200), 8, b"a.pony:3:204: nested too deep\n"),
    ("100000 groups that are opened", opened(100_000), 8, b"a.pony:1:235: nested too deep\n"),
    ("199 groups in a body", b"class C fun f() => " + grouped(199, b"1"), 4, b"a.pony: no Main\n"),
    ("200 groups in a body", b"class C fun f() => " + grouped(200, b"1"), 8, b"a.pony:1:219: nested too deep\n"),
    ("199 groups in a value", b"class C let x: U64 = " + grouped(199, b"1"), 4, b"a.pony: no Main\n"),
    ("200 groups in a value", b"class C let x: U64 = " + grouped(200, b"1"), 8, b"a.pony:1:221: nested too deep\n"),
    ("empty arguments in 198 groups", b"class C fun f() => " + grouped(198, b"g()"), 4, b"a.pony: no Main\n"),
    ("empty arguments in 199 groups", b"class C fun f() => " + grouped(199, b"g()"), 8, b"a.pony:1:220: nested too deep\n"),
]

ROWS = [
    *endings("the first token without a tree is named", TREELESS),
    *built("the first token that cannot continue a file is named", UNEXPECTED),
    *built("two hundred levels may be opened", LEVELS),
]
