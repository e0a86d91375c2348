"""`show` in one layout: the parts of a file, each kind of line, and whole sources; what was shown is shown again."""

from tables import answers

SHOW = ("show", "a.pony")

# A docstring in each place that may have one.
DOCS = b'''\
"""of the file"""
class C """of the class"""
  let x: U64 = 1 """of the field"""
  var y: U64 """of another"""
  fun f(): U64 """of the method""" => """of the body""" 1
  new create() """of new""" => """here""" x
trait T """of the trait"""
  fun f() """of f"""
  be b() """of b"""'''

# A source for each form of an entity, a field and a method.
FORMS = [
    ("a method of a class", b"class C fun f() => 1 - 2 - 3", b"", b"class C\n  fun f() =>\n    1 - 2 - 3\n"),
    ("four kinds of entities", b"class C primitive P actor A trait T", b"", b"class C\n\nprimitive P\n\nactor A\n\ntrait T\n"),
    (
        "what is provided",
        b"class iso C is A trait val T is (A & B & D) actor A is (B)",
        b"",
        b"class iso C is A\n\ntrait val T is (A & B & D)\n\nactor A is B\n",
    ),
    (
        "fields with and without values",
        b"class C let x: A iso var y: B = 1 + 2 + 3 let z: D = (y = 1)",
        b"",
        b"class C\n  let x: A iso\n  var y: B = 1 + 2 + 3\n  let z: D = (y = 1)\n",
    ),
    ("a field of an actor", b"actor A let x: A", b"", b"actor A\n  let x: A\n"),
    (
        "a class's methods",
        b"class C fun iso f(a: A val, b: B): D trn^ => a fun g(): E => a new ref create(a: A) => a",
        b"",
        b"class C\n  fun iso f(a: A val, b: B): D trn^ =>\n    a\n  fun g(): E =>\n    a\n  new ref create(a: A) =>\n    a\n",
    ),
    (
        "an actor's methods",
        b"actor A new create() => 1 be b(a: A) => 1 fun tag f() => 1",
        b"",
        b"actor A\n  new create() =>\n    1\n  be b(a: A) =>\n    1\n  fun tag f() =>\n    1\n",
    ),
    ("a primitive's method", b"primitive P fun box f() => 1", b"", b"primitive P\n  fun box f() =>\n    1\n"),
    (
        "a trait's methods without bodies",
        b"trait T fun ref f(): A^ be b(a: A)",
        b"",
        b"trait T\n  fun ref f(): A^\n  be b(a: A)\n",
    ),
    ("a trait's method with a body", b"trait T fun f(): A => a", b"", b"trait T\n  fun f(): A =>\n    a\n"),
    (
        "bodies and none in a trait, and another entity",
        b"trait T fun f() fun ref g() => 1 be b() be c(a: A) => a class C",
        b"",
        b"trait T\n  fun f()\n  fun ref g() =>\n    1\n  be b()\n  be c(a: A) =>\n    a\n\nclass C\n",
    ),
    (
        "interfaces, with docs before and in a body",
        b"interface val I is T fun f() \"\"\"of f\"\"\" => \"\"\"of the body\"\"\" 1 fun g() \"\"\"of g\"\"\" interface J be b() => 1",
        b"",
        b"interface val I is T\n  fun f() =>\n    1\n  fun g()\n\ninterface J\n  be b() =>\n    1\n",
    ),
    (
        "a body of two items",
        b"class C fun f() =>\n  let x: A = 1\n  x\nclass D",
        b"",
        b"class C\n  fun f() =>\n    let x: A = 1\n    x\n\nclass D\n",
    ),
    (
        "docs everywhere",
        DOCS,
        b"",
        b"class C\n  let x: U64 = 1\n  var y: U64\n  fun f(): U64 =>\n    1\n  new create() =>\n    x\n\ntrait T\n  fun f()\n  be b()\n",
    ),
]

# One file with each kind of line.
EACH_KIND = b'''\
"""A file.""" trait A trait B is (A) fun f(x: U64, y: B val): B iso^ be b()
class val C is (A & B) let x: U64 = 0x1F var y: C iso
new iso create() => y = consume z; if (a; b) then "\\x7F\\x01\\""
elseif not c then 1_000 else while true do d.e
recover val this end end end'''

EACH_KIND_SHOWN = b'''\
trait A

trait B is A
  fun f(x: U64, y: B val): B iso^
  be b()

class val C is (A & B)
  let x: U64 = 31
  var y: C iso
  new iso create() =>
    y = consume z
    if (a; b) then "\\x7f\\x01\\"" elseif not c then 1000 else while true do d.e; recover val this end end end
'''

# Methods of a trait and of an interface, some with bodies.
SOME_BODIES = b'''\
trait A be b() => c; d fun f(): U64 fun ref g() => """A body.""" f()
interface I fun h() => (e) fun i()'''

SOME_BODIES_SHOWN = b'''\
trait A
  be b() =>
    c
    d
  fun f(): U64
  fun ref g() =>
    f()

interface I
  fun h() =>
    (e)
  fun i()
'''

COUNTER = b"""\
// A counter that is made inside a `recover`, so that nobody else names it, and is handed to an actor of its own.
class Counter
  var _sum: U64 = 0

  fun ref add(n: U64): U64 =>
    _sum = _sum + n
    _sum

actor Keeper
  let _out: OutStream
  var _counter: Counter iso

  new create(out: OutStream, counter: Counter iso) =>
    _out = out
    _counter = consume counter

  be add(n: U64) =>
    let sum: U64 = _counter.add(n)     // called as a `ref`: only a number goes in, and one comes out
    _out.print(sum.string())

actor Main
  new create(env: Env) =>
    let counter: Counter iso = recover
      let fresh: Counter ref = Counter // inside, an object to work on
      fresh.add(1)
      fresh
    end
    let keeper: Keeper = Keeper(env.out, consume counter)
    keeper.add(2)
    keeper.add(3)
"""

COUNTER_SHOWN = b"""\
class Counter
  var _sum: U64 = 0
  fun ref add(n: U64): U64 =>
    _sum = _sum + n
    _sum

actor Keeper
  let _out: OutStream
  var _counter: Counter iso
  new create(out: OutStream, counter: Counter iso) =>
    _out = out
    _counter = consume counter
  be add(n: U64) =>
    let sum: U64 = _counter.add(n)
    _out.print(sum.string())

actor Main
  new create(env: Env) =>
    let counter: Counter iso = recover let fresh: Counter ref = Counter; fresh.add(1); fresh end
    let keeper: Keeper = Keeper(env.out, consume counter)
    keeper.add(2)
    keeper.add(3)
"""

FIRST = b"""\
// Two classes, and a Main that makes objects of them and hands them on.
class Apple
class Pear

actor Main
  new create(env: Env) =>
    let a: Apple iso = Apple      // a new object, which nobody else names
    let b: Apple iso = consume a  // handed on whole: `a` is gone
    let c: Apple tag = b          // what names an `iso` besides may only compare it
    let d: Pear trn = Pear
    let e: Pear box = d           // a reader beside the one that may write
    let f: Pear val = consume d   // from here on nobody writes
"""

FIRST_SHOWN = b"""\
class Apple

class Pear

actor Main
  new create(env: Env) =>
    let a: Apple iso = Apple
    let b: Apple iso = consume a
    let c: Apple tag = b
    let d: Pear trn = Pear
    let e: Pear box = d
    let f: Pear val = consume d
"""

NOT_SENDABLE = b"""\
// Refused: what a message takes could still be written by its sender.
class Counter
  var sum: U64 = 0

actor Keeper
  be keep(counter: Counter ref) =>     // a `ref` stays with its actor
    counter.sum = 1

actor Main
  new create(env: Env) =>
    let counter: Counter ref = Counter
    let keeper: Keeper = Keeper
    keeper.keep(counter)
"""

NOT_SENDABLE_SHOWN = b"""\
class Counter
  var sum: U64 = 0

actor Keeper
  be keep(counter: Counter ref) =>
    counter.sum = 1

actor Main
  new create(env: Env) =>
    let counter: Counter ref = Counter
    let keeper: Keeper = Keeper
    keeper.keep(counter)
"""

REFUSED = b"""\
// Refused: an `iso` has no second name that may read it.
class Apple

actor Main
  new create(env: Env) =>
    let a: Apple iso = Apple
    let b: Apple tag = a          // this name may only compare it
    let c: Apple iso = a          // and this one would read it: no rule
"""

REFUSED_SHOWN = b"""\
class Apple

actor Main
  new create(env: Env) =>
    let a: Apple iso = Apple
    let b: Apple tag = a
    let c: Apple iso = a
"""

WHOLE = [
    ("each kind of line", EACH_KIND, EACH_KIND_SHOWN),
    ("some methods of a trait have bodies", SOME_BODIES, SOME_BODIES_SHOWN),
    ("a counter", COUNTER, COUNTER_SHOWN),
    ("two classes", FIRST, FIRST_SHOWN),
    ("a refused message", NOT_SENDABLE, NOT_SENDABLE_SHOWN),
    ("a refused alias", REFUSED, REFUSED_SHOWN),
]

ROWS = [
    *answers("each part of a file is shown", SHOW, FORMS),
    *answers("a whole source is shown", SHOW, [(name, source, b"", lines) for name, source, lines in WHOLE]),
    *answers("what was shown is shown again", SHOW, [(name, lines, b"", lines) for name, _, lines in WHOLE]),
]
