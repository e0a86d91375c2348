"""The sources that cost most for their size, each at a part of its limit. A source is written piece by piece.

The counts keep within the limits of docs/commands.md at the whole, and come as close to one of them as their form lets them.
"""

import dataclasses
import functools
import itertools
import pathlib
import subprocess
import tempfile
import typing

ACCEPTED = 0
NO_RULE = 1
NO_TOKENS = 3
WRONG_NAMES = 4
LIMIT = 8

# The refusals that are explained.
EXPLAINED = (NO_RULE, WRONG_NAMES)

SHAPES = []


@dataclasses.dataclass
class Shape:
    """A form of source: what it is called, the pieces of its text at a part, and the statuses of `check` and of `show`."""

    title: str
    pieces: typing.Callable
    checked: int
    shown: int

    def explained(self):
        """The status of `explain`: what it says why is done, and other refusals are as those of `check`."""
        return ACCEPTED if self.checked in EXPLAINED else self.checked


def shape(title, checked=ACCEPTED, shown=ACCEPTED):
    """Puts a function from a part, as 0.25, to the pieces of a text among the shapes."""

    def put(pieces):
        SHAPES.append(Shape(title, pieces, checked, shown))
        return pieces

    return put


def numbered(part, whole):
    """The numbers below this part of the whole."""
    return range(int(part * whole))


def lines(count, text):
    """A number of lines of one text."""
    for _ in range(count):
        yield text + "\n"


def joined(count, sign, text):
    """One text a number of times, with a sign between two."""
    yield text
    for _ in range(count - 1):
        yield sign + text


def main_with(items, members=()):
    """An actor Main with these members before its constructor, and with these items in it."""
    yield "actor Main\n"
    yield from members
    yield "  new create(env: Env) =>\n"
    yield from items


def nested(count, levels, opening, inside, closing):
    """A number of items, each of a number of levels."""
    return lines(count, opening * levels + inside + closing * levels)


def levels_at(part):
    """The levels below that of a body."""
    return int(part * 199)


# Tokens and nodes.


@shape("tokens: 199,990 numbers, one a line")
def numbers(part):
    yield from main_with(lines(int(part * 199_990), "0"))


@shape("nodes: 99,997 reads of a field")
def reads(part):
    yield from main_with(lines(int(part * 99_997), "_f"), ["  var _f: U64 = 0\n"])


@shape("a chain of 99,990 operands")
def sums(part):
    yield from main_with(joined(int(part * 99_990), " + ", "0"))


@shape("a chain of 99,990 truth values")
def truths(part):
    yield from main_with(joined(int(part * 99_990), " and ", "true"))


@shape("a chain of 49,900 calls")
def calls(part):
    yield "class C\n  fun m(): C box => this\n"
    yield from main_with(["let c: C box = C\nc"])
    yield from (".m()" for _ in numbered(part, 49_900))


@shape("a chain of 95,000 fields")
def fields_of_fields(part):
    yield "class C\n  let f: C box\n  new create(c: C box) => f = c\n  fun last(): C box => f"
    yield from (".f" for _ in numbered(part, 95_000))
    yield "\n"
    yield from main_with(["0"])


@shape("33,300 arms of one if")
def arms(part):
    yield from main_with(["if true then 0\n"])
    yield from ("elseif true then 0\n" for _ in numbered(part, 33_300))
    yield "else 0 end\n"


@shape("1,500 calls with 62 arguments")
def arguments(part):
    parameters = ", ".join(f"a{n}: U64" for n in range(62))
    zeros = ", ".join("0" for _ in range(62))
    yield from main_with(lines(int(part * 1_500), f"m({zeros})"), [f"  fun m({parameters}) => 0\n"])


# Levels of nesting, at a fixed number of items.


@shape("200 levels of groups")
def groups(part):
    yield from main_with(nested(501, levels_at(part), "(", "0", ")"))


@shape("200 levels of if")
def ifs(part):
    yield from main_with(nested(167, levels_at(part), "if true then ", "0", " end"))


@shape("200 levels of while")
def whiles(part):
    yield from main_with(nested(250, levels_at(part), "while false do ", "0", " end"))


@shape("200 levels of recover")
def recovers(part):
    yield from main_with(nested(430, levels_at(part), "recover ", "0", " end"))


@shape("200 levels of not")
def nots(part):
    yield from main_with(nested(999, levels_at(part), "not ", "true", ""))


@shape("200 levels of assignments")
def assignments(part):
    yield from main_with(itertools.chain(["var a: U64 = 0\n"], nested(500, levels_at(part), "a = ", "0", "")))


@shape("200 levels of arguments")
def arguments_of_arguments(part):
    yield from main_with(nested(330, levels_at(part), "m(", "0", ")"), ["  fun m(n: U64): U64 => n\n"])


# Entities.


@shape("entities: 999 classes, the last one named 190,000 times")
def classes(part):
    yield from (f"class E{n}\n" for n in numbered(part, 999))
    yield from main_with(lines(int(part * 190_000), f"E{int(part * 999) - 1}"))


@shape("48,000 parameters of the last of 999 classes")
def types_of_parameters(part):
    count = int(part * 999)
    parameters = ", ".join(f"a{n}: E{count - 1}" for n in range(62))
    yield from (f"class E{n}\n" for n in range(count))
    yield from main_with(["0\n"])
    yield from (f"  fun m{n}({parameters}) => 0\n" for n in numbered(part, 775))


@shape("entities: 999 classes of nine methods")
def classes_of_methods(part):
    methods = "".join(f"  fun m{n}() => 0\n" for n in range(9))
    yield from (f"class E{n}\n{methods}" for n in numbered(part, 999))
    yield from main_with(["0"])


@shape("520 names of 1,000 bytes with one beginning, each used")
def long_type_names(part):
    names = [f"A{'a' * 994}{n:04}" for n in numbered(part, 520)]
    yield from (f"class {name}\n" for name in names)
    yield from main_with(f"{name}\n" for name in names)


# Fields.


@shape("fields: 64 in each of 517 classes")
def fields(part):
    members = "".join(f"  var _f{n}: U64 = 0\n" for n in numbered(part, 64))
    yield from (f"class E{n}\n{members}" for n in range(517))
    yield from main_with(["0"])


@shape("fields: 95,000 reads of the last of 64")
def reads_of_the_last(part):
    members = [f"  var _f{n}: U64 = 0\n" for n in numbered(part, 64)]
    yield from main_with(lines(int(part * 95_000), f"_f{len(members) - 1}"), members)


@shape("fields: 60 with values, in 1,000 constructors")
def values_in_constructors(part):
    yield "class C\n"
    yield from (f"  var _f{n}: U64 = 0\n" for n in range(60))
    yield from (f"  new c{n}() => 0\n" for n in numbered(part, 1_000))
    yield from main_with(["0"])


@shape("a value of 30,000 operands, in 9,000 constructors", LIMIT)
def long_value_in_constructors(part):
    yield "class C\n  var _f: U64 = "
    yield from joined(int(part * 30_000), " + ", "0")
    yield from (f"\n  new c{n}() => 0" for n in numbered(part, 9_000))
    yield "\n"
    yield from main_with(["0"])


# Methods.


@shape("methods: 9,998 of one class")
def methods(part):
    yield "class C\n"
    yield from (f"  fun m{n}() => 0\n" for n in numbered(part, 9_998))
    yield from main_with(["0"])


@shape("30,000 calls of the last of 9,000 methods")
def calls_of_the_last(part):
    members = [f"  fun m{n}() => 0\n" for n in numbered(part, 9_000)]
    yield from main_with(lines(int(part * 30_000), f"m{len(members) - 1}()"), members)


@shape("25,000 calls of the last of 9,000 constructors")
def calls_of_the_last_constructor(part):
    count = int(part * 9_000)
    yield "class C\n"
    yield from (f"  new c{n}() => 0\n" for n in range(count))
    yield from main_with(lines(int(part * 25_000), f"C.c{count - 1}()"))


@shape("4,900 methods with names of 95 bytes, each called")
def long_method_names(part):
    names = ["a" * 91 + f"{n:04}" for n in numbered(part, 4_900)]
    yield from main_with((f"{name}()\n" for name in names), (f"fun {name}()=>0\n" for name in names))


@shape("49,000 methods of one trait", LIMIT)
def too_many_methods(part):
    yield "trait T\n"
    yield from (f"  fun m{n}()\n" for n in numbered(part, 49_000))
    yield from main_with(["0"])


@shape("65,000 names behind a dot", NO_RULE)
def names_after_dots(part):
    yield from main_with(f"this.a{n}\n" for n in numbered(part, 65_000))


# Traits.


@shape("a class with the 4,999 methods of its trait")
def methods_of_a_trait(part):
    yield "trait T\n"
    yield from (f"  fun m{n}()\n" for n in numbered(part, 4_999))
    yield "class C is T\n"
    yield from (f"  fun m{n}() => 0\n" for n in numbered(part, 4_999))
    yield from main_with(["0"])


@shape("990 classes with the nine methods of a trait")
def classes_of_a_trait(part):
    yield "trait T\n"
    yield from (f"  fun m{n}()\n" for n in range(9))
    methods_of_one = "".join(f"  fun m{n}() => 0\n" for n in range(9))
    yield from (f"class E{n} is T\n{methods_of_one}" for n in numbered(part, 990))
    yield from main_with(["0"])


@shape("999 traits in a chain, ten methods inherited")
def chain(part):
    yield "trait T0\n"
    yield from (f"  fun m{n}()\n" for n in range(10))
    yield from (f"trait T{n + 1} is T{n}\n" for n in numbered(part, 998))
    yield from main_with(["0"])


@shape("999 traits in a chain, ten methods written in each")
def chain_with_methods(part):
    methods_of_one = "".join(f"  fun m{n}()\n" for n in range(10))
    yield "trait T0\n" + methods_of_one
    yield from (f"trait T{n + 1} is T{n}\n{methods_of_one}" for n in numbered(part, 998))
    yield from main_with(["0"])


@shape("999 traits in a chain, 640,000 slots inherited")
def chain_of_slots(part):
    parameters = ", ".join(f"a{n}: U64" for n in range(63))
    yield "trait T0\n"
    yield from (f"  fun m{n}({parameters})\n" for n in range(10))
    yield from (f"trait T{n + 1} is T{n}\n" for n in numbered(part, 998))
    yield from main_with(["0"])


@shape("60,000 values of the last of 998 traits, kept as the first")
def values_of_the_last_trait(part):
    count = int(part * 998)
    yield "trait T0\n"
    yield from (f"trait T{n} is T{n - 1}\n" for n in range(1, count))
    yield f"class C\n  fun m(last: T{count - 1} tag) =>\n    var a: T0 tag = last\n"
    yield from lines(int(part * 60_000), "a = last")
    yield from main_with(["0"])


@shape("999 traits, each below the two before it")
def two_before(part):
    yield "trait T0\n"
    yield from (f"  fun m{n}()\n" for n in range(10))
    yield "trait T1 is T0\n"
    yield from (f"trait T{n + 2} is (T{n + 1} & T{n})\n" for n in numbered(part, 997))
    yield from main_with(["0"])


@shape("440 traits, each below all before it")
def all_before(part):
    yield "trait T0\n"
    yield from (f"  fun m{n}()\n" for n in range(20))
    yield from (f"trait T{n} is ({' & '.join(f'T{k}' for k in range(n))})\n" for n in numbered(part, 440) if n > 0)
    yield from main_with(["0"])


def traits_below(count, before):
    """A number of traits after the first, each below `before` traits before it, or below all of them if there are fewer."""
    for n in range(1, count):
        yield f"trait T{n} is ({' & '.join(f'T{k}' for k in range(max(0, n - before), n))})\n"


@shape("995 traits, each below the 97 before it")
def many_before(part):
    yield "trait T0\n  fun m()\n"
    yield from traits_below(int(part * 995), 97)
    yield from main_with(["0"])


@shape("999 traits in a cycle", WRONG_NAMES)
def cycle(part):
    count = int(part * 999)
    yield from (f"trait T{n} is T{(n + 1) % count}\n" for n in range(count))
    yield from main_with(["0"])


@shape("999 traits in a chain, ten new methods in each", LIMIT)
def chain_of_new_methods(part):
    yield "trait T0\n"
    for n in numbered(part, 998):
        yield f"trait T{n + 1} is T{n}\n"
        yield from (f"  fun m{n}x{k}()\n" for k in range(10))
    yield from main_with(["0"])


@shape("24,000 methods of the first of 500 traits in a chain", LIMIT)
def many_methods_above_a_chain(part):
    yield "trait T0\n"
    yield from (f"  fun m{n}()\n" for n in numbered(part, 24_000))
    yield from (f"trait T{n + 1} is T{n}\n" for n in numbered(part, 499))
    yield from main_with(["0"])


@shape("24,000 methods of the first of 300 traits, each below all before it", LIMIT)
def many_methods_above_many_names(part):
    yield "trait T0\n"
    yield from (f"  fun m{n}()\n" for n in numbered(part, 24_000))
    yield from (f"trait T{n} is ({' & '.join(f'T{k}' for k in range(n))})\n" for n in numbered(part, 300) if n > 0)
    yield from main_with(["0"])


# Interfaces: what an entity is below by its methods.


def methods_without_bodies(count, rest="()"):
    """A number of methods of an interface, with these parameters and results."""
    return (f"  fun m{n}{rest}\n" for n in range(count))


def methods_with_bodies(count, rest="()", body="0"):
    """The same of a class."""
    return (f"  fun m{n}{rest} => {body}\n" for n in range(count))


def row_of(count, name):
    """A number of parameters of one type."""
    return ", ".join(f"a{n}: {name}" for n in range(count))


def interface_and_class(count, rest="()", body="0"):
    """An interface, and a class that has its methods and does not name it."""
    yield "interface I\n"
    yield from methods_without_bodies(count, rest)
    yield "class C\n"
    yield from methods_with_bodies(count, rest, body)


@shape("1,150 calls with 62 arguments of a class below an interface of 4,990 methods")
def arguments_below_an_interface(part):
    arguments = ", ".join("c" for _ in range(62))
    yield from interface_and_class(int(part * 4_990))
    calls_of_it = lines(int(part * 1_150), f"m({arguments})")
    yield from main_with(itertools.chain(["let c: C = C\n"], calls_of_it), [f"  fun m({row_of(62, 'I')}) => 0\n"])


@shape("40,000 values of a class kept as an interface of 4,900 methods")
def values_kept_as_an_interface(part):
    yield from interface_and_class(int(part * 4_900))
    kept = lines(int(part * 40_000), "a = c")
    yield from main_with(itertools.chain(["let c: C = C\nvar a: I = c\n"], kept))


@shape("20,000 values kept as an interface of 150 methods, whose 20 parameters are the last of 800 traits in a chain")
def chains_in_an_interface(part):
    count = int(part * 800)
    yield "trait T0\n"
    yield from (f"trait T{n} is T{n - 1}\n" for n in range(1, count))
    yield "interface I\n"
    yield from methods_without_bodies(150, f"({row_of(20, f'T{count - 1}')})")
    yield "class C\n"
    yield from methods_with_bodies(150, f"({row_of(20, f'T{count - 2}')})")
    yield from main_with(itertools.chain(["let c: C = C\nvar a: I = c\n"], lines(int(part * 20_000), "a = c")))


@shape("20,000 values kept as an interface of 300 methods, whose results are the last of 800 traits in a chain")
def chains_in_results(part):
    count = int(part * 800)
    yield "trait T0\n"
    yield from (f"trait T{n} is T{n - 1}\n" for n in range(1, count))
    yield "interface I\n"
    yield from methods_without_bodies(300, f"(a: T{count - 1}): T{count - 2}")
    yield "class C\n"
    yield from methods_with_bodies(300, f"(a: T{count - 1}): T{count - 1}", "a")
    yield from main_with(itertools.chain(["let c: C = C\nvar a: I = c\n"], lines(int(part * 20_000), "a = c")))


@shape("50,000 values kept as an interface of one method with 62 parameters")
def many_parameters_in_an_interface(part):
    yield from interface_and_class(1, f"({row_of(62, 'U64')})")
    yield from main_with(itertools.chain(["let c: C = C\nvar a: I = c\n"], lines(int(part * 50_000), "a = c")))


@shape("39,200 new values of 980 classes kept as one interface of five methods")
def classes_below_one_interface(part):
    yield "interface I\n"
    yield from methods_without_bodies(5)
    of_one = "".join(methods_with_bodies(5))
    yield from (f"class E{n}\n{of_one}" for n in numbered(part, 980))
    kept = (f"a = E{n}\n" for _ in range(40) for n in numbered(part, 980))
    yield from main_with(itertools.chain(["var a: I = E0\n"], kept))


@shape("40,000 values of one of 900 interfaces in a chain kept as another")
def interfaces_in_a_chain(part):
    count = int(part * 900)
    yield "interface I0\n  fun m(): U64\n"
    yield from (f"interface I{n} is I{n - 1}\n" for n in range(1, count))
    yield f"class C\n  fun m(first: I0 tag) =>\n    var a: I{count - 1} tag = first\n"
    yield from lines(int(part * 40_000), "a = first")
    yield from main_with(["0"])


@shape("980 interfaces that take over ten methods of 60 parameters")
def interfaces_that_take_over(part):
    yield "trait T\n"
    yield from methods_with_bodies(10, f"({row_of(60, 'T')})", "None")
    yield from (f"interface I{n} is T\n" for n in numbered(part, 980))
    yield from main_with(["0"])


@shape("980 interfaces of ten methods")
def interfaces_of_methods(part):
    of_one = "".join(methods_without_bodies(10))
    yield from (f"interface I{n}\n{of_one}" for n in numbered(part, 980))
    yield from main_with(["0"])


@shape("980 interfaces of one method with 47 parameters")
def interfaces_of_parameters(part):
    of_one = "".join(methods_without_bodies(1, f"({row_of(47, 'I0')})"))
    yield from (f"interface I{n}\n{of_one}" for n in numbered(part, 980))
    yield from main_with(["0"])


@shape("980 interfaces of one method with 47 parameters, the last of its own type")
def interfaces_that_differ_at_the_last(part):
    for n in numbered(part, 980):
        yield f"interface I{n}\n  fun m({row_of(46, 'U64')}, b: I{n})\n"
    yield from main_with(["0"])


@shape("495 interfaces of one method with 62 parameters, each of another trait of a chain")
def interfaces_along_a_chain(part):
    count = int(part * 495)
    yield "trait T0\n"
    yield from (f"trait T{n} is T{n - 1}\n" for n in range(1, count))
    yield from (f"interface I{n}\n  fun m({row_of(62, f'T{n}')})\n" for n in range(count))
    yield from main_with(["0"])


@shape("80 calls of functions of ten traits, in a body that 900 classes take over")
def calls_of_many_classes(part):
    parameters = ", ".join(f"t{n}: T{n} box" for n in range(10))
    yield "trait T0\n"
    yield from methods_with_bodies(8)
    yield f"  fun go({parameters}) =>\n"
    yield from (f"    t{n}.m{k}()\n" for n in range(10) for k in range(8))
    yield from (f"trait T{n} is T{n - 1}\n" for n in range(1, 10))
    yield from classes_below(part, 900, "T9")
    yield from main_with(["    let c: T9 box = E0\n", f"    c.go({', '.join('c' for _ in range(10))})\n"])


# Names as somebody chooses them.


@functools.cache
def names_of_one_hash(count):
    """Names that fall into one place of a table whose hash has a fixed key. Wants a C compiler."""
    source = pathlib.Path(__file__).resolve().parent / "same_hash.c"
    with tempfile.TemporaryDirectory() as folder:
        search = pathlib.Path(folder) / "same_hash"
        subprocess.run(["cc", "-Wall", "-Wextra", "-O2", "-o", search, source], check=True)
        found = subprocess.run([search, str(count)], check=True, capture_output=True, text=True)
    return found.stdout.split()


def after_dots(names):
    """Each name after a `.`. No entity has one of them."""
    return main_with(f"this.{name}\n" for name in names)


@shape("50,000 names of one length behind a dot", NO_RULE)
def names_of_one_length(part):
    yield from after_dots(f"a{n:07}" for n in numbered(part, 50_000))


@shape("50,000 names with one beginning behind a dot", NO_RULE)
def names_of_one_beginning(part):
    yield from after_dots(f"aaaaaaaaa{n}" for n in numbered(part, 50_000))


@shape("50,000 names chosen for one hash behind a dot", NO_RULE)
def names_chosen(part):
    yield from after_dots(names_of_one_hash(50_000)[: int(part * 50_000)])


@shape("9,900 methods whose names were chosen for one hash, each called")
def methods_chosen(part):
    names = names_of_one_hash(50_000)[: int(part * 9_900)]
    yield from main_with((f"{name}()\n" for name in names), (f"  fun {name}() => 0\n" for name in names))


@shape("28,000 locals of one body whose names were chosen for one hash", LIMIT)
def locals_chosen(part):
    yield from main_with(f"let {name}: U64 = 0\n" for name in names_of_one_hash(50_000)[: int(part * 28_000)])


@shape("49,000 parameters of one method whose names were chosen for one hash", LIMIT)
def parameters_chosen(part):
    parameters = ", ".join(f"{name}: U64" for name in names_of_one_hash(50_000)[: int(part * 49_000)])
    yield from main_with(["0"], [f"  fun m({parameters}) => 0\n"])


# Bodies of traits, which are in the core once for each entity that takes them over.


@shape("nodes: a body of 190 numbers that 998 classes take over")
def body_of_many_classes(part):
    yield "trait T\n  fun m() =>\n"
    yield from lines(190, "    0")
    yield from (f"class E{n} is T\n" for n in numbered(part, 998))
    yield from main_with(["0"])


@shape("a body of 190,000 numbers that 998 classes would take over", LIMIT)
def long_body_of_many_classes(part):
    yield "trait T\n  fun m() =>\n"
    yield from lines(int(part * 190_000), "0")
    yield from (f"class E{n} is T\n" for n in range(998))
    yield from main_with(["0"])


@shape("a body of 190 texts of 4,096 bytes that 998 classes take over")
def texts_of_many_classes(part):
    yield "trait T\n  fun m() =>\n"
    yield from lines(190, f'"{"a" * int(part * 4_096)}"')
    yield from (f"class E{n} is T\n" for n in range(998))
    yield from main_with(["0"])


@shape("slots: a body of 62 locals that 998 classes take over")
def locals_of_many_classes(part):
    items = "".join(f"    var a{n}: U64 = 0\n" for n in range(62))
    yield f"trait T\n  fun m() =>\n{items}"
    yield from (f"class E{n} is T\n" for n in numbered(part, 998))
    yield from main_with(["0"])


@shape("methods: 100 classes that take over the 98 methods of a trait")
def classes_that_take_over(part):
    yield "trait T\n"
    yield from (f"  fun m{n}() => 0\n" for n in range(98))
    yield from (f"class E{n} is T\n" for n in numbered(part, 100))
    yield from main_with(["0"])


@shape("102 classes that would take over the 98 methods of a trait", LIMIT)
def classes_that_take_over_too_many(part):
    yield "trait T\n"
    yield from (f"  fun m{n}() => 0\n" for n in range(98))
    yield from (f"class E{n} is T\n" for n in range(102))
    yield from main_with(lines(int(part * 190_000), "0"))


@shape("methods: a class with the 4,998 bodies of its trait")
def bodies_of_a_trait(part):
    yield "trait T\n"
    yield from (f"  fun m{n}() => 0\n" for n in numbered(part, 4_998))
    yield "class C is T\n"
    yield from main_with(["0"])


@shape("a class with the bodies of 499 traits, ten of each")
def bodies_of_many_traits(part):
    count = int(part * 499)
    for n in range(count):
        yield f"trait T{n}\n"
        yield from (f"  fun m{n}x{k}() => 0\n" for k in range(10))
    yield f"class C is ({' & '.join(f'T{n}' for n in range(count))})\n"
    yield from main_with(["0"])


@shape("990 traits in a chain, with ten bodies, and a class below the last")
def chain_of_bodies(part):
    count = int(part * 990)
    yield "trait T0\n"
    yield from (f"  fun m{n}() => 0\n" for n in range(10))
    yield from (f"trait T{n} is T{n - 1}\n" for n in range(1, count))
    yield f"class C is T{count - 1}\n"
    yield from main_with(["0"])


@shape("139 traits in a chain, a new body in each, and a class below the last")
def chain_of_new_bodies(part):
    count = int(part * 139)
    yield "trait T0\n  fun m0() => 0\n"
    yield from (f"trait T{n} is T{n - 1}\n  fun m{n}() => 0\n" for n in range(1, count))
    yield f"class C is T{count - 1}\n"
    yield from main_with(["0"])


@shape("an unknown name at the end of a body of 190,000 numbers", WRONG_NAMES)
def bad_name_in_a_trait(part):
    yield "trait T\n  fun m() =>\n"
    yield from lines(int(part * 190_000), "0")
    yield "a\n"
    yield from (f"class E{n} is T\n" for n in range(998))
    yield from main_with(["0"])


@shape("190,000 numbers in a body that nothing takes over")
def body_of_nothing(part):
    yield "trait T\n  fun m() =>\n"
    yield from lines(int(part * 190_000), "0")
    yield from main_with(["0"])


# Long names, which would be read once for each entity if they were not read once for each place in the text.


def long_name(letter, part, whole):
    """A name of a part of this number of bytes."""
    return letter + "a" * (int(part * whole) - 1)


def classes_below(part, whole, name="T"):
    """A part of this number of classes, which name a trait and have nothing else."""
    return (f"class E{n} is {name}\n" for n in numbered(part, whole))


@shape("a method with a name of 1,030,000 bytes that 990 classes take over")
def long_method_of_many_classes(part):
    yield f"trait T\n  fun {long_name('m', part, 1_030_000)}() => 0\n"
    yield from classes_below(part, 990)
    yield from main_with(["0"])


@shape("a method with a name of 1,030,000 bytes of an interface that 990 classes take over")
def long_method_of_an_interface(part):
    yield f"interface T\n  fun {long_name('m', part, 1_030_000)}() => 0\n"
    yield from classes_below(part, 990)
    yield from main_with(["0"])


@shape("a method with a name of 1,020,000 bytes of the first of 990 traits in a chain")
def long_method_above_a_chain(part):
    yield f"trait T0\n  fun {long_name('m', part, 1_020_000)}()\n"
    yield from (f"trait T{n + 1} is T{n}\n" for n in numbered(part, 989))
    yield from main_with(["0"])


@shape("ten methods with names of 50,000 bytes of the first of 600 traits, each below the 90 before it")
def long_methods_above_many_names(part):
    yield "trait T0\n"
    yield from (f"  fun {long_name('m', part, 50_000)}{n}()\n" for n in range(10))
    yield from traits_below(int(part * 600), 90)
    yield from main_with(["0"])


@shape("a parameter with a name of 1,030,000 bytes of a method that 990 classes take over")
def long_parameter_of_many_classes(part):
    yield f"trait T\n  fun m({long_name('p', part, 1_030_000)}: U64) => 0\n"
    yield from classes_below(part, 990)
    yield from main_with(["0"])


@shape("a local with a name of 1,030,000 bytes in a body that 990 classes take over")
def long_local_of_many_classes(part):
    yield f"trait T\n  fun m() =>\n    var {long_name('l', part, 1_030_000)}: U64 = 0\n"
    yield from classes_below(part, 990)
    yield from main_with(["0"])


@shape("62 locals with names of 8,000 bytes, the last of them read 60 times, in a body that 990 classes take over")
def long_locals_of_many_classes(part):
    names = [f"{long_name('l', part, 8_000)}{n}" for n in range(62)]
    yield "trait T\n  fun m() =>\n"
    yield from (f"    var {name}: U64 = 0\n" for name in names)
    yield from lines(60, names[-1])
    yield from classes_below(part, 990)
    yield from main_with(["0"])


@shape("200 reads of a field with a name of 1,500 bytes, in a body that 450 classes with such a field take over")
def long_field_of_many_classes(part):
    name = long_name("f", part, 1_500)
    yield "trait T\n  fun m() =>\n"
    yield from lines(200, name)
    yield from (f"class E{n} is T\n  var {name}: U64 = 0\n" for n in numbered(part, 450))
    yield from main_with(["0"])


@shape("95 calls of a method with a name of 10,000 bytes, in a body that 990 classes take over")
def long_calls_of_many_classes(part):
    name = long_name("m", part, 10_000)
    yield f"trait T\n  fun {name}() => 0\n  fun n() =>\n"
    yield from lines(95, f"{name}()")
    yield from classes_below(part, 990)
    yield from main_with(["0"])


@shape("95 objects of a class with a name of 10,000 bytes, in a body that 990 classes take over")
def long_objects_of_many_classes(part):
    name = long_name("C", part, 10_000)
    yield f"class {name}\ntrait T\n  fun n() =>\n"
    yield from lines(95, name)
    yield from classes_below(part, 990)
    yield from main_with(["0"])


# Slots.


@shape("slots: 63 locals in each of 517 methods")
def slots(part):
    items = "".join(f"    var a{n}: U64 = 0\n" for n in numbered(part, 63))
    yield from main_with(["0\n"])
    yield from (f"  fun m{n}() =>\n{items}" for n in range(517))


@shape("slots: 190,000 reads of the last of 62 locals")
def reads_of_a_local(part):
    items = [f"var a{n}: U64 = 0\n" for n in numbered(part, 62)]
    reads_of_it = lines(int(part * 190_000), f"a{len(items) - 1}")
    yield from main_with(itertools.chain(items, reads_of_it))


@shape("28,000 locals in one body", LIMIT)
def too_many_locals(part):
    yield from main_with(f"let a{n}: U64 = 0\n" for n in numbered(part, 28_000))


@shape("49,000 parameters of one method", LIMIT)
def too_many_parameters(part):
    parameters = ", ".join(f"a{n}: U64" for n in numbered(part, 49_000))
    yield from main_with(["0"], [f"  fun m({parameters}) => 0\n"])


# Texts, and the bytes of a source.


@shape("text bytes: 250 texts of 4,096 bytes")
def long_texts(part):
    yield from main_with(lines(250, f'"{"a" * int(part * 4_096)}"'))


@shape("text bytes: 63 texts of 4,096 escapes")
def texts_of_escapes(part):
    escapes = "\\x41" * int(part * 4_096)
    yield from main_with(lines(63, f'"{escapes}"'))


@shape("199,990 texts of one byte")
def short_texts(part):
    yield from main_with(lines(int(part * 199_990), '"a"'))


@shape("source bytes: a comment of 262,000 levels")
def comment(part):
    count = int(part * 262_000)
    yield "/*" * count + "*/" * count + "\n"
    yield from main_with(["0"])


@shape("source bytes: 1,048,000 line ends")
def line_ends(part):
    yield "\n" * int(part * 1_048_000)
    yield from main_with(["0"])


@shape("source bytes: one name of 1,048,000 bytes")
def one_name(part):
    yield f"class A{'a' * int(part * 1_048_000)}\n"
    yield from main_with(["0"])


# A program as somebody may write it, and not one that costs much.

PAIR = """\
class Account{n} is Report
  let _name: String
  var _sum: U64 = 0
  var _times: U64 = 0

  new iso create(name: String) =>
    _name = name

  fun ref add(value: U64): U64 =>
    _times = _times + 1
    _sum = _sum + value
    _sum

  fun ref take(value: U64): Bool =>
    if (value <= _sum) and (_times < 1000) then
      _times = _times + 1
      _sum = _sum - value
      true
    else
      false
    end

  fun squares(most: U64): U64 =>
    var n: U64 = 0
    var sum: U64 = 0
    while n < most do
      sum = sum + (n * n)
      n = n + 1
    end
    sum

  fun line(): String => _name + ": " + _sum.string() + " in " + _times.string() + " steps"

actor Teller{n}
  let _out: OutStream
  var _account: Account{n} iso

  new create(out: OutStream, account: Account{n} iso) =>
    _out = out
    _account = consume account

  be deposit(value: U64) =>
    _account.add(value)

  be withdraw(value: U64, to: Teller{n}) =>
    if _account.take(value) then
      to.deposit(value)
    else
      _out.print("refused " + value.string())
    end

  be report() =>
    _out.print(_account.line())

"""


@shape("a program of 485 classes and as many actors")
def program(part):
    yield "trait Report\n  fun line(): String\n\n"
    yield from (PAIR.format(n=n) for n in numbered(part, 485))
    yield from main_with(['    let teller: Teller0 = Teller0(env.out, Account0("ann"))\n', "    teller.deposit(100)\n", "    teller.report()\n"])


# Faults at the end.


@shape("a byte that is no token, behind 199,990 numbers", NO_TOKENS, NO_TOKENS)
def bad_byte(part):
    yield from numbers(part)
    yield "?"


@shape("a token that fits nowhere, behind 199,980 numbers", NO_TOKENS, NO_TOKENS)
def bad_token(part):
    yield from main_with(lines(int(part * 199_980), "0"))
    yield "end"


@shape("a name that is not there, behind 199,980 numbers", WRONG_NAMES)
def bad_name(part):
    yield from main_with(lines(int(part * 199_980), "0"))
    yield "a"


@shape("a call that has no rule, behind 199,900 numbers", NO_RULE)
def bad_call(part):
    yield from main_with(lines(int(part * 199_900), "0"))
    yield "0.a()"


# Sources of nearly the greatest size that are refused, for their explanations.


@shape("a program whose last call is refused", NO_RULE)
def refused_program(part):
    yield from program(part)
    yield "    teller.deposit(true)\n"


@shape("a field that 22,000 ifs may set", NO_RULE)
def may_be_set(part):
    yield "class C\n  var f: U64\n  new create(b: Bool) =>\n"
    yield from lines(int(part * 22_000), "if b then f = 1 end")
    yield from main_with(["0\n"])


@shape("64 fields that 340 ifs may set each", NO_RULE)
def may_all_be_set(part):
    fields = [f"f{n}" for n in range(64)]
    yield "class C\n" + "".join(f"  var {name}: U64\n" for name in fields) + "  new create(b: Bool) =>\n"
    yield from ("".join(f"if b then {name} = 1 end\n" for name in fields) for _ in numbered(part, 340))
    yield from main_with(["0\n"])


@shape("a name that is not there, where 30,000 parameters are", WRONG_NAMES)
def bad_name_among_parameters(part):
    yield "actor Main\n  new create(env: Env) => None\n  fun m("
    yield from (f"p{n}: U64, " for n in numbered(part, 30_000))
    yield "q: U64) =>\n    a\n"


@shape("a class that is not below an interface of 4,990 methods, for the last of them", NO_RULE)
def not_below_an_interface(part):
    count = int(part * 4_990)
    yield "interface I\n"
    yield from (f"  fun m{n}()\n" for n in range(count))
    yield "class C\n"
    yield from (f"  fun m{n}() => None\n" for n in range(count - 1))
    yield from main_with(["    let c: C ref = C\n", "    let i: I box = c\n"])


@shape("a local that is not live, after 60,000 consumes", NO_RULE)
def not_live(part):
    yield from main_with(["    var a: U64 = 0\n"])
    yield from lines(int(part * 30_000), "    a = consume a")
    yield "    let b: U64 = consume a\n    a\n"


@shape("a call of 30,000 arguments", NO_RULE)
def too_many_arguments(part):
    yield from main_with(["    let c: Main = Main.create("])
    yield from lines(int(part * 30_000), "0,")
    yield "0)\n"


@shape("a line of 1,040,000 bytes, refused at its end", NO_RULE)
def long_line(part):
    yield "actor Main\n  new create(env: Env) => "
    yield from joined(int(part * 99_000), "; ", "\"aaaaaa\"")
    yield "; not 1"
