"""Texts that are too long to be written down, each made by a small function."""


def numbered(before, count, after):
    """This many texts, each with its number, counted from 0, between two others."""
    return b"".join(b"%s%d%s" % (before, number, after) for number in range(count))


def spaces(size):
    """This many spaces."""
    return b" " * size


def grouped(count, inner):
    """This number of `(`, what is inside, and as many `)`."""
    return b"(" * count + inner + b")" * count


def in_groups(count):
    """A Main whose body is a number in this number of groups."""
    return b"actor Main\n  new create(env: Env) =>\n    " + grouped(count, b"1") + b"\n"


def opened(count):
    """A Main whose body is this number of `(`."""
    return b"actor Main new create(env: Env) => " + b"(" * count


def main_with_locals(count):
    """A Main whose body defines this many locals, each on a line of its own."""
    return b"class C\nactor Main\n  new create(env: Env) =>\n" + numbered(b"    let a", count, b": C tag = C\n")


def main_with_text(size):
    """A Main with a text of this many bytes as its body."""
    return b'actor Main\n  new create(env: Env) => "' + b"x" * size + b'"\n'


def main_that_joins(size):
    """A Main that prints a text of this many bytes joined with one more."""
    return b'actor Main\n  new create(env: Env) => env.out.print("' + b"x" * size + b'" + "x")\n'


def classes(count, main):
    """This many classes, followed by a Main."""
    return numbered(b"class C", count, b"\n") + main


def class_with_fields(count, main):
    """A class with this number of fields, and a Main."""
    return b"class C\n" + numbered(b"  let f", count, b": U64 = 1\n") + main


def methods(last, main):
    """A trait of a hundred methods and one that takes them over, 97 classes of 99 methods and the constructor that is added, a
    class with this many methods and its constructor, and a Main: 9,902 methods and those of the last class."""
    bodies = numbered(b"  fun m", 99, b"() => None\n")
    parts = [b"trait T\n", numbered(b"  fun m", 100, b"()\n"), b"trait U is T\n"]
    parts += [b"class C%d\n" % number + bodies for number in range(97)]
    return b"".join(parts) + b"class Last\n" + numbered(b"  fun m", last, b"() => None\n") + main


def nodes(main):
    """A class whose 99 constructors have 2,000 nodes each: the 1,995 of the field's initial value, a sum of 998 ones, a write of
    the field with its `this`, None, a sequence and a body. Its method has 1,997, of which 1,995 are such a sum. After the class
    comes a Main whose body is a sequence with what is given; with the sequence and the body themselves that is two nodes more."""
    ones = b"1" + b" + 1" * 997
    made = numbered(b"  new c", 99, b"() => None\n")
    return b"class C\n  var f: U64 = " + ones + b"\n" + made + b"  fun sum(): U64 => " + ones + main


def chain(count, methods=0, closed=False):
    """This many traits, each of which names the next one in a line of 19 bytes and has this many methods. The last one names the
    first, if the chain is closed."""
    bodies = numbered(b"  fun m", methods, b"()\n")
    parts = [b"trait T%03d is T%03d\n%s" % (number, number + 1, bodies) for number in range(count - 1)]
    return b"".join(parts) + b"trait T%03d%s\n%s" % (count - 1, b" is T000" if closed else b"", bodies)


def methods_above(count, main):
    """A Main with one method, a trait with a thousand, one that takes them over, a class with an added constructor, and a
    primitive with this many."""
    declared = b"trait A\n" + numbered(b"  fun m", 1_000, b"()\n") + b"trait B is A\nclass C is A\n"
    return main + declared + b"primitive D\n" + numbered(b"  fun m", count, b"() => None\n")


def methods_taken_over(count, main):
    """A Main with one method, a primitive with this many, a trait with a thousand bodies, and a class that takes them over, with
    an added constructor."""
    bodies = b"trait A\n" + numbered(b"  fun m", 1_000, b"() => None\n")
    return main + b"primitive D\n" + numbered(b"  fun m", count, b"() => None\n") + bodies + b"class C is A\n"


def classes_with_names(one, other, main):
    """Two classes with names of these lengths in bytes, and a Main."""
    return b"class " + b"L" * one + b"\nclass " + b"L" * other + b"\n" + main


def changed(text, old, new):
    """The text with something else in the one place that has this."""
    if text.count(old) != 1:
        raise ValueError(f"{old!r} is there {text.count(old)} times")
    return text.replace(old, new)
