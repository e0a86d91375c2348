"""The programs and schedules whose runs cost most for their turns, and derivations that come from elsewhere."""

import dataclasses
import itertools
import typing

import shapes

ACCEPTED = 0
BAD_LINE = 5
NOT_VALID = 6
LIMIT = 8

# The most turns of a schedule, and the most words of it, with a digit and a blank each.
TURNS = 1_000_000
WORDS = 524_288

RUNS = []
DERIVATIONS = []


@dataclasses.dataclass
class Run:
    """A program with its schedule: what it is called, its source, and, at a part, the pieces of the schedule and its turns; with
    the status of `trace`."""

    title: str
    source: typing.Callable
    schedule: typing.Callable
    traced: int


@dataclasses.dataclass
class Derivation:
    """A derivation's text at a part, for a small source, with the status of `judge`."""

    title: str
    pieces: typing.Callable
    judged: int


def turns_of(actor):
    """The schedule that gives all turns to one actor."""

    def schedule(part):
        turns = int(part * TURNS)
        return [f"{actor}*{turns}\n"], turns

    return schedule


def turns_in_two_halves(first, second):
    """The schedule that gives half of the turns to one actor, and then half to another."""

    def schedule(part):
        half = int(part * TURNS / 2)
        return [f"{first}*{half} {second}*{half}\n"], 2 * half

    return schedule


def words_of(*actors):
    """The schedule of as many words as it may have, one for each turn."""

    def schedule(part):
        rounds = int(part * WORDS / len(actors))
        return (f"{it} " for _ in range(rounds) for it in actors), len(actors) * rounds

    return schedule


def many_makers(part):
    """The schedule that lets Main make actors, and then gives two turns to each of 20,000."""
    made = int(part * 20_000)
    pieces = itertools.chain([f"1*{made * 20}"], (f" {it}*2" for it in range(2, 2 + made)))
    return pieces, made * 22


def run(title, schedule, traced=ACCEPTED):
    """Puts a program among the runs."""

    def put(source):
        RUNS.append(Run(title, source, schedule, traced))
        return source

    return put


def derivation(title, judged):
    """Puts a derivation's text among the derivations."""

    def put(pieces):
        DERIVATIONS.append(Derivation(title, pieces, judged))
        return pieces

    return put


def repeating(item, members=(), before=""):
    """An actor Main that does one thing for ever."""
    return "".join(shapes.main_with([f"{before}while true do {item} end\n"], members))


# Schedules.


@run("turns of an actor that is not there", turns_of(9))
def nothing():
    return repeating("0")


@run("a turn a word", words_of(1))
def word_by_word():
    return repeating("0")


@run("two actors that send to each other, a turn a word", words_of(1, 2))
def two_actors():
    return "actor Other\n  be take(other: Other) => other.take(this)\n" + repeating("o.take(o)", before="let o: Other = Other\n")


@run("many actors, each with its turns", many_makers, traced=LIMIT)
def many_actors():
    return "actor Other\n" + repeating("Other")


# Steps.


@run("a count", turns_of(1))
def counting():
    return repeating("n = n + 1", before="var n: U64 = 0\n")


@run("calls of the last of 9,000 methods", turns_of(1))
def calls_of_the_last():
    return repeating("m8999()", [f"  fun m{n}() => 0\n" for n in range(9_000)])


@run("calls with 62 arguments", turns_of(1))
def calls_with_arguments():
    parameters = ", ".join(f"a{n}: U64" for n in range(62))
    zeros = ", ".join("0" for _ in range(62))
    return repeating(f"m({zeros})", [f"  fun m({parameters}) => 0\n"])


@run("calls in calls, frames of 64 slots", turns_of(1))
def calls_in_calls():
    locals_after = "".join(f"    let a{n}: U64 = 0\n" for n in range(63))
    return repeating("m()", ["  fun m() =>\n    m()\n", locals_after])


@run("calls in calls, bodies of 100 items", turns_of(1))
def calls_with_items():
    return repeating("m()", ["  fun m() =>\n    m()\n", *shapes.lines(100, "0")])


@run("calls in calls, bodies of 190,000 items", turns_of(1))
def calls_with_many_items():
    return repeating("m()", ["  fun m() =>\n    m()\n", "0\n" * 190_000])


@run("calls in calls, each before 61 other arguments", turns_of(1))
def calls_before_arguments():
    parameters = ", ".join(f"a{n}: U64" for n in range(62))
    zeros = ", ".join("0" for _ in range(61))
    return repeating("m()", [f"  fun f({parameters}): U64 => 0\n", f"  fun m(): U64 => f(m(), {zeros})\n"])


@run("reads of the last of 64 fields", turns_of(1))
def reads_of_the_last():
    return repeating("_f63", [f"  var _f{n}: U64 = 0\n" for n in range(64)])


@run("reads of a field where there are 64 actors", turns_of(1))
def reads_among_many():
    return "actor Other\n" + repeating("_f", ["  var _f: U64 = 0\n"], "Other\n" * 62)


@run("objects", turns_of(1))
def objects():
    return "class C\n  var _f: U64 = 0\n" + repeating("C")


@run("actors", turns_of(1), traced=LIMIT)
def actors():
    return "actor Other\n" + repeating("Other")


@run("messages that wait", turns_of(1))
def messages():
    return "actor Other\n  be take(n: U64) => n\n" + repeating("o.take(1)", before="let o: Other = Other\n")


@run("messages that are taken", turns_in_two_halves(1, 2))
def messages_taken():
    return messages()


# Texts of the greatest length.


@run("texts of 4,096 bytes that are compared", turns_of(1))
def compared_texts():
    return repeating("t == t", before=f'let t: String = "{"a" * 4_096}"\n')


@run("texts that are joined to 4,096 bytes", turns_of(1))
def joined_texts():
    return repeating('t + "a"', before=f'let t: String = "{"a" * 4_095}"\n')


@run("texts of 4,096 bytes that are printed", turns_in_two_halves(1, 0))
def printed_texts():
    return repeating("env.out.print(t)", before=f'let t: String = "{"a" * 4_096}"\n')


@run("texts of 4,096 bytes that are handed from call to call", turns_of(1))
def handed_texts():
    return repeating("m(t)", ["  fun m(t: String) =>\n    m(t)\n"], f'let t: String = "{"a" * 4_096}"\n')


@run("texts of 4,096 bytes that are joined in each call and kept", turns_of(1))
def kept_texts():
    body = "  fun m(t: String) =>\n    let u: String = t + \"a\"\n    m(t)\n"
    return repeating("m(t)", [body], f'let t: String = "{"a" * 4_095}"\n')


# A text that grows by 20 pieces. Pieces of less than some hundred bytes would become one.
def grown(name, byte):
    piece = f'"{byte * 200}"'
    return f'var {name}: String = {piece}\n' + f"{name} = {name} + {piece}\n" * 19


@run("texts of many pieces that are compared", turns_of(1))
def compared_pieces():
    other = 'var u: String = "' + "a" * 100 + '"\n' + f'u = u + "{"a" * 195}"\n' * 20
    return repeating("t == u", before=grown("t", "a") + other)


@run("texts of many pieces that are joined in each call and kept", turns_of(1))
def kept_pieces():
    body = "  fun m(t: String) =>\n    let u: String = t + \"a\"\n    m(t)\n"
    return repeating("m(t)", [body], grown("t", "a"))


@run("texts of 4,096 bytes in messages that wait", turns_of(1))
def sent_texts():
    before = f'let o: Other = Other\nlet t: String = "{"a" * 4_096}"\n'
    return "actor Other\n  be take(t: String) => t\n" + repeating("o.take(t)", before=before)


# Derivations.


@derivation("a first line of 33,000,000 bytes", BAD_LINE)
def one_line(part):
    yield "rcap-derivation 1 "
    yield from ("9" * 1_000 for _ in range(int(part * 33_000)))


@derivation("640,000 slots and 200,000 nodes, each line as long as it can be", NOT_VALID)
def longest_lines(part):
    slots, nodes = int(part * 640_000), int(part * 200_000)
    yield f"rcap-derivation 1 {slots} {nodes}\n"
    yield from shapes.lines(slots, "s 4294967295 iso")
    yield from shapes.lines(nodes, "n callrecover 4294967295 iso^" + " ffffffffffffffff" * 4)


@derivation("the same lines in version 2", NOT_VALID)
def longest_lines_of_version_2(part):
    head, *rest = longest_lines(part)
    yield head.replace("rcap-derivation 1 ", "rcap-derivation 2 ")
    yield from rest


@derivation("640,000 slots, and then a bad line", BAD_LINE)
def bad_last_line(part):
    slots = int(part * 640_000)
    yield f"rcap-derivation 1 {slots} 0\n"
    yield from shapes.lines(slots, "s 4294967295 iso")
    yield "s\n"
