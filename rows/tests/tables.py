"""Tables: what the rows of one test have in common is said once.

A table has a title, and each of its rows a text of its own, which together are the row's name. In a table of several files the
source is `a.pony`, and the other text is in `a.der` and in `a.sched`."""

import dataclasses

from steps import ANY, Form, Row, Step, shown

CHECK = ("check", "a.pony")
JUDGE = ("judge", "a.pony", "a.der")
UPGRADE = ("upgrade", "a.pony", "a.der")
RUN = ("run", "a.pony", "a.sched")

# The line of words that are refused.
USAGE = b"usage: rcap COMMAND ARGUMENT ...\n"

# How many characters of a source a name has from its beginning, and how many from its end.
FIRST_NAMED, LAST_NAMED = 60, 40


def named(title, text):
    """The name of a row: the title of its table, and a text that is its own."""
    own = text if isinstance(text, str) else repr(text.decode("latin-1"))
    if len(own) > FIRST_NAMED + LAST_NAMED:
        own = f"{own[:FIRST_NAMED]}..{own[-LAST_NAMED:]}"
    return f"{title}: {own}"


def files(source, other=b""):
    """The files of a table of several files."""
    return {"a.pony": source, "a.der": other, "a.sched": other}


def out_before(answers):
    """What the call before wrote on out."""
    return answers[-1].out


def answered(words, source, other, out):
    """A call that is done, with this on out and nothing on err."""
    return Step(tuple(words), files(source, other), 0, out)


def refused(words, source, other, status, err):
    """A call that is refused with this status and line, and writes nothing on out."""
    return Step(tuple(words), files(source, other), status, b"", err)


def ends(source, status, err):
    """How a source ends with `check`. With status 0 it writes a derivation, which `judge` then accepts; with any other it is
    refused."""
    if status:
        return (refused(CHECK, source, b"", status, err),)
    return (answered(CHECK, source, b"", ANY), answered(JUDGE, source, out_before, b"accepted\n"))


def endings(title, rows, before=b"", after=b""):
    """Sources, each with the status and the line with which it ends, between a beginning and an end that all have."""
    return [Row(named(title, part), ends(before + part + after, status, err)) for part, status, err in rows]


def built(title, rows):
    """The same of sources that are called by a name."""
    return [Row(named(title, name), ends(source, status, err)) for name, source, status, err in rows]


def answers(title, words, rows):
    """A command, and for each name a source, the other text, and what is on out."""
    return [Row(named(title, name), (answered(words, source, other, out),)) for name, source, other, out in rows]


def long(rows):
    """These rows, each as a long one."""
    return [dataclasses.replace(row, is_long=True) for row in rows]


def refusals(title, words, rows):
    """A command, and for each name a source, the other text, and the status and the line with which it is refused."""
    return [Row(named(title, name), (refused(words, source, other, status, err),)) for name, source, other, status, err in rows]


def spoken(title, source, rows):
    """A source, and words, each with the status and the line with which they are refused."""
    made = [(" ".join(words) or "no words", refused(words, source, b"", status, err)) for words, status, err in rows]
    return [Row(named(title, name), (step,)) for name, step in made]


def cut(title, words, source, other, status, out, err):
    """A call that ends with this status and line after it wrote this on out."""
    return Row(title, (Step(tuple(words), files(source, other), status, out, err),))


def between(first, last):
    """A text that begins and ends with these."""
    return Form(f"{shown(first)} .. {shown(last)}", lambda came, before: came.startswith(first) and came.endswith(last))


# A text that has bytes.
SOME = Form("a text", lambda came, before: bool(came))

# The status and the text on out of the call before.
STATUS_BEFORE = Form("the status of the call before", lambda came, before: came == before[-1].status)
OUT_BEFORE = Form("the out of the call before", lambda came, before: came == before[-1].out)


def same_run(title, source, seed):
    """A play, whatever it writes, has the status and the out of the run by the line of its schedule."""
    steps = (
        answered(("schedule", "a.pony", seed), source, b"", SOME),
        Step(("play", "a.pony", seed), files(source), ANY, ANY, ANY),
        Step(RUN, {"a.pony": source, "a.sched": lambda answers: answers[0].out}, STATUS_BEFORE, OUT_BEFORE, ANY),
    )
    return Row(title, steps)


PLACES = ("places", "a.pony")


def fits_names(source):
    """A source whose names have no fault: it has a core, whatever its types are."""
    return Step(PLACES, files(source), 0, SOME)


def name_faults(title, rows):
    """For each name a source, and the status and the line of the fault that `check` and `places` find in its names, or nothing
    if they have none."""
    made = []
    for name, source, fault in rows:
        steps = (refused(CHECK, source, b"", *fault), refused(PLACES, source, b"", *fault)) if fault else (fits_names(source),)
        made.append(Row(named(title, name), steps))
    return made
