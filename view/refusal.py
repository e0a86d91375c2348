"""What a page shows of a refused source: where it is refused, and why, by the line of `check` and the text of `explain`."""

import itertools
import re

import program
import texts

# What is marked if nothing says how long the place is: a name or a number, or one character.
WORD = re.compile(rb"[0-9A-Za-z_']+|[^\x80-\xbf][\x80-\xbf]*", re.DOTALL)
CHARACTER = re.compile(rb"[^\x80-\xbf][\x80-\xbf]*|[\x80-\xbf]", re.DOTALL)

# Statuses of `check` at which `explain` says why.
EXPLAINED = (program.NO_DERIVATION, program.BAD_NAMES)


def explained(path, checked):
    """The text of `explain`, if it has one for this refusal, and else the line of `check` alone."""
    if checked.status not in EXPLAINED:
        return texts.Explanation(checked.line, 0, None, [])
    found = texts.explanation(program.must("explain", path))
    if found.head != checked.line:
        raise program.Failed(f"{path}: explain and check name different faults")
    return found


def start_of(path, source, line):
    """The byte that a line names, or nothing."""
    name = program.shown_path(path)
    found = re.match(r":(\d+):(\d+): ", line.removeprefix(name)) if line.startswith(name) else None
    return source.byte(int(found[1]), int(found[2])) if found else None


def end_of(source, start, explanation):
    """The end of the place, as a byte: as `explain` says, or else that of one word."""
    if explanation.end is not None:
        return source.byte(*explanation.end)
    if explanation.width == 0:
        found = WORD.match(source.data, start)
        return found.end() if found else start
    characters = itertools.islice(CHARACTER.finditer(source.data, start), explanation.width)
    return max((it.end() for it in characters), default=start)


def data(path, source, checked):
    """The refusal: its first line, its place in the shown text, and the lines of the explanation."""
    explanation = explained(path, checked)
    start = start_of(path, source, checked.line)
    place = None
    if start is not None:
        place = [source.place(start), source.place(end_of(source, start, explanation))]
    return {"head": explanation.head, "place": place, "lines": explanation.lines}
