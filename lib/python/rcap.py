"""The commands of rcap over texts in memory, by ctypes over librcap.so.

    import rcap
    library = rcap.Library("out/lib/librcap.so")
    answer = library.check(source)
    if answer.status == rcap.NO_DERIVATION:
        print(answer.place, library.explain(source).out.decode())

Texts are bytes. A number that its parameter in C has no room for raises OverflowError. A call is made once with room for a short
text, and again if the text is longer. It takes up to a mebibyte of stack, and lets other threads of Python run meanwhile."""

import ctypes
import dataclasses

DONE = 0
NO_DERIVATION = 1
NO_COMMAND = 2
BAD_SYNTAX = 3
BAD_NAMES = 4
NO_DERIVATION_TEXT = 5
NOT_VALID = 6
NO_SCHEDULE_TEXT = 7
PAST_A_LIMIT = 8
OUT_OF_MEMORY = 11
TEXT_TOO_LONG = 12
NO_TURNS = 15

# Which text a place is in.
NOWHERE = 0
SOURCE = 1
SCHEDULE = 2

# The room that a text is given at first.
FIRST_ROOM = 4096


class _Place(ctypes.Structure):
    _fields_ = [(name, ctypes.c_size_t) for name in ("text", "line", "column", "offset", "end_line", "end_column", "end_offset")]


class _Answer(ctypes.Structure):
    _fields_ = [("out_length", ctypes.c_size_t), ("err_length", ctypes.c_size_t), ("place", _Place)]


@dataclasses.dataclass(frozen=True)
class Place:
    """The byte at which a line points, and the end of the piece that starts there: `text` is SOURCE or SCHEDULE, `line` and `column` are
    counted from 1 and in bytes, and `offset` is the number of bytes before it. The piece is `source[place.offset : place.end_offset]`."""

    text: int
    line: int
    column: int
    offset: int
    end_line: int
    end_column: int
    end_offset: int


@dataclasses.dataclass(frozen=True)
class Answer:
    """What a command answers: its status, what it writes, its line, and the place at which the line points, if it does."""

    status: int
    out: bytes
    err: bytes
    place: Place | None


class Library:
    """The library in a file."""

    def __init__(self, path):
        self._calls = ctypes.CDLL(str(path))

    def check(self, source):
        """Looks for a derivation of the source, and writes it."""
        return self._ask("rcap_check", source)

    def show(self, source):
        """Prints the source in one layout."""
        return self._ask("rcap_show", source)

    def sends(self, source):
        """Writes which entity of the source may send which message in any run."""
        return self._ask("rcap_sends", source)

    def judge(self, source, derivation):
        """Says whether a text is a derivation of the source."""
        return self._ask("rcap_judge", source, derivation)

    def upgrade(self, source, derivation):
        """Judges a derivation, and writes it in version 2 of its text."""
        return self._ask("rcap_upgrade", source, derivation)

    def run(self, source, schedule):
        """Checks the source, and writes what it prints over the schedule."""
        return self._ask("rcap_run", source, schedule)

    def trace(self, source, schedule):
        """Checks the source, and writes each access to a field over the schedule."""
        return self._ask("rcap_trace", source, schedule)

    def swap(self, source, schedule, place):
        """Exchanges the turns of the schedule at a place and at the next, or says why they stay."""
        return self._ask("rcap_swap", source, schedule, numbers=(_number(ctypes.c_uint32, place),))

    def places(self, source):
        """Writes the entities, fields, methods, slots and nodes of the source's core, with their places in it."""
        return self._ask("rcap_places", source)

    def explain(self, source):
        """Explains why the source is refused with NO_DERIVATION or BAD_NAMES, or writes `accepted`. Both are DONE; what `check` refuses
        otherwise is refused as there."""
        return self._ask("rcap_explain", source)

    def events(self, source, schedule):
        """Checks the source, and writes each event of its run over the schedule, with its clock."""
        return self._ask("rcap_events", source, schedule)

    def schedule(self, source, seed):
        """Checks the source, and writes the schedule that a seed chooses for it."""
        return self._ask("rcap_schedule", source, numbers=(_number(ctypes.c_uint64, seed),))

    def play(self, source, seed):
        """Checks the source, and writes what it prints over the schedule that a seed chooses."""
        return self._ask("rcap_play", source, numbers=(_number(ctypes.c_uint64, seed),))

    def outcomes(self, source, count):
        """Checks the source, and writes each different outcome of the plays of the seeds below a count once."""
        return self._ask("rcap_outcomes", source, numbers=(_number(ctypes.c_uint32, count),))

    def _ask(self, name, *texts, numbers=()):
        """Makes a call, and again if a text was longer than its buffer."""
        call = getattr(self._calls, name)
        call.restype = ctypes.c_ubyte
        read = [it for text in texts for it in (ctypes.c_char_p(text), ctypes.c_size_t(len(text)))]
        rooms = [FIRST_ROOM, FIRST_ROOM]
        while True:
            buffers = [ctypes.create_string_buffer(room) for room in rooms]
            laid = [it for buffer in buffers for it in (buffer, ctypes.c_size_t(len(buffer)))]
            answer = _Answer()
            status = call(*read, *numbers, *laid, ctypes.byref(answer))
            lengths = [answer.out_length, answer.err_length]
            if all(length <= room for length, room in zip(lengths, rooms)):
                out, err = (buffer.raw[:length] for buffer, length in zip(buffers, lengths))
                return Answer(status, out, err, _place_of(answer.place))
            rooms = [max(it) for it in zip(lengths, rooms)]


def _number(kind, value):
    """A number as C has it. Of one that is out of range ctypes by itself would take the lowest bits."""
    number = kind(value)
    if number.value != value:
        raise OverflowError(f"{value} is out of range")
    return number


def _place_of(place):
    """The place of an answer, or none."""
    if place.text == NOWHERE:
        return None
    return Place(place.text, place.line, place.column, place.offset, place.end_line, place.end_column, place.end_offset)
