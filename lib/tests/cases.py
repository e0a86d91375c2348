"""What is asked, and what the program answers to it."""

import dataclasses
import functools
import pathlib
import re
import subprocess
import tempfile

import built

# The names that the library has for its texts.
SOURCE, DERIVATION, SCHEDULE = "source", "derivation", "schedule"

# The sources that are explained.
EXPLAINED = built.TOP / "examples" / "refused"

OF_SOURCE = ("check", "show", "sends", "places", "explain")
OF_DERIVATION = ("judge", "upgrade")
OF_SCHEDULE = ("run", "trace", "events")
OF_SEED = ("schedule", "play")

PLACES = (0, 1, 2, 88, 9_999_999, 10_000_000, 4_294_967_295)
SEEDS = (0, 7, 18_446_744_073_709_551_615)
COUNTS = (0, 1, 3, 10_001, 4_294_967_295)

# Sources beside those of the examples: none, line ends, every byte, a fault at the end of many lines, of one long line and of the
# longest text, and a text that is too long.
MORE_SOURCES = (
    b"",
    b"\n\n\r\n",
    bytes(range(256)),
    b"class C\n" * 500 + b"?",
    b" " * 5000 + b"?",
    b"actor Main" + b"\n" * (1_048_576 - 11) + b"?",
    b" " * 1_048_577,
)
SCHEDULES = (b"", b"1*200 0*10", b"7 1*0 x", b"1*1000000 0", b"1*200 2*300 3*300 0*10\n", b"\n\n 1*7 +", b" " * 1_048_577)
DERIVATIONS = (b"", b"rcap-derivation 1 4 7\ns 6 ref\nx\n", b"rcap-derivation 1 700000 7\n")

LINE = re.compile(rb"(source|schedule):(\d+):(\d+): (.*)")

# What is said of a source of which one byte is at fault.
OF_A_BYTE = (b"bad byte", b"not closed", b"bad number", b"bad escape", b"too many tokens")

# A token that begins at a place: a doc, a text, a name, a number, a sign.
TOKEN = re.compile(rb'"""(?:(?!""").|\n)*"""+|"(?:\\.|[^"\\])*"|_?[A-Za-z]\w*\'*|\d\w*|[=!<>]=|=>|.', re.ASCII)

WORD = re.compile(rb"[^ \t\r\n]*")

# The line under the source's line in an explanation: carets, and where a piece ends that goes on after its first line.
CARETS = re.compile(rb" +\| [ \t]*(\^+)(?: \.\. (\d+):(\d+))?")

# The most bytes of a line that an explanation shows, and how many of those before the piece if there are more than FAR.
SHOWN, NEAR, FAR = 160, 60, 100


@dataclasses.dataclass(frozen=True)
class Case:
    """A command, its source, the text beside it, if there is one, and a number, if it has one."""

    command: str
    source: bytes
    beside: bytes | None = None
    number: int | None = None

    def beside_name(self):
        return DERIVATION if self.command in OF_DERIVATION else SCHEDULE

    def title(self):
        beside = "" if self.beside is None else f", {self.beside[:20]!r} of {len(self.beside)}"
        return f"{self.command} {self.source[:30]!r} of {len(self.source)}{beside}, number {self.number}"


@dataclasses.dataclass(frozen=True)
class Answer:
    """What is answered: a status, both texts, and the place: its text, its line, column and offset, and those of its end."""

    status: int
    out: bytes
    err: bytes
    place: tuple


def offset_of(text, row, column):
    """The number of bytes before a place in a text."""
    return sum(len(it) + 1 for it in text.split(b"\n")[: row - 1]) + column - 1


def explained_end(source, offset):
    """The end of what an explanation of a source has carets under, from the byte at this offset on."""
    carets = CARETS.fullmatch(wanted(Case("explain", source)).out.split(b"\n")[2])
    if carets[2] is not None:
        return offset_of(source, int(carets[2]), int(carets[3]))
    before = len(source[:offset].split(b"\n")[-1])
    rest = source[offset:].split(b"\n")[0]
    # There is a caret under each character.
    ends = [at for at in range(1, len(rest) + 1) if at == len(rest) or rest[at] & 0xC0 != 0x80]
    size = ends[len(carets[1]) - 1]
    if size == SHOWN - (before if before <= FAR else NEAR) and size < len(rest):
        raise AssertionError(f"no more than {size} bytes are shown of {source[offset:][:size]}")
    return offset + size


def end_of(case, number, offset, said):
    """The end of the piece that starts at a byte, worked out from what is said of it, and from the text."""
    if number == 2:
        return WORD.match(case.beside, offset).end()
    if said in OF_A_BYTE:
        return offset + 1
    if said in (b"unexpected", b"nested too deep") or said.startswith((b"too many", b"text too long")):
        token = TOKEN.match(case.source, offset)
        return offset if token is None else token.end()
    return explained_end(case.source, offset)


def place_of(case, line):
    """The place that a line names, worked out from the line and the text."""
    found = LINE.match(line)
    if found is None:
        return (0,) * 7
    number = 1 if found[1] == b"source" else 2
    text = case.source if number == 1 else case.beside
    row, column = int(found[2]), int(found[3])
    offset = offset_of(text, row, column)
    end = end_of(case, number, offset, found[4])
    before = text[:end].split(b"\n")
    return number, row, column, offset, len(before), len(before[-1]) + 1, end


def write(case, folder):
    """Writes the texts of a case into a folder, and returns the words that name them."""
    words = [case.command, SOURCE]
    (folder / SOURCE).write_bytes(case.source)
    if case.beside is not None:
        (folder / case.beside_name()).write_bytes(case.beside)
        words.append(case.beside_name())
    return words if case.number is None else [*words, str(case.number)]


@functools.cache
def wanted(case):
    """What the program answers, over files that have the names which the library has for its texts."""
    with tempfile.TemporaryDirectory() as folder:
        words = write(case, pathlib.Path(folder))
        ran = subprocess.run([built.program, *words], cwd=folder, stdin=subprocess.DEVNULL, capture_output=True, check=False)
    return Answer(ran.returncode, ran.stdout, ran.stderr, place_of(case, ran.stderr))


@functools.cache
def sources():
    """The sources of the examples but for those that are explained, and more."""
    found = sorted(set((built.TOP / "examples").rglob("*.pony")) - set(EXPLAINED.rglob("*.pony")))
    return (*(it.read_bytes() for it in found), *MORE_SOURCES)


@functools.cache
def explained_sources():
    """The sources of the examples that are explained. Each is refused, whatever is beside it."""
    return tuple(it.read_bytes() for it in sorted(EXPLAINED.rglob("*.pony")))


def derivations(source):
    """Texts that are judged for a source: some that are none, those of another source, and its own in both versions."""
    first = (built.TOP / "examples" / "first.pony").read_bytes()
    yield from DERIVATIONS
    for it in (first, source):
        own = wanted(Case("check", it))
        if own.status == 0:
            yield own.out
            yield wanted(Case("upgrade", it, own.out)).out


@functools.cache
def all_cases():
    """Every case."""
    schedules = (*(it.read_bytes() for it in sorted((built.TOP / "examples").rglob("*.sched"))), *SCHEDULES)
    found = []
    for source in sources():
        found += [Case(command, source) for command in OF_SOURCE]
        found += [Case(command, source, it) for command in OF_DERIVATION for it in derivations(source)]
        found += [Case(command, source, it) for command in OF_SCHEDULE for it in schedules]
        found += [Case("swap", source, it, place) for it in schedules[:3] for place in PLACES]
        found += [Case(command, source, None, seed) for command in OF_SEED for seed in SEEDS]
        found += [Case("outcomes", source, None, count) for count in COUNTS]
    found += [Case(command, source) for source in explained_sources() for command in OF_SOURCE]
    return tuple(dict.fromkeys(found))


def small_cases():
    """One or two cases of each command, which are soon answered."""
    examples = built.TOP / "examples"
    first, refused, bank = ((examples / name).read_bytes() for name in ("first.pony", "refused.pony", "bank.pony"))
    readers, turns = (examples / "readers.pony").read_bytes(), (examples / "readers.sched").read_bytes()
    schedule = (examples / "bank.sched").read_bytes()
    own = wanted(Case("check", first)).out
    return (
        Case("check", first),
        Case("check", refused),
        Case("show", bank),
        Case("sends", (examples / "unsent.pony").read_bytes()),
        Case("judge", first, own),
        Case("judge", first, DERIVATIONS[1]),
        Case("upgrade", first, own),
        Case("run", bank, schedule),
        Case("run", bank, b"7 1*0 x"),
        Case("trace", readers, turns),
        Case("events", readers, turns),
        Case("places", bank),
        Case("explain", first),
        Case("explain", refused),
        Case("explain", (EXPLAINED / "34_unknown.pony").read_bytes()),
        Case("swap", readers, turns, 88),
        Case("schedule", readers, None, 7),
        Case("play", readers, None, 7),
        Case("outcomes", readers, None, 3),
    )
