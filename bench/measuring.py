"""What each command takes for a source, beside its limit."""

import dataclasses
import math
import pathlib

import composed
import counting
import genes as descriptions
import shapes

# The limit of 0.3 s was set beside a program whose `check` takes 0.14 s.
TIMES_THE_CHECK = 0.3 / 0.14

# What a command writes may take this many times what `places` takes for each byte that it writes of that program.
TIMES_THE_WRITING = 2

# The schedule of a run. It is short, so that the source decides what the run takes.
SCHEDULE = "1*1000 0*10\n"

COMMANDS = ("show", "check", "judge", "explain", "places", "sends", "run")

# The commands that may write a name, or a line, once for each class.
WRITING = ("places", "sends")

# Growths are estimated from what a command takes for a part of a source and for a quarter of that part. What is outside these
# bounds is noise, and so it is if the quarter takes less than this share of what the program takes to start.
QUARTER = 1 / 4
LEAST_GROWTH, MOST_GROWTH = 0.5, 3.0
SHARE_OF_THE_START = 0.5


@dataclasses.dataclass(frozen=True)
class Found:
    """What a command took for a source: the amount and the bytes of the whole, seconds of the processor for the part that was tried,
    how fast the amount grows with the size, how many times its limit it is, and the status, or nothing if it was stopped."""

    command: str
    genes: descriptions.Genes
    amount: float
    seconds: float
    bytes: int
    growth: float
    times: float
    status: int | None
    wanted: int

    def density(self):
        """The amount for each byte."""
        return self.amount / self.bytes

    def shown(self, unit):
        """A line of the table."""
        amount = f"{self.amount / 1e6:,.0f} M {unit}" if unit == "instructions" else f"{self.amount:.2f} s"
        each = f"{self.density():,.0f}" if unit == "instructions" else f"{self.density() * 1e9:,.0f} ns"
        note = "" if self.status == self.wanted else f"  WRONG: {self.status}, not {self.wanted}"
        if self.status is None:
            note = "  STOPPED"
        return (
            f"{self.command:<8}{self.times:>7.2f} times the limit{amount:>24}{each:>12} a byte{self.bytes:>10} bytes"
            f"{self.seconds:>8.2f} s{note}\n        {descriptions.line_of(self.genes)}"
        )


class Measuring:
    """The program, the counter, and what the limits are. A source is tried at a part of its sizes, and what the whole takes is
    estimated if that is less than 1."""

    def __init__(self, program, counter, folder, part, seconds):
        self.program, self.counter, self.part, self.seconds = program, counter, part, seconds
        self.folder = pathlib.Path(folder)
        self.source, self.schedule, self.derivation = (self.folder / it for it in ("source.pony", "schedule", "derivation"))
        self.schedule.write_text(SCHEDULE, encoding="ascii")
        self.start = self.counter.taken([self.program], self.seconds).amount
        self.write(shapes.program(part))
        check = self.of_part("check")
        self.check, self.seconds_of_check = check.amount - self.start, check.seconds
        places = self.of_part("places")
        self.for_a_byte = (places.amount - self.start) / max(1, places.written)

    def write(self, pieces):
        """Writes the source that is tried."""
        with open(self.source, "w", encoding="ascii", newline="\n") as file:
            file.writelines(pieces)

    def words(self, command):
        """The words of a call."""
        after = {"judge": [self.derivation], "run": [self.schedule]}.get(command, [])
        return [self.program, command, str(self.source), *map(str, after)]

    def of_part(self, command):
        """What a command takes for the source that is written."""
        return self.counter.taken(self.words(command), self.seconds)

    def derive(self):
        """Writes the derivation of the source, and says whether there is one."""
        with open(self.derivation, "wb") as file:
            return counting.called(self.words("check"), self.seconds, output=file).status == composed.ACCEPTED

    def tried(self, command, genes, part):
        """What a command takes for this part of a source, without the start of the program; nothing if there is no derivation to
        judge. And its bytes."""
        self.write(it.text for it in composed.pieces(descriptions.scaled(genes, part)))
        if command == "judge" and not self.derive():
            return None, 0
        it = self.of_part(command)
        amount = max(it.amount - self.start, 1e-9)
        return dataclasses.replace(it, amount=amount), self.source.stat().st_size

    def limit(self, command, written):
        """What a command may take for a whole source, if it writes this number of bytes."""
        writing = TIMES_THE_WRITING * self.for_a_byte * written if command in WRITING else 0
        return max(TIMES_THE_CHECK * self.check, writing) / self.part

    def growth(self, command, genes, whole):
        """By which power of its size the amount grows, from a quarter of the part that took `whole` on."""
        quarter, _ = self.tried(command, genes, self.part * QUARTER)
        if quarter is None or quarter.status is None:
            return MOST_GROWTH
        if quarter.amount < SHARE_OF_THE_START * self.start:
            return 1.0
        return min(max(math.log(whole / quarter.amount, 1 / QUARTER), LEAST_GROWTH), MOST_GROWTH)

    def found(self, command, genes):
        """What a command takes for a source; nothing if it reads a derivation and there is none."""
        it, size = self.tried(command, genes, self.part)
        if it is None:
            return None
        growth = 1.0
        if self.part < 1 and it.status is not None:
            growth = self.growth(command, genes, it.amount)
        amount = it.amount / self.part**growth
        wanted = composed.status_of(command, descriptions.scaled(genes, self.part))
        times = amount / self.limit(command, it.written)
        if it.status is None:
            # What was counted before the call was stopped is less than it takes, and may be nothing.
            times = max(times, it.seconds / (TIMES_THE_CHECK * self.seconds_of_check))
        return Found(command, genes, amount, it.seconds, int(size / self.part), growth, times, it.status, wanted)


def made(program, kind, folder, part, seconds):
    """What measures, with a counter of this kind or the first that works, and the counter's name."""
    name, counter = counting.chosen(kind, program)
    if part is None:
        part = 1 / 8 if name == "valgrind" else 1.0
    return name, Measuring(program, counter, folder, part, seconds)
