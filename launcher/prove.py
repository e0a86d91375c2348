"""The proved program: `./rcap --prove`."""

import time

import kit
import schedule
import sources
from copies import Copies, folder_for_copies, remove
from kept import Kept, only_one
from report import CannotAnswer, Stopped, explained, last_lines, say
from unproved import LINE_WITHOUT_WORDS, STATUS_WITHOUT_WORDS

SECONDS_BETWEEN_LOOKS = 0.2
EXPECTED_SECONDS_THAT_TELL = 60

# What is to be free on a disk, in bytes, before a failure has no other reason.
PROVING_BYTES = 5_000_000_000


def minutes(seconds):
    """Seconds as whole minutes, in words."""
    number = round(seconds / 60)
    return "1 minute" if number == 1 else f"{number} minutes"


class Build:
    """One building of all libraries in copies."""

    def __init__(self, copies, at_once):
        self.copies = copies
        self.at_once = at_once
        self.order = [it for it in schedule.in_order(copies.uses) if it != sources.PROGRAM]
        self.built = {it for it in self.order if copies.is_built(it)}
        self.running = {}
        self.failed = None
        self.begun = time.monotonic()
        # Of the crates that this call has built: what they took, and what they were to take.
        self.taken = self.expected = 0.0

    def number_said(self):
        """How many crates have had their line, the program and those that were built before among them."""
        return len(self.built) + len(self.running)

    def say_begins(self, name):
        """The line of a crate that is begun: its number, how long the call has taken, and how long it still takes."""
        now = time.monotonic()
        running = {it: now - begun for it, (_, _, begun) in self.running.items()}
        left = schedule.seconds_left(self.copies.uses, self.built, running, self.at_once) * self.slowness()
        gone = minutes(now - self.begun)
        say(f"{name} ({self.number_said()} of {len(self.copies.uses)}): {gone} gone, about {minutes(left)} left")

    def slowness(self):
        """How many times as long as expected this machine takes, once that can be said."""
        return self.taken / self.expected if self.expected > EXPECTED_SECONDS_THAT_TELL else 1.0

    def begin(self, name, place, jobs):
        """Starts the build of a library in one copy."""
        with open(self.log(name), "wb") as log:
            command = kit.start(["lib", "--jobs", str(jobs)], place / "crates" / name, log, self.copies.folder / "tmp")
        self.running[name] = command, place, time.monotonic()
        self.say_begins(name)

    def log(self, name):
        """The file in which the build of a crate says what it says."""
        return self.copies.folder / f"{name}.log"

    def begin_all(self):
        """Starts the builds whose turn it is. If fewer crates can be built than there are processors, each takes several of
        them; more jobs than processors would make all of it take longer."""
        waiting = [it for it in self.order if it not in self.built and it not in self.running]
        ready = [it for it in waiting if schedule.is_ready(it, self.copies.uses, self.built)]
        jobs = max(1, self.at_once // max(1, len(self.running) + len(ready)))
        for name in ready[: self.at_once - len(self.running)]:
            taken = [place for _, place, _ in self.running.values()]
            free = [it for it in self.copies.places if it not in taken]
            self.begin(name, self.copies.best_place(name, free), jobs)

    def take_ended(self):
        """Takes over the builds that have ended."""
        for name, (command, place, begun) in list(self.running.items()):
            if command.poll() is None:
                continue
            del self.running[name]
            if command.returncode == 0:
                self.copies.built(name, place)
                self.built.add(name)
                self.note_time(name, time.monotonic() - begun)
            elif self.failed is None:
                self.failed = name, command.returncode

    def note_time(self, name, seconds):
        """Notes what a crate took, if it was proved and not taken over."""
        if seconds > schedule.seconds_of(name) / 4:
            self.taken += seconds
            self.expected += schedule.seconds_of(name)

    def run(self):
        """Builds all libraries. After a failure those that are begun end, and what they give is kept."""
        if self.built:
            say(f"{len(self.built)} of {len(self.copies.uses)} crates are proved already")
        try:
            while len(self.built) < len(self.order) and (self.running or not self.failed):
                if not self.failed:
                    self.begin_all()
                time.sleep(SECONDS_BETWEEN_LOOKS)
                self.take_ended()
        finally:
            for command, _, _ in self.running.values():
                kit.stop(command)
        if self.failed:
            name, status = self.failed
            raise CannotAnswer(f"{name} is not proved: rt lib ended with {status}", *last_lines(self.log(name).read_bytes()))


def build_program(top, copies, log_name):
    """Builds the program itself, in the checkout, over the libraries of the copies, and runs it without words."""
    folder = top / "crates" / sources.PROGRAM
    copies.hand_to_checkout()
    with open(log_name, "w+b") as log:
        command = kit.start(["run"], folder, log, copies.folder / "tmp")
        try:
            status = command.wait()
        finally:
            kit.stop(command)
        log.seek(0)
        said = log.read()
    # The kit itself ends with this status too, but not with this line.
    if status != STATUS_WITHOUT_WORDS or not said.endswith(LINE_WITHOUT_WORDS):
        raise CannotAnswer(f"the program is not proved: rt run ended with {status}", *last_lines(said))
    return folder / "out" / sources.PROGRAM


def prove_unchanged(top, kept, folder):
    """Builds the proved program of sources that stay as they are, and keeps it."""
    at_once = schedule.processors()
    copies = Copies(top, folder, at_once)
    before = sources.state(top)
    copies.make()
    (folder / "tmp").mkdir(exist_ok=True)
    if not copies.are_of_sources():
        raise CannotAnswer("the sources were changed while they were copied: call again")
    build = Build(copies, at_once)
    build.run()
    build.running[sources.PROGRAM] = None, None, time.monotonic()
    build.say_begins(sources.PROGRAM)
    program = build_program(top, copies, build.log(sources.PROGRAM))
    if before != sources.state(top):
        raise CannotAnswer("the sources were changed while they were proved: call again, and what is proved is kept")
    kept.put(program, before[0], kit.identity())
    kept.is_of_sources()
    say(f"the proved program is built, in {minutes(time.monotonic() - build.begun)}")


def prove(top):
    """Builds the proved program, if it is not there. One call proves; another says so and waits for it."""
    kept = Kept(top, "proved")
    refused = kept.why_not_writable()
    if refused:
        raise CannotAnswer(f"the proved program cannot be kept: {refused}")
    kit.identity()
    with only_one(kept.folder / "lock", lambda: say("another ./rcap --prove is at work here; waiting for it")):
        if kept.is_of_sources():
            say("the proved program of exactly these sources is there")
            return
        folder = folder_for_copies(top)
        try:
            with explained(folder, PROVING_BYTES), explained(kept.folder, PROVING_BYTES):
                prove_unchanged(top, kept, folder)
        except Stopped:
            say(f"interrupted; what is proved is kept in {folder}, and ./rcap --prove goes on with it")
            raise
        remove(folder)
