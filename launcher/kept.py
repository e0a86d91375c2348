"""Programs that were built, each in a folder of its own, with the checksum of what it was built of."""

import contextlib
import fcntl
import hashlib
import os
import shutil
import tempfile
import time

import sources
from report import why

# Longer than the steps in which a file system counts its times.
STEP_OF_TIMES = 0.02


def checksum_of_file(path):
    """The checksum of a file, or none if it cannot be read."""
    try:
        return hashlib.sha256(path.read_bytes()).hexdigest()
    except OSError:
        return None


class Kept:
    """The program in out/proved or out/unproved. Beside `rcap`, the program itself, are `made_of`, with the checksums of its
    sources and of the program and the kit's line, and `listing`, which spares the launcher the reading of the sources."""

    def __init__(self, top, kind):
        self.top = top
        self.folder = top / "out" / kind
        self.program = self.folder / "rcap"
        self.made_of = self.folder / "made_of"

    def noted(self):
        """The lines of `made_of`: the sources, the program and the kit."""
        try:
            lines = self.made_of.read_text(encoding="utf-8").splitlines()
        except (OSError, UnicodeDecodeError):
            return None
        return lines if len(lines) == 3 else None

    def kit(self):
        """The line of the kit that the program was built with."""
        return self.noted()[2]

    def is_whole(self):
        """Whether the program that is there is the one that was put there."""
        lines = self.noted()
        return lines is not None and lines[1] == checksum_of_file(self.program)

    def is_of(self, checksum):
        """Whether the program was built of the sources with this checksum."""
        return self.is_whole() and self.noted()[0] == checksum

    def put(self, program, checksum, kit):
        """Keeps a program. A reader finds either the one before or this one, or one that is not whole."""
        self.folder.mkdir(parents=True, exist_ok=True)
        fresh = self.folder / "rcap.new"
        shutil.copyfile(program, fresh)
        fresh.chmod(0o755)
        noted = f"{checksum}\n{checksum_of_file(fresh)}\n{kit}\n"
        os.replace(fresh, self.program)
        self.write("made_of", noted.encode())

    def write(self, name, data):
        """Writes a file of the folder, whole or not at all."""
        fresh = self.folder / f"{name}.{os.getpid()}"
        try:
            fresh.write_bytes(data)
            os.replace(fresh, self.folder / name)
        finally:
            with contextlib.suppress(OSError):
                fresh.unlink(missing_ok=True)

    def is_of_sources(self):
        """Whether the program was built of the sources as they are now. Notes the listing if so, and if nothing was
        written meanwhile: any later writing has another time than those of the listing."""
        if not self.program.exists():
            return False
        before = sources.list_files(self.top, self.folder)
        time.sleep(STEP_OF_TIMES)
        if not self.is_of(sources.checksum_of_program(self.top)):
            return False
        if before == sources.list_files(self.top, self.folder):
            with contextlib.suppress(OSError):
                self.write("listing", before)
        return True

    def why_not_writable(self):
        """Why nothing can be kept in the folder, or none if it can."""
        try:
            self.folder.mkdir(parents=True, exist_ok=True)
            with tempfile.TemporaryFile(dir=self.folder):
                return None
        except OSError as error:
            return why(error)


@contextlib.contextmanager
def only_one(path, wait):
    """Holds a lock file, so that only one call does what comes next. Calls `wait` first if another call holds it."""
    with open(path, "w", encoding="utf-8") as file:
        try:
            fcntl.flock(file, fcntl.LOCK_EX | fcntl.LOCK_NB)
        except BlockingIOError:
            wait()
            fcntl.flock(file, fcntl.LOCK_EX)
        yield
