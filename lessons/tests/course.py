"""The course as a reader has it: a copy of the lessons in a folder of their own, with the launcher in each."""

import contextlib
import dataclasses
import os
import pathlib
import re
import shutil
import tempfile

import pages
from shell import Folder

LESSONS = pages.TOP / "lessons"


@dataclasses.dataclass
class Lesson:
    """A lesson: its name, its page, the folder in which its commands run, and the explanations that the program has written
    in it in this run, by the program that they are of."""

    name: str
    page: pages.Page
    folder: Folder
    written: dict = dataclasses.field(default_factory=dict)

    def number(self):
        """Its place in the course."""
        return int(self.name[:2])

    def original(self):
        """Its folder in the repository."""
        return LESSONS / self.name

    def source(self, name):
        """A file as it is in the repository."""
        return (self.original() / name).read_text()

    def files(self, pattern):
        """The names of the files of a pattern, as they are in the repository."""
        return sorted(it.name for it in self.original().glob(pattern))


class Copy:
    """The copied course."""

    def __init__(self, home):
        self.home = home
        self.course_page = page_of("README.md")
        self.set_up = self.make()

    def make(self):
        """Copies the course by the commands of its page, and returns what went wrong."""
        block = next(it for it in pages.blocks(self.course_page) if it.lines and it.lines[0].startswith("cp "))
        status, _, error = Folder(pages.TOP).run("set -e\n" + "\n".join(block.lines), env={**os.environ, "HOME": str(self.home)})
        return None if status == 0 else error

    def folder(self, name):
        """The folder of a lesson."""
        return Folder(self.home / "capabilities" / name)

    def lessons(self):
        """The lessons in order."""
        names = sorted(it.name for it in LESSONS.iterdir() if re.match(r"\d\d-", it.name))
        return [Lesson(name, page_of(f"{name}/README.md"), self.folder(name)) for name in names]


def page_of(name):
    """A page of the course."""
    return pages.read(f"lessons/{name}")


@contextlib.contextmanager
def copied():
    """The course, copied for as long as it is tested."""
    home = pathlib.Path(tempfile.mkdtemp(prefix="rcap-lessons-"))
    try:
        yield Copy(home)
    finally:
        shutil.rmtree(home, ignore_errors=True)
