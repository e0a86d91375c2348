"""Commands that pages show, run in a folder of their own, and compared with what the page says of them."""

import dataclasses
import re
import subprocess

SECONDS = 600

# What comes after a command on its line: the status, and the line on standard error.
COMMENT = re.compile(r"\s+# (\d+)(?:: (.*))?$")

# What begins a line of a session that is a command; the lines after it are what it writes.
PROMPT = "$ "

# What the launcher says before the program's own line.
LAUNCHER_LINE = re.compile(r"^rcap: .*\n", re.MULTILINE)


class Folder:
    """A folder in which commands run."""

    def __init__(self, path):
        self.path = path

    def run(self, command, **how):
        """Runs a line of a shell, and returns its status, its output and its line on standard error."""
        ran = subprocess.run(
            ["bash", "-c", command],
            cwd=self.path,
            stdin=subprocess.DEVNULL,
            capture_output=True,
            timeout=SECONDS,
            check=False,
            **how,
        )
        line = LAUNCHER_LINE.sub("", ran.stderr.decode(errors="replace"))
        return ran.returncode, ran.stdout.decode(errors="replace"), line.rstrip("\n")

    def write(self, name, lines):
        """Writes a file."""
        (self.path / name).write_text("\n".join(lines) + "\n")

    def replace(self, name, number, line):
        """Replaces a line of a file."""
        lines = (self.path / name).read_text().splitlines()
        lines[number - 1] = line
        self.write(name, lines)


@dataclasses.dataclass
class Said:
    """What a page says of a command: its words, its status, its line on standard error if that is said, and the lines
    that it writes, if they are said."""

    command: str
    status: int
    error: str | None
    output: list | None


def said_of(line, output=None):
    """What a line of a page with a command says."""
    comment = COMMENT.search(line)
    if comment is None:
        return Said(line, 0, "", output)
    return Said(COMMENT.sub("", line), int(comment[1]), comment[2], output)


def session(lines):
    """The commands of a block whose first line is one, each with the lines that it writes; none for another block."""
    found = []
    if lines and lines[0].startswith(PROMPT):
        for line in lines:
            if line.startswith(PROMPT):
                found.append(said_of(line.removeprefix(PROMPT), []))
            else:
                found[-1].output.append(line)
    return found


def is_like(wanted, found):
    """Whether lines are those that are wanted, where `..` stands for any."""
    if not wanted:
        return not found
    if wanted[0].strip() == "..":
        return any(is_like(wanted[1:], found[at:]) for at in range(len(found) + 1))
    return bool(found) and wanted[0] == found[0] and is_like(wanted[1:], found[1:])


def differs(said, status, output, error):
    """What differs from what a page says of a command, or nothing."""
    if status != said.status:
        return f"status {status} and not {said.status}: {error}"
    if said.error is not None and error != said.error:
        return f"says {error}"
    if said.output is not None and not is_like(said.output, output.splitlines()):
        return f"writes {output[:400]}"
    return None


def run_said(folder, said):
    """Runs a command of a page, and returns what differs from what the page says, or nothing."""
    return differs(said, *folder.run(said.command))
