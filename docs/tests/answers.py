"""Every command and every answer on a page, run and compared.

- A block after `<!-- file NAME -->` is written as that file, and one after `<!-- line N of NAME -->` replaces that line.
- The lines of a block of code are run in order, if one of them begins with `./rcap ` or if it is of shell commands that make
  files. A line that begins with `./rcap ` ends with status 0 and says nothing on standard error, or as the comment after it
  says: `# 1: the line`, or `# 1` alone.
- A block after `<!-- whole of NAME -->` or `<!-- lines A to B of NAME -->` has those lines of that file of the repository.
- A block after `<!-- output of COMMAND -->` is what the command writes, and so are the lines after a line `$ COMMAND` with
  which a block begins. A line `..` stands for any lines.
- A row with a file or words, a status and a line is what the program answers. A row with a text and a source `written by` a
  command is a source of which `check` says that text.

All of a page is run in a folder of its own, beside the examples, from its first line to its last."""

import os
import pathlib
import re
import shutil
import tempfile

import pages
from shell import Folder, is_like, run_said, said_of, session

# How many commands the pages have at least.
LEAST = 110

# Commands that begin a line of a block and are not run: they build, or their words stand for others.
NOT_RUN = re.compile(r"\./rcap (WORDS|COMMAND|--prove|--version|--help)")

# Commands of a shell that a block may have besides: they make the files that the others name.
SHELL = re.compile(r"(echo|printf|sed|head|cat|seq|:|\{) ")

WORDS = re.compile(r"`([^`]*)`")


def make_folder():
    """A folder with the examples and the launcher."""
    path = pathlib.Path(tempfile.mkdtemp(prefix="rcap-docs-"))
    shutil.copytree(pages.TOP / "examples", path / "examples")
    os.symlink(pages.TOP / "rcap", path / "rcap")
    return Folder(path)


def run_block(block, where, folder, results):
    """Runs a block of a page, and returns how many commands it has."""
    if block.mark == "file":
        folder.write(block.said, block.lines)
        return 0
    if block.mark == "line":
        number, name = block.said.split(" of ")
        results.check(len(block.lines) == 1, f"{where}: one line", len(block.lines))
        folder.replace(name, int(number), block.lines[0])
        return 0
    if block.mark == "shown":
        results.check(block.lines == pages.shown_lines(block.said, pages.TOP), f"{where}: {block.said}", "the file is another")
        return 0
    if block.mark == "output":
        status, out, error = folder.run(block.said)
        is_right = status == 0 and is_like(block.lines, out.splitlines())
        results.check(is_right, f"{where}: output of {block.said}", f"status {status}: {error} {out[:400]}")
        return 1
    commands = session(block.lines)
    for said in commands:
        wrong = run_said(folder, said)
        results.check(wrong is None, f"{where}: {said.command}", wrong)
    if commands:
        return len(commands)
    if not all(line == "" or line.startswith("./rcap ") or SHELL.match(line) for line in block.lines):
        return 0
    ran = 0
    for line in block.lines:
        if line and not NOT_RUN.match(line):
            wrong = run_said(folder, said_of(line))
            ran += 1
            results.check(wrong is None, f"{where}: {line}", wrong)
    return ran


def run_row(row, folder):
    """What a row says, and what differs from it; or nothing, if it says nothing of a command."""
    cells = row.cells
    words = WORDS.search(cells.get("Words") or cells.get("File") or "")
    line = next((text for title, text in cells.items() if title.startswith("Line")), None)
    if words and line is not None and cells.get("Status", "").isdigit():
        command = words[1] if "Words" in cells else f"check {words[1]}"
        status, out, error = folder.run(f"./rcap {command}")
        wanted = WORDS.search(line)
        seen = out.rstrip("\n") if "on standard output" in line else error
        is_right = status == int(cells["Status"]) and wanted is not None and seen == wanted[1]
        return command, None if is_right else f"status {status}: {seen}"
    if words and "`check`" in cells:
        status, _, error = folder.run(f"./rcap check {words[1]}")
        is_right = status == 0 and error == "" and cells["`check`"].startswith("accepts")
        return f"check {words[1]}", None if is_right else f"status {status}: {error}"
    maker = WORDS.search(next((text for title, text in cells.items() if title.endswith("written by")), ""))
    if maker and ">" in maker[1]:
        command = maker[1].replace("\\|", "|")
        name = re.findall(r"> ?(\S+\.pony)", command)[-1]
        folder.run(command)
        status, _, error = folder.run(f"./rcap check {name}")
        text = WORDS.search(cells["Text"])[1]
        return command, None if status == 8 and error.endswith(text) else f"status {status}: {error}"
    return None


def run(found, results):
    """Runs all commands of the pages, and returns how many they are."""
    ran = 0
    for page in found:
        folder = make_folder()
        try:
            for block in pages.blocks(page):
                ran += run_block(block, f"{page.name}:{block.line}", folder, results)
            for row in pages.rows(page):
                said = run_row(row, folder)
                if said is not None:
                    ran += 1
                    results.check(said[1] is None, f"{page.name}:{row.line}: {said[0]}", said[1])
        finally:
            shutil.rmtree(folder.path, ignore_errors=True)
    return ran
