"""The pages, and what is in them: blocks of code with the comment before them, and the rows of tables."""

import dataclasses
import pathlib
import re

TOP = pathlib.Path(__file__).resolve().parents[2]

# What a comment says of the block after it: which command writes it; that it is written as a file, or as a line of one; or
# that it shows the whole or some lines of a file that is there.
MARKS = {
    "output": re.compile(r"<!-- output of (.*\S) -->$"),
    "file": re.compile(r"<!-- file (\S+) -->$"),
    "line": re.compile(r"<!-- line (\d+ of \S+) -->$"),
    "shown": re.compile(r"<!-- ((?:whole|lines \d+ to \d+) of \S+) -->$"),
}
SHOWN = re.compile(r"(?:whole|lines (\d+) to (\d+)) of (\S+)")


@dataclasses.dataclass
class Block:
    """A block of code: the number of its first line, its lines, and what the comment before it says of it."""

    line: int
    lines: list
    mark: str | None
    said: str | None


@dataclasses.dataclass
class Row:
    """A row of a table: the number of its line, and its cells by the titles of their columns."""

    line: int
    cells: dict


@dataclasses.dataclass
class Page:
    """A page, by its path from the top."""

    name: str
    lines: list

    def text(self):
        return "\n".join(self.lines)


def read(name):
    """The page with this path from the top."""
    return Page(name, (TOP / name).read_text().splitlines())


def all_pages():
    """The pages that are read by people, in order."""
    names = ["README.md", "CONTRIBUTING.md", "crates/README.md", "view/README.md"]
    names += sorted(str(it.relative_to(TOP)) for it in (TOP / "docs").glob("*.md"))
    return [read(name) for name in names]


def shown_lines(said, folder):
    """The lines of a file of a folder that a comment says are shown."""
    first, last, name = SHOWN.fullmatch(said).groups()
    lines = (folder / name).read_text().splitlines()
    return lines if first is None else lines[int(first) - 1 : int(last)]


def mark_of(line):
    """What a comment says of the block after it: the mark and its words, or nothing."""
    for mark, form in MARKS.items():
        said = form.match(line)
        if said:
            return mark, said[1]
    return None, None


def blocks(page):
    """The blocks of code of a page, fenced and indented."""
    found, block, fence = [], None, None
    mark, said = None, None

    def begin(number):
        nonlocal mark, said
        found.append(Block(number, [], mark, said))
        mark, said = None, None
        return found[-1]

    for number, line in enumerate([*page.lines, ""], 1):
        if fence is not None:
            if line.strip() == fence:
                fence, block = None, None
            else:
                block.lines.append(line)
        elif line.startswith("```"):
            fence, block = "```", begin(number + 1)
        elif line.startswith("    ") and (block is not None or not re.match(r"\s*([-*]|\d+\.) ", line)):
            block = block or begin(number)
            block.lines.append(line[4:])
        elif line == "" and block is not None:
            block.lines.append("")
        elif line != "":
            block = None
            mark, said = mark_of(line)
    for it in found:
        while it.lines and it.lines[-1] == "":
            it.lines.pop()
    return found


def cells_of(line):
    """The cells of a line of a table."""
    return [it.strip() for it in re.split(r"(?<!\\)\|", line.strip().removeprefix("|").removesuffix("|"))]


def rows(page):
    """The rows of the tables of a page."""
    found, titles = [], None
    for number, line in enumerate(page.lines, 1):
        if not line.startswith("|"):
            titles = None
        elif titles is None:
            titles = cells_of(line)
        elif not re.fullmatch(r"[|\s:-]+", line):
            found.append(Row(number, dict(zip(titles, cells_of(line)))))
    return found


def table(page, *titles):
    """The rows of the tables of a page whose columns begin with these titles."""
    return [row for row in rows(page) if list(row.cells)[: len(titles)] == list(titles)]
