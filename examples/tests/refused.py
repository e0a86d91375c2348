"""The sources that are refused, their explanations, and what the program answers."""

import dataclasses
import pathlib
import re
import subprocess

import pages

REFUSED = pages.TOP / "examples" / "refused"
MORE = REFUSED / "more"

# The folders, and how many sources each has. Those of the first are listed on the page; in the second are the other kinds.
SOURCES = {REFUSED: 37, MORE: 160}
PAGE = "docs/explaining.md"

# What the launcher says before the program's own line.
LAUNCHER_LINE = re.compile(rb"^rcap: .*\n", re.MULTILINE)

RULE_LINE = re.compile(r"rules? ([a-z]+(?:, [a-z]+)*): (.*)")
REFUSAL = re.compile(r"`SRC(?::L:C)?: ([^`]+)`")

# The statuses of refusals that are explained.
EXPLAINED = ("1", "4")

SECONDS = 600
NAMED_FAULTS = ("name unknown", "name twice", "trait in a cycle", "no Main", "Main is of another form")


def texts():
    """The texts of the refusals that are explained, as the table of docs/commands.md lists them."""
    rows = [row for row in pages.table(pages.read("docs/commands.md"), "Status", "Meaning") if row.cells["Status"] in EXPLAINED]
    return [text for row in rows for text in REFUSAL.findall(row.cells["Line on standard error"])]


@dataclasses.dataclass
class Explanation:
    """The explanation of a source: the source, and the text."""

    source: pathlib.Path
    text: bytes

    def name(self):
        """The source's path from the folder of those that are refused."""
        return str(self.source.relative_to(REFUSED))

    def head(self):
        """The first line, with its line end."""
        return self.text.splitlines(keepends=True)[0]

    def lines(self):
        """The lines after the window."""
        return [line for line in self.text.decode(errors="replace").splitlines()[1:] if re.match(r"(node|part|rules?|hint)\b", line)]

    def rules(self):
        """The rules that the lines name, in order."""
        return [rule for said in map(RULE_LINE.match, self.lines()) if said for rule in said[1].split(", ")]

    def fault(self):
        """What is refused, as the first line says it."""
        return self.head().decode().strip().split(": ", 1)[1]

    def status(self):
        """The status with which the source is refused."""
        return 4 if self.fault() in NAMED_FAULTS else 1


def explanations_in(folder, count, results):
    """The explanations of a folder. Each has its source, each source has one, and nothing else is there."""
    files = {it.name for it in folder.iterdir() if it.is_file()}
    names = {name.removesuffix(".explained") for name in files if name.endswith(".explained")}
    wanted = {f"{name}{ending}" for name in names for ending in (".pony", ".explained")}
    results.check(files == wanted, f"{folder.name}: sources with their explanations, and nothing else", sorted(files ^ wanted))
    results.check(len(names) == count, f"{folder.name}: {count} sources", len(names))
    return [Explanation(folder / f"{name}.pony", (folder / f"{name}.explained").read_bytes()) for name in sorted(names)]


def explanations(results):
    """All explanations."""
    return [it for folder, count in SOURCES.items() for it in explanations_in(folder, count, results)]


def answer(program, command, source):
    """What the program answers in the source's folder: the status, the output and the line on standard error."""
    words = [program, command, source.name]
    ended = subprocess.run(words, cwd=source.parent, stdin=subprocess.DEVNULL, capture_output=True, timeout=SECONDS, check=False)
    return ended.returncode, ended.stdout, LAUNCHER_LINE.sub(b"", ended.stderr)


def look_at_page(explanations, results):
    """The page lists the sources of the first folder, in order, with what is refused and the rules."""
    listed = [tuple(row.cells.values()) for row in pages.table(pages.read(PAGE), "Source", "`check` says", "Rules")]
    found = [(f"`{it.name()}`", it.fault(), ", ".join(it.rules())) for it in explanations if it.source.parent == REFUSED]
    results.check(listed == found, f"{PAGE} lists the sources", sorted(set(listed) ^ set(found)))


def look(program, explanations, results):
    """Compares the program's answers with the explanations."""
    look_at_page(explanations, results)
    for it in explanations:
        explained = answer(program, "explain", it.source)
        results.check(explained == (0, it.text, b""), f"explain {it.name()}", explained)
        checked = answer(program, "check", it.source)
        results.check(checked == (it.status(), b"", it.head()), f"check {it.name()}", checked)
