"""What several places say is the same: the launcher's help, README.md and docs/commands.md, the lines to be read in
docs/theorem.md and the files, and the tests that tests.txt names and those that are there."""

import fnmatch
import re
import subprocess

import lines
import pages

# What says only how the parts inside a command end. No clause of the whole call rests on it.
INNER = "Inner/"

# How the parts of what is to be read begin: for the headline, for isolation, for what compilers may rely on, and for the rest
# of the contract.
PARTS = ("**1. ", "**Isolation in depth** ", "**What a compiler may rely on** ", "**4. ")

COMMAND_OF_HELP = re.compile(r"  ((?:[a-z]+)(?: [A-Z]+)+)(?:  .*|)$")
STATUS_OF_HELP = re.compile(r" *(\d+)  (.*?)(?:  +.*)?$")


def help_text():
    """The commands of the launcher's help, and its statuses with their meanings."""
    text = (pages.TOP / "launcher" / "help.txt").read_text()
    before, after = text.split("The launcher itself", 1)[0], text.split("The exit status", 1)[1]
    commands = [said[1] for said in map(COMMAND_OF_HELP.match, before.splitlines()) if said]
    statuses = [(said[1], said[2].strip()) for said in map(STATUS_OF_HELP.match, after.splitlines()) if said]
    return commands, statuses


def look_at_help(found, results):
    """Compares the help with the tables."""
    commands, statuses = help_text()
    readme = next(it for it in found if it.name == "README.md")
    page = next(it for it in found if it.name == "docs/commands.md")
    for where, title in ((readme, "What is written"), (page, "Writes at status 0")):
        # README has rows besides for what is no word of the command line.
        words = [row.cells["Words"].strip("`") for row in pages.table(where, "Words", title) if row.cells["Words"].startswith("`")]
        results.check(words == commands, f"{where.name}: the commands are those of the help", f"{words} and {commands}")
    table = [(row.cells["Status"], row.cells["Meaning"]) for row in pages.table(page, "Status", "Meaning")]
    wanted = [it for it in statuses if it[0] != "125"]
    results.check(table == wanted, "docs/commands.md: the statuses are those of the help", set(table) ^ set(wanted))
    results.check("125" in dict(statuses) and "125" in page.text(), "docs/commands.md: the launcher's status", "is missing")


def named_in(cell):
    """The files of definitions that a cell names, as "`pc_core`: `specs/Formed`, `Nodes`; types `nodes`"."""
    crate, is_type, found = None, False, []
    for name, types in re.findall(r"`([^`]+)`|\b(types)\b", cell):
        if types:
            is_type = True
        elif name.startswith("pc_"):
            crate, is_type = name, False
        elif not is_type:
            found.append((crate, name.removeprefix("specs/")))
    return found


def types_in(cell):
    """The files of types that a cell names."""
    crate, is_type, found = None, False, []
    for name, types in re.findall(r"`([^`]+)`|\b(types)\b", cell):
        if types:
            is_type = True
        elif name.startswith("pc_"):
            crate, is_type = name, False
        elif is_type:
            found.append(lines.CRATES / crate / "src" / f"{name}.rt")
    return found


def about(number):
    """A number of lines as pages say it."""
    return f"about {round(number, -2):,} lines"


def listed_in(page, rows, results):
    """The files of definitions that rows name, after comparing how many lines they have."""
    listed = set()
    for row in rows:
        named = named_in(row.cells["Read"])
        missing = [it for it in named if not lines.file_of(*it).exists()]
        missing += [it for it in types_in(row.cells["Read"]) if not it.exists()]
        results.check(not missing, f"{page.name}:{row.line}: files are there", missing)
        if not missing:
            count = f"{lines.length(named):,}"
            results.check(row.cells["Lines"] == count, f"{page.name}:{row.line}: lines", f"the files have {count}")
            listed |= set(named)
    return listed


def look_at_lines(found, results):
    """Compares the lines that are to be read with the files, and the files with what is imported."""
    page = next(it for it in found if it.name == "docs/theorem.md")
    wanted, isolated, guaranteed, whole = lines.headline(), lines.isolated(), lines.guaranteed(), lines.contract()
    begins = [next(at for at, line in enumerate(page.lines, 1) if line.startswith(it)) for it in PARTS]
    rows = pages.table(page, "Read", "Lines")
    parts = (wanted, isolated - wanted, guaranteed - isolated, whole - guaranteed)
    for files, begin, end in zip(parts, begins, [*begins[1:], len(page.lines)]):
        listed = listed_in(page, [row for row in rows if begin < row.line < end], results)
        results.check(listed == files, f"{page.name}:{begin}: what is imported", f"{sorted(listed ^ files)}")
    inner = [it for it in whole if it[1].startswith(INNER)]
    results.check(not inner, f"{page.name}: no clause rests on how inner parts end", inner)
    later = [it for it in lines.LATER if it not in whole]
    results.check(not later, f"{page.name}: the later commands are part of the contract", later)
    earlier = lines.contract(without=lines.LATER)
    before = lines.contract(without=[*lines.LATER, *lines.GUARANTEES])
    readme = next(it for it in found if it.name == "README.md")
    counted = [lines.length(it) for it in (wanted, isolated, guaranteed, whole, earlier, before)]
    counted += [lines.length_of_text(it) for it in (wanted, guaranteed, earlier, whole)]
    counted += [lines.filled(it) for it in (wanted, before)]
    for where, counts in ((page, counted), (readme, [lines.length_of_text(it) for it in (guaranteed, whole)])):
        text = re.sub(r"\s+", " ", where.text())
        for one in map(about, counts):
            is_said = one in text or one.removesuffix(" lines") in text
            results.check(is_said, f"{where.name}: says {one}", "it does not")


def look_at_text(results):
    """Compares the text that `docs/read` prints with the files: each of them is there once, and whole."""
    wanted = {
        "headline": lines.headline(),
        "isolation": lines.isolated(),
        "guarantees": lines.guaranteed(),
        "contract": lines.contract(),
        f"contract --without {' '.join(lines.LATER_COMMANDS)}": lines.contract(without=lines.LATER),
    }
    for words, files in wanted.items():
        command = [pages.TOP / "docs" / "read", *words.split()]
        said = subprocess.run(command, capture_output=True, text=True, check=False).stdout.splitlines()
        heads = sorted(line for line in said if line.startswith("== "))
        results.check(heads == sorted(lines.text_of(*it)[0] for it in files), f"docs/read {words}: the files", heads)
        results.check(len(said) == lines.length_of_text(files), f"docs/read {words}: its lines", len(said))
    for words in ([], ["run"], ["contract", "--without"], ["contract", "--without", "run"]):
        ended = subprocess.run([pages.TOP / "docs" / "read", *words], capture_output=True, text=True, check=False)
        refused = ended.returncode == 1 and not ended.stdout and "docs/read headline" in ended.stderr
        results.check(refused, f"docs/read {' '.join(words)}: is refused", ended.returncode)


def lines_of(name):
    """What is before and after the colon of each line of a file that is no comment."""
    lines = (pages.TOP / name).read_text().splitlines()
    return [line.partition(":")[::2] for line in lines if line and not line.startswith("#")]


def file_of_test(command, name):
    """The file that a name after a test is of."""
    return pages.TOP / "rows" / f"{name}.py" if command == "rows/test" else pages.TOP / name


def look_at_tests(results):
    """Compares the crates and the tests of tests.txt with those that are there."""
    crates, lines = [head.split()[0] for head, _ in lines_of("crates.txt")], lines_of("tests.txt")
    names = [name for head, _ in lines for name in head.split()]
    unlisted = [crate for crate in crates if not any(fnmatch.fnmatchcase(crate, name) for name in names)]
    results.check(not unlisted, "tests.txt: each crate has a line", unlisted)
    needless = [name for name in names if not fnmatch.filter(crates, name)]
    results.check(not needless, "tests.txt: each name is one of a crate", needless)
    tests = [test.split() for _, tests in lines for test in tests.split(",") if test.strip()]
    files = [pages.TOP / command for command, *_ in tests]
    files += [file_of_test(command, name) for command, *more in tests for name in more]
    missing = [str(it) for it in files if not it.exists()]
    results.check(not missing, "tests.txt: the tests are there", missing)
    without = sorted(set((pages.TOP / "rows").glob("*.py")) - set(files))
    results.check(not without, "tests.txt: each file of rows is of a crate", without)


def look(found, results):
    """Compares all of these."""
    look_at_help(found, results)
    look_at_lines(found, results)
    look_at_text(results)
    look_at_tests(results)
