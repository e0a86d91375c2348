"""One lesson: what it shows, its programs, and its exercises."""

import difflib
import re

import pages
from shell import differs, said_of, session

LINES = 80
SECTIONS = ["Why it must be so", "What it rules out", "Try", "Exercises"]

# The lesson on the theorem has sections of its own before the last two.
LAST = "20-what-is-guaranteed"
NEIGHBOURS = range(1, 4)
EXERCISES = range(2, 5)

CHECKED = re.compile(r"\./rcap check (\w+\.pony)\b")
EXPLAINED = re.compile(r"\./rcap explain (\w+\.pony)$")
PLACE = re.compile(r"(\w+\.pony):(\d+):(\d+): ")
WINDOW = re.compile(r"(\d+) \| (.*)")
EXERCISE = re.compile(r"(mend|solved)_\d\.pony")
EXERCISE_FILES = [("mend", "pony"), ("mend", "explained"), ("solved", "pony")]
EXERCISE_FILE = re.compile(r"(mend|solved)_\d+\.\w+")
NUMBERED = re.compile(r"(\d+)\. ")


def commands_of(block):
    """What a block shows of commands: those of a session, or those of lines that begin with ./rcap or make a file."""
    if block.lines and not any(line.startswith("./rcap ") for line in block.lines):
        return session(block.lines)
    return [said_of(line) for line in block.lines if line]


def run(lesson, said):
    """Runs a command in the folder of a lesson, notes the explanation that it writes, if it writes one, and returns what
    differs from what is said of it, or nothing."""
    status, output, error = lesson.folder.run(said.command)
    name = EXPLAINED.search(said.command)
    if name:
        lesson.written[name[1]] = output.splitlines()
    return differs(said, status, output, error)


def run_page(lesson, results):
    """Compares what the page shows with the files, and runs its commands from the first to the last."""
    for block in pages.blocks(lesson.page):
        where = f"{lesson.page.name}:{block.line}"
        if block.mark == "shown":
            shown = pages.shown_lines(block.said, lesson.original())
            results.check(block.lines == shown, f"{where}: {block.said}", "the file is another")
            continue
        for said in commands_of(block):
            wrong = run(lesson, said)
            results.check(wrong is None, f"{where}: {said.command}", wrong)


def said_on(page):
    """All that a page says of commands."""
    return [said for block in pages.blocks(page) if block.mark is None for said in commands_of(block)]


def explanations_on(page):
    """The explanations that a page shows, by the program."""
    found = {}
    for said in said_on(page):
        name = EXPLAINED.search(said.command)
        if name:
            found[name[1]] = said.output
    return found


def by_lines(first, second):
    """By how many lines two texts differ."""
    changes = [it for it in difflib.ndiff(first.splitlines(), second.splitlines()) if it[0] in "+-"]
    return max(sum(it[0] == sign for it in changes) for sign in "+-")


def line_is_that_of(lesson, name, explanation):
    """Whether an explanation shows the line that its first line names, as it is in the program."""
    place = PLACE.match(explanation[0])
    if place is None:
        return explanation[0].startswith(f"{name}: ")
    window = WINDOW.match(explanation[1])
    line = lesson.source(name).splitlines()[int(place[2]) - 1]
    return place[1] == name and window is not None and window[1] == place[2] and window[2] == line


def look_at_programs(lesson, results):
    """Looks at what the page says of each program: that it is accepted, or refused at a place that its explanation names."""
    checked = {name[1]: said for said in said_on(lesson.page) for name in [CHECKED.search(said.command)] if name}
    programs = [name for name in lesson.files("*.pony") if not EXERCISE.fullmatch(name)]
    explained = explanations_on(lesson.page)
    accepted = [name for name in programs if name in checked and checked[name].status == 0]
    refused = [name for name in programs if name in checked and checked[name].status != 0]
    page = lesson.page.name
    named = [name for name in programs if name in checked or f"`{name}`" in lesson.page.text()]
    results.check(named == programs, f"{page}: names each program", set(programs) - set(named))
    results.check(bool(accepted), f"{page}: a program that is accepted", "there is none")
    results.check(len(refused) in NEIGHBOURS, f"{page}: one to three that are refused", refused)
    for name in refused:
        lines = min((by_lines(lesson.source(other), lesson.source(name)) for other in accepted), default=None)
        results.check(lines == 1, f"{page}: {name} differs by a line", f"it differs by {lines}")
    results.check(sorted(explained) == sorted(refused), f"{page}: explains each program that is refused", sorted(explained))
    for name, explanation in explained.items():
        is_right = name in checked and explanation[0] == checked[name].error
        results.check(is_right, f"{page}: {name}: the place is that of check", explanation[0])


def exercises_of(lesson):
    """The numbers of the exercises that the page asks for."""
    start = lesson.page.lines.index("## Exercises") if "## Exercises" in lesson.page.lines else len(lesson.page.lines)
    return [int(said[1]) for said in map(NUMBERED.match, lesson.page.lines[start:]) if said]


def look_at_exercises(lesson, results):
    """Looks at the exercises: the page asks for each that has a program."""
    numbers = exercises_of(lesson)
    files = sorted(f"{name}_{number}.{ending}" for number in numbers for name, ending in EXERCISE_FILES)
    found = [name for name in lesson.files("*") if EXERCISE_FILE.fullmatch(name)]
    results.check(len(numbers) in EXERCISES, f"{lesson.page.name}: two to four exercises", numbers)
    results.check(found == files, f"{lesson.page.name}: each exercise has its files", sorted(set(found) ^ set(files)))
    for number in numbers if found == files else []:
        look_at_exercise(lesson, number, results)


def look_at_exercise(lesson, number, results):
    """Looks at an exercise: its program is refused, as its explanation says byte for byte, and its solution is accepted."""
    name, where = f"mend_{number}.pony", f"{lesson.name}: exercise {number}"
    text = lesson.source(f"mend_{number}.explained")
    explanation = text.splitlines()
    status, _, error = lesson.folder.run(f"./rcap check {name}")
    results.check(status in (1, 4) and error == explanation[0], f"{where}: is refused", f"status {status}: {error}")
    results.check(line_is_that_of(lesson, name, explanation), f"{where}: the line that is explained", explanation[1])
    status, _, error = lesson.folder.run(f"./rcap check solved_{number}.pony")
    results.check(status == 0 and error == "", f"{where}: its solution is accepted", f"status {status}: {error}")
    status, output, error = lesson.folder.run(f"./rcap explain {name}")
    results.check((status, output, error) == (0, text, ""), f"{where}: its explanation", f"status {status}: {error}{output}")
    lesson.written[name] = output.splitlines()


def look(lesson, results):
    """Looks at all of a lesson."""
    page = lesson.page
    results.check(len(page.lines) <= LINES, f"{page.name}: at most {LINES} lines", len(page.lines))
    missing = [title for title in SECTIONS if f"## {title}" not in page.lines]
    results.check(not missing or lesson.name == LAST and missing == SECTIONS[:2], f"{page.name}: has its sections", missing)
    run_page(lesson, results)
    look_at_programs(lesson, results)
    for name, explanation in explanations_on(page).items():
        results.check(line_is_that_of(lesson, name, explanation), f"{page.name}: {name}: its line", explanation[:2])
        results.check(lesson.written.get(name) == explanation, f"{page.name}: {name}: its explanation", lesson.written.get(name))
    look_at_exercises(lesson, results)
