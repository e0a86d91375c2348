"""The forms of pages: their lengths and number, their links, paths and names, and phrases that are not wanted."""

import os
import pathlib
import re

import pages
from shell import PROMPT, session

README_LINES = 120
PAGES = 22
COLUMNS = 120

# What reads as translated, and what to write in its place. A blank in a phrase may be a line's end on the page.
PHRASES = {
    r"\bbehind\b": "after",
    r"\bexactly where\b": "exactly when, iff",
    r"\btold\b|\btells? (its|their) bytes\b": "reported, known, named",
    r"\bwant of memory\b": "out of memory",
    r"\bso many\b": "the number",
    r"\b(takes? no|wants?) memory\b": "does not allocate, allocates",
    r"\bwrong bod(y|ies)\b": "mutant",
    r"\bit is so that\b|\bis so where\b": "say what happens",
    r"\bwhich is had by\b": "say how",
    r"\bthat follow one another\b": "adjacent",
    r"\bask for a command\b": "name a command",
    r"\bno call goes wrong\b": "no call panics, overflows, truncates or misuses memory",
    r"\bstands? (there|at|in|on|before|after|beside|alone|outside|around|nowhere|elsewhere)\b": "is",
    r"\bas (many|often) as there are\b": "the number",
}

CODE = re.compile(r"`[^`\n]*`")
LINK = re.compile(r"\]\(([^)#\s]*)(?:#([^)\s]*))?\)")

# The folders at the top. Comments in them cite pages.
FOLDERS = ("bench", "crates", "docs", "examples", "launcher", "lessons", "lib", "rows", "tools", "view")

# What is a path: a file by its ending, or anything in one of these folders.
FILE = re.compile(r"[\w./-]*\w\.(antt|rt|py|md|pony|sched|c|txt|edit)")
IN_FOLDER = re.compile(rf"({'|'.join(FOLDERS)})/[\w./-]*")
DEFINITIONS = re.compile(r"(?:crates/)?(?:pc_\w+/)?specs/\w+")
CRATE = re.compile(r"pc_\w+")

# A name of a definition, a type or a function: with `_`, or with a capital letter.
NAME = re.compile(r"[A-Za-z]\w*(?:_\w+|[a-z][A-Z]\w*)|[A-Z][a-z]\w+")

# Names of the language that are not here, of programs that are made, and of tools.
OTHER_NAMES = {"Array", "Work3", "callgrind_annotate"}

# Folders of what is built and kept.
NO_FOLDERS = {".git", "__pycache__", "out"}

# Paths that stand for any, or are made.
NO_PATHS = re.compile(r"NAME|FILE|FUNCTION|PATH|crates/pc_cli/out|examples/nothing\.pony")


def all_files():
    """The files of the repository, without what is built."""
    found = []
    for folder, folders, names in os.walk(pages.TOP):
        folders[:] = sorted(set(folders) - NO_FOLDERS)
        found += [str((pathlib.Path(folder) / name).relative_to(pages.TOP)) for name in names]
    return found


def made_by(page):
    """The files that a page writes or makes."""
    written = {block.said for block in pages.blocks(page) if block.mark == "file"}
    return written | set(re.findall(r"> ?(\w[\w-]*\.\w+)", page.text()))


def words_of(files):
    """All words of the files that are no pages, and the names of mutants."""
    texts = ((pages.TOP / name).read_text(errors="replace") for name in files if not name.endswith(".md"))
    words = {word for text in texts for word in re.findall(r"\w+", text)}
    return words | {pathlib.Path(name).stem for name in files if name.endswith(".edit")}


def bad_names(page, words):
    """The names on a page that nothing has."""
    return [
        f"{page.name}:{number}: {name}"
        for number, line in enumerate(page.lines, 1)
        for name in re.findall(r"`(?:\w+::)?(\w+)`", line)
        if NAME.fullmatch(name) and name not in words and name not in OTHER_NAMES
    ]


def bad_paths(page, files, crates):
    """The paths and crates that a page names and that are not there."""
    made, found = made_by(page), []
    for number, line in enumerate(page.lines, 1):
        for word in re.findall(r"`([^`]+)`", line):
            if NO_PATHS.search(word) or word in made:
                continue
            if FILE.fullmatch(word) or IN_FOLDER.fullmatch(word):
                path = word.rstrip("/")
                is_there = any(it == path or it.endswith("/" + path) or it.startswith(path + "/") for it in files)
            elif DEFINITIONS.fullmatch(word):
                is_there = any(it.endswith(f"/{word}.antt") or f"/{word}/" in it for it in files)
            elif CRATE.fullmatch(word):
                is_there = word in crates
            else:
                continue
            if not is_there:
                found.append(f"{page.name}:{number}: {word}")
    return found


def anchors(page):
    """The anchors of a page's headings."""
    titles = [line.lstrip("#").strip() for line in page.lines if re.match(r"#+ ", line)]
    return {re.sub(r"[^\w\- ]", "", title.lower()).replace(" ", "-") for title in titles}


def bad_links(page):
    """The links of a page that lead nowhere."""
    found = []
    folder = (pages.TOP / page.name).parent
    for path, anchor in LINK.findall(page.text()):
        if "://" in path:
            continue
        target = (folder / path).resolve() if path else pages.TOP / page.name
        if not target.exists():
            found.append(path)
        elif anchor and target.suffix == ".md":
            if anchor not in anchors(pages.Page(path, target.read_text().splitlines())):
                found.append(f"{path}#{anchor}")
    return found


def bad_phrases(name, text):
    """The places of phrases that are not wanted, outside of what is in backticks."""
    prose = CODE.sub(lambda code: "`" + " " * (len(code[0]) - 2) + "`", text)
    found = []
    for phrase, better in PHRASES.items():
        for said in re.finditer(phrase.replace(" ", r"\s+"), prose, re.IGNORECASE):
            found.append(f"{name}:{prose.count(chr(10), 0, said.start()) + 1}: {said[0]!r} ({better})")
    return found


def prose(page):
    """The text of a page, without what commands write: those are the words of a program."""
    lines = list(page.lines)
    for block in pages.blocks(page):
        for at, line in enumerate(block.lines, block.line - 1):
            if block.mark == "output" or session(block.lines) and not line.startswith(PROMPT):
                lines[at] = ""
    return "\n".join(lines)


def long_lines(page):
    """The lines of prose of a page that are longer than a screen is wide: none of a table, of code, or with a link."""
    code = {block.line + at for block in pages.blocks(page) for at in range(len(block.lines))}
    return [
        number
        for number, line in enumerate(page.lines, 1)
        if len(line) > COLUMNS and number not in code and not line.startswith(("|", "<!--", "#")) and "](" not in line and "`" not in line
    ]


def bad_citations(files):
    """The pages that comments cite and that are not there."""
    found = []
    for name in files:
        if name.split("/")[0] in FOLDERS:
            for page in re.findall(r"docs/[\w-]+\.md", (pages.TOP / name).read_text(errors="replace")):
                if page not in files:
                    found.append(f"{name}: {page}")
    return found


def look(found, results):
    """Looks at each page by itself."""
    files = all_files()
    words = words_of(files)
    crates = {name.split("/")[1] for name in files if re.match(r"crates/pc_\w+/", name)}
    for page in found:
        for what, bad in (
            ("links", bad_links(page)),
            ("paths", bad_paths(page, files, crates)),
            ("names", bad_names(page, words)),
            ("phrases", bad_phrases(page.name, prose(page))),
            ("lines are wrapped", long_lines(page)),
        ):
            results.check(not bad, f"{page.name}: {what}", "; ".join(map(str, bad)))


def look_at_all(found, results):
    """Looks at what holds of all pages together."""
    readme = next(it for it in found if it.name == "README.md")
    results.check(len(readme.lines) <= README_LINES, f"README.md: at most {README_LINES} lines", len(readme.lines))
    docs = [it for it in found if it.name.startswith("docs/")]
    results.check(len(docs) <= PAGES, f"docs: at most {PAGES} pages", len(docs))
    phrases = bad_phrases("launcher/help.txt", (pages.TOP / "launcher" / "help.txt").read_text())
    results.check(not phrases, "launcher/help.txt: phrases", "; ".join(phrases))
    crates = next(it for it in found if it.name == "crates/README.md")
    lines = (pages.TOP / "crates.txt").read_text().splitlines()
    unnamed = [name for name in (line.split(":")[0].split()[0] for line in lines if line.startswith("pc_")) if f"`{name}`" not in crates.text()]
    results.check(not unnamed, "crates/README.md names each crate", ", ".join(unnamed))
    cited = bad_citations(all_files())
    results.check(not cited, "pages that comments cite", "; ".join(cited))
    linked = {path.split("/")[-1] for path, _ in LINK.findall(readme.text())}
    missing = [it.name for it in docs if it.name.split("/")[-1] not in linked]
    results.check(not missing, "README.md links to each page", ", ".join(missing))
