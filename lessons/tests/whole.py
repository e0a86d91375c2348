"""The course as a whole: its page, and the card."""

import re
import subprocess

import forms
import pages

LESSONS = 20
CARD = "lessons/card.html"


def look_at_page(copy, results):
    """Looks at the list of the lessons."""
    page = copy.course_page
    names = [it.name for it in copy.lessons()]
    listed = re.findall(r"\]\(([\w-]+)/README\.md\)", page.text())
    numbers = [int(name[:2]) for name in names]
    results.check(numbers == list(range(1, LESSONS + 1)), f"there are {LESSONS} lessons", numbers)
    results.check(listed == names, f"{page.name}: lists the lessons in order", listed)
    results.check(copy.set_up is None, f"{page.name}: its commands copy the course", copy.set_up)
    titles = [it.page.lines[0].removeprefix("# ").split(". ", 1)[1] for it in copy.lessons()]
    linked = [title.strip() for title in re.findall(r"\[([^\]]+)\]\([\w-]+/README\.md\)", page.text())]
    results.check(linked == titles, f"{page.name}: lessons have their titles", [it for it in zip(linked, titles) if it[0] != it[1]])
    forms.look([page], results)


def look_at_card(results):
    """Compares the card with what its script writes."""
    ran = subprocess.run([pages.TOP / "lessons" / "card"], capture_output=True, check=False)
    is_right = ran.returncode == 0 and ran.stdout == (pages.TOP / CARD).read_bytes()
    results.check(is_right, f"{CARD} is what lessons/card writes", f"status {ran.returncode}: {ran.stderr.decode()}")


def look(copy, results):
    """Looks at all of these."""
    look_at_page(copy, results)
    look_at_card(results)
