"""Each rule, form and kind that the documents name has a sentence, each sentence has one of them, and colours are legible."""

import re
import sys
import unittest

import contrast
import pages

sys.path.insert(0, str(pages.VIEW))

import meanings  # noqa: E402


class Sentences(unittest.TestCase):
    """What pages say of the words in the program's texts."""

    def test_rules(self):
        page = (pages.TOP / "docs/derivation.md").read_text()
        named = re.search(r"A \*\*rule\*\* is one of these 31 names:\s+`([^`]+)`", page)[1].split()
        self.assertEqual(sorted(named), sorted(meanings.RULES))

    def test_forms(self):
        page = (pages.TOP / "docs/derivation.md").read_text()
        named = re.search(r"A \*\*form\*\* is one of\s+`([^`]+)`", page)[1].split()
        self.assertEqual(sorted([*named, "-"]), sorted(meanings.CAPABILITIES))

    def test_kinds(self):
        table = (pages.TOP / "docs/places.md").read_text().split("KIND is one of these:")[1]
        rows = re.findall(r"^\| (`.*?`) \|", table, re.MULTILINE)
        named = {it.split(":")[0] for row in rows for it in re.findall(r"`([^`]+)`", row)}
        self.assertEqual(sorted(named), sorted(meanings.KINDS))


class Contrast(unittest.TestCase):
    """Texts have at least 4.5 to 1 with all that may be under them, and signs at least 3 to 1."""

    def test_all(self):
        style = (pages.VIEW / "assets/style.css").read_text()
        found = list(contrast.table(style))
        self.assertEqual(len(found), 2 * (12 * 5 + 10 * 3))
        self.assertEqual([it for it in found if it[3] < it[4]], [])

    def test_known_values(self):
        self.assertAlmostEqual(contrast.contrast("#000000", "#ffffff"), 21)
        self.assertAlmostEqual(contrast.contrast("#777777", "#ffffff"), 4.48, places=2)
