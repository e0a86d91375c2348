"""Small sources by chance: each command ends with the status that the description says."""

import functools
import os
import pathlib
import random
import subprocess
import tempfile
import unittest

import composed
import fitting
import genes
import sizes

TOP = pathlib.Path(__file__).resolve().parents[2]

# How many sources are tried, and up to which size: the program may be one without proofs, which is slow.
SOURCES = 30
BYTES_AT_MOST = 4_000
PART = 0.02

COMMANDS = ("show", "check", "explain", "places", "sends")


@functools.cache
def program():
    """The program that is tried."""
    return os.environ.get("RCAP") or str(TOP / "rcap")


def small(seed):
    """Small descriptions by chance, without end."""
    chance = random.Random(seed)
    while True:
        changed, _ = genes.mutated(chance, genes.by_chance(chance))
        described = genes.scaled(fitting.fitted(chance, changed), PART)
        if sizes.sizes_of(described).bytes <= BYTES_AT_MOST:
            yield described


class Answers(unittest.TestCase):
    """Each description says how its source is answered."""

    def look(self, described):
        """Asks each command."""
        with tempfile.NamedTemporaryFile("w", suffix=".pony") as file:
            file.writelines(it.text for it in composed.pieces(described))
            file.flush()
            for command in COMMANDS:
                words = [program(), command, file.name]
                ended = subprocess.run(words, stdin=subprocess.DEVNULL, capture_output=True, check=False)
                self.assertEqual(ended.returncode, composed.status_of(command, described), (command, ended.stderr))

    def test_sources_by_chance(self):
        for _, described in zip(range(SOURCES), small(9)):
            with self.subTest(genes.line_of(described)):
                self.look(described)

    def test_each_item_and_each_fault(self):
        lines = [f"item={it}" for it in genes.FIELDS["item"].metadata["words"]]
        lines += [f"main_item={it}" for it in genes.FIELDS["main_item"].metadata["words"]]
        lines += [f"fault={it}" for it in genes.FIELDS["fault"].metadata["words"]]
        types = genes.FIELDS["parameter_type"].metadata["words"]
        lines += [f"class_kind={kind} item=ask parameter_type={it}" for kind in ("class", "actor") for it in types]
        for line in lines:
            with self.subTest(line):
                self.look(fitting.consistent(genes.parsed(f"{genes.line_of(genes.SMALL)} {line}")))
