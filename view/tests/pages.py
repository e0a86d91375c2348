"""Pages for the tests: how they are made, and what is in them."""

import json
import os
import pathlib
import re
import subprocess
import sys

HERE = pathlib.Path(__file__).resolve().parent
VIEW = HERE.parent
TOP = VIEW.parent
CASES = HERE / "cases"
EXAMPLES = TOP / "examples"
STAND_IN = HERE / "stand_in"

# How many processors there are for the tests.
PROCESSORS = len(os.sched_getaffinity(0))

DATA = re.compile(r'<script type="application/json" id="data">(.*?)</script>', re.DOTALL)


def make(*words, stand_in=None, folder=None):
    """What view/page gives for these words: its status, standard output and standard error."""
    environment = dict(os.environ)
    if stand_in:
        environment["RCAP"] = str(stand_in)
    ran = subprocess.run(
        [sys.executable, VIEW / "page", *words], cwd=folder, env=environment, stdin=subprocess.DEVNULL, capture_output=True, check=False
    )
    return ran.returncode, ran.stdout.decode(), ran.stderr.decode(errors="replace")


def data_of(page):
    """The data of a page."""
    return json.loads(DATA.search(page)[1])


def ask(*words):
    """What the program writes: its status and its standard output."""
    program = os.environ.get("RCAP") or TOP / "rcap"
    ran = subprocess.run([program, *words], stdin=subprocess.DEVNULL, capture_output=True, check=False)
    return ran.returncode, ran.stdout.decode(errors="replace")


def sums(differences):
    """The numbers of which these are the differences."""
    found, at = [], 0
    for it in differences:
        at += it
        found.append(at)
    return found
