"""Pages in a headless Chromium: each walks itself in a wide and in a narrow window, in light and in dark; what panels show
is what the program's texts say; and what is printed is the picture alone, in light."""

import concurrent.futures
import contextlib
import html
import json
import os
import pathlib
import re
import shutil
import subprocess
import tempfile
import unittest
import zlib

import contrast
import odd
import of_examples
import pages

HOW = "there is no Chromium: `apt-get install -y chromium` installs one, or CHROMIUM names it"

WIDE, NARROW = (1280, 800), (390, 844)
THEMES = ("light", "dark")
WINDOWS = [(size, theme) for size in (WIDE, NARROW) for theme in THEMES]

# The kinds of pages, in the order in which those of an accepted example are made.
KINDS = ["derivation", "run", "sends"]

# How many pages are opened in one browser.
MOST_PAGES = 40

# What the browser may take at most: seconds in all, and milliseconds of its own time.
SECONDS, OWN_TIME = 900, 3_600_000

# How often the pages walked themselves.
walks = 0

# Opens one page after the other in a frame of a size, asks it until it answers, and notes the answers.
FRAMES = """<!DOCTYPE html>
<meta charset="utf-8">
<title>pages in frames</title>
<script type="application/json" id="wanted">%s</script>
<script>
const wanted = JSON.parse(document.getElementById("wanted").textContent), found = [];
const ask = %s;
function next() {
  if (found.length === wanted.length) {
    document.documentElement.dataset.found = JSON.stringify(found);
    return;
  }
  const row = wanted[found.length], frame = document.createElement("iframe");
  [frame.width, frame.height] = row.size;
  frame.src = row.address;
  document.body.append(frame);
  let turns = 0;
  const look = () => {
    const answer = ask(frame, row);
    if (answer === undefined && turns++ < 400) return setTimeout(look, 25);
    found.push(answer ?? "error: it did not end");
    frame.remove();
    setTimeout(next, 0);
  };
  frame.addEventListener("load", look, { once: true });
}
addEventListener("load", next);
</script>
<body></body>
"""

# What a page found out when it walked itself.
WALKED = "(frame) => frame.contentDocument?.documentElement?.dataset.selftest"

# The texts of parts of a page, at first and each time after the key to the right is pressed, and the number of its arrows.
READ = """(frame, row) => {
  const page = frame.contentDocument, read = [];
  const pick = () => row.parts.map((part) => [...page.querySelectorAll(part)].map((it) => it.textContent));
  const first = pick();
  for (let i = 0; i < row.presses; i++) {
    page.body.dispatchEvent(new frame.contentWindow.KeyboardEvent("keydown", { key: "ArrowRight", bubbles: true, cancelable: true }));
    read.push(pick());
  }
  return { first, read, arrows: page.querySelectorAll("path[marker-end]").length };
}"""


def browser():
    """The browser's program, or nothing."""
    return os.environ.get("CHROMIUM") or shutil.which("chromium")


def version():
    """The browser's own words for what it is."""
    if browser() is None:
        return "no browser"
    return subprocess.run([browser(), "--version"], stdin=subprocess.DEVNULL, capture_output=True, check=False, text=True).stdout.strip()


def started(*words):
    """What the browser writes, with a profile that goes at the end."""
    profile = tempfile.mkdtemp(prefix="view-profile-")
    called = [browser(), "--headless", "--no-sandbox", "--disable-gpu", f"--user-data-dir={profile}", *words]
    try:
        ran = subprocess.run(called, stdin=subprocess.DEVNULL, capture_output=True, check=False, timeout=SECONDS)
    finally:
        shutil.rmtree(profile, ignore_errors=True)
    return ran.stdout.decode(errors="replace")


def opened(address, size, own_time):
    """The document after a page has run, as the browser writes it. Its own time runs fast, if it is given any."""
    words = ["--hide-scrollbars", "--allow-file-access-from-files", f"--window-size={size[0]},{size[1]}", "--dump-dom"]
    return started(*words, *([f"--virtual-time-budget={own_time}"] if own_time else []), address)


# A stream of a PDF, and the colour of what is painted in it.
STREAM = re.compile(rb"stream\r?\n(.*?)\r?\nendstream", re.DOTALL)
PAINT = re.compile(rb"([0-9.]+) ([0-9.]+) ([0-9.]+) (?:rg|RG)\b")


def colours_in_print(address):
    """The colours with which a page is printed."""
    found = set()
    with tempfile.TemporaryDirectory(prefix="view-print-") as folder:
        file = pathlib.Path(folder) / "page.pdf"
        started("--no-pdf-header-footer", f"--print-to-pdf={file}", address)
        streams = STREAM.findall(file.read_bytes())
    for stream in streams:
        with contextlib.suppress(zlib.error):
            for paint in PAINT.finditer(zlib.decompress(stream)):
                found.add("#" + "".join(f"{round(float(it) * 255):02x}" for it in paint.groups()))
    return found


class Browser(unittest.TestCase):
    """Tests that need a browser, and fail without one."""

    def setUp(self):
        if browser() is None:
            self.fail(HOW)

    def walked(self, files):
        """Has each page walk itself in each window and theme, and returns what is wrong, and how many things were looked at."""
        global walks
        rows = [(file, size, theme) for file in files for size, theme in WINDOWS]
        asked = [{"address": f"{file.as_uri()}#selftest&theme={theme}", "size": size} for file, size, theme in rows]
        found = self.answers(WALKED, asked)
        walks += len(found)
        named = [(f"{file.name} {size[0]} {theme}: {result}", result) for (file, size, theme), result in zip(rows, found, strict=True)]
        bad = [name for name, result in named if not result.startswith("ok ")]
        return bad, sum(int(result.split()[1]) for _, result in named if result.startswith("ok "))

    def answers(self, ask, rows):
        """What pages answer in frames, a browser for some of them, and as many browsers at once as there are processors."""
        parts = [rows[at : at + MOST_PAGES] for at in range(0, len(rows), MOST_PAGES)]
        with concurrent.futures.ThreadPoolExecutor(pages.PROCESSORS) as pool:
            found = pool.map(lambda part: self.answers_together(ask, part), parts)
            return [answer for answers in found for answer in answers]

    def answers_together(self, ask, rows):
        """What pages answer in frames, all in one browser."""
        with tempfile.TemporaryDirectory(prefix="view-frames-") as folder:
            file = pathlib.Path(folder) / "frames.html"
            file.write_text(FRAMES % (json.dumps(rows), ask))
            result = re.search(r'<html[^>]* data-found="([^"]*)"', opened(file.as_uri(), WIDE, OWN_TIME))
        self.assertIsNotNone(result, "the browser did not end")
        return json.loads(html.unescape(result[1]))


class OddWalks(Browser):
    """Odd pages, which need no program."""

    def test_each_odd_page_walks_itself(self):
        with tempfile.TemporaryDirectory(prefix="view-odd-") as folder:
            files = odd.made(folder)
            self.assertEqual(len(files), len(odd.ALL))
            self.assertEqual(self.walked(files)[0], [])


def pages_of_bank():
    """One page of each kind: the kind and the file, of one example."""
    return [(words[0], file) for words, file, _, _ in of_examples.made() if pathlib.Path(words[1]).stem == "bank"]


class Walks(Browser):
    """All pages of the examples."""

    def test_each_page_walks_itself(self):
        files = [file for _, file, status, _ in of_examples.made() if status == 0]
        bad, looked = self.walked(files)
        self.assertEqual(bad, [])
        self.assertGreater(looked, 20 * len(files) * len(WINDOWS))

    def test_a_window_of_its_own(self):
        self.assertEqual([kind for kind, _ in pages_of_bank()], KINDS)
        for kind, file in pages_of_bank():
            with self.subTest(kind):
                self.assertRegex(opened(f"{file.as_uri()}#selftest", WIDE, 20000), r'<html[^>]* data-selftest="ok \d+"')

    def test_a_page_with_a_fault_says_so(self):
        """A test that cannot fail is none: a page whose data was changed finds it out."""
        file = dict(pages_of_bank())["run"]
        text = file.read_text()
        data = pages.data_of(text)
        # All takings forget what their senders knew, so that accesses are no longer ordered.
        data["events"]["jumps"] = []
        broken = file.with_name("broken.html")
        broken.write_text(pages.DATA.sub(lambda it: it[0].replace(it[1], json.dumps(data).replace("<", "\\u003c")), text))
        bad, _ = self.walked([broken])
        self.assertEqual(len(bad), len(WINDOWS))
        for result in bad:
            self.assertRegex(result, r": error: .* does not come before it")


class Print(Browser):
    """What is printed of a page that is dark on the screen, and on which something is held."""

    def test_the_picture_alone_in_light(self):
        light, dark = contrast.themes((pages.VIEW / "assets/style.css").read_text()).values()
        self.assertEqual([kind for kind, _ in pages_of_bank()], KINDS)
        for kind, file in pages_of_bank():
            found = colours_in_print(f"{file.as_uri()}#theme=dark&hold=57&step=271")
            with self.subTest(kind):
                self.assertLessEqual({light["ink"], light["ground"]}, found)
                self.assertEqual(found & (set(dark.values()) - set(light.values())), set())
                # The panel has the held expression on this ground, and so has the picture on the screen.
                self.assertNotIn(light["marked"], found)


# How many events and expressions of a page are gone through at most.
MOST_PRESSES = 400

# What a panel says that an actor does, by the word of the event.
VERBS = {"take": "takes", "send": "sends", "make": "makes", "new": "makes an object of", "read": "reads", "write": "writes"}

# How many lines of `sends` a panel shows at first.
MOST_LINES = 200


class Panels(Browser):
    """What the panels of the examples' pages show is what the program's texts say."""

    def read(self, kind, parts, presses):
        """Of each page of a kind its words, its data and what it shows. `presses` says of its data how often it goes on."""
        found, rows = [], []
        for words, file, status, _ in of_examples.made():
            if words[0] == kind and status == 0:
                data = pages.data_of(file.read_text())
                found.append((words, data))
                rows.append({"address": file.as_uri(), "size": WIDE, "parts": parts, "presses": min(presses(data), MOST_PRESSES)})
        return [(*it, shown) for it, shown in zip(found, self.answers(READ, rows), strict=True)]

    def test_types_and_rules(self):
        parts = ["#panel .raw", "#panel .big", "#panel .pill.large"]
        looked = 0
        for words, data, shown in self.read("derivation", parts, lambda data: len(data["nodes"].get("rule", []))):
            lines = pages.ask("check", words[1])[1].splitlines()
            names = [row[4] for row in data["entities"]]
            with self.subTest(words[1]):
                for node, (raw, rule, type_) in enumerate(shown["read"]):
                    number = len(data["slots"]["kind"]) + node + 2
                    line = lines[number - 1]
                    _, wanted, entity, form, *_ = line.split(" ")
                    self.assertEqual((raw, rule), ([f"line {number}, node {node}: {line}"], [wanted]))
                    self.assertEqual(type_, ["no type" if entity == "-" else f"{names[int(entity)]} {form}"])
                    looked += 1
        self.assertGreater(looked, 300)

    def test_clocks_and_messages(self):
        parts = ["#panel h2", "#panel .big", "#panel .clock b", "#panel .link"]
        looked = 0
        for words, data, shown in self.read("run", parts, lambda data: len(data.get("events", {"place": []})["place"])):
            if data["verdict"] == "ended":
                continue
            lines = pages.ask("events", words[1], of_examples.schedule_of(words))[1].splitlines()[:-1]
            with self.subTest(words[1]):
                for line, (headings, does, clock, links) in zip(lines, shown["read"]):
                    place, actor, word, *rest, _, numbers = line.split(" ")
                    said = "the stream" if actor == "0" else f"actor {actor}"
                    self.assertEqual((headings[0], ",".join(clock)), (f"Step {place}", numbers))
                    self.assertRegex(does[0], rf"^\S+ \({said}\) {VERBS[word]} ")
                    if word == "take" and rest[1] != "0":
                        self.assertTrue(links[0].startswith(f"sent at step {rest[1]} by "), line)
                    looked += 1
                taken = [it for it in (line.split(" ") for line in lines) if it[2] == "take" and it[4] != "0"]
                self.assertEqual(shown["arrows"], len(taken))
        self.assertGreater(looked, 150)

    def test_lines_of_sends(self):
        looked = 0
        for words, _, shown in self.read("sends", ["#panel .lines .line"], lambda data: 0):
            lines = pages.ask("sends", words[1])[1].splitlines()
            with self.subTest(words[1]):
                self.assertEqual(shown["first"][0][: len(lines)], lines[:MOST_LINES])
                self.assertEqual(shown["arrows"], sum(" sends " in line for line in lines))
                looked += 1
        self.assertGreater(looked, 7)
