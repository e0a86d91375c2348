"""Pages of all examples, on the program: what they say is what the program's texts say, line by line, and nothing in them
comes from outside."""

import atexit
import concurrent.futures
import functools
import pathlib
import re
import shutil
import tempfile
import unittest

import pages

POLICY = "default-src 'none'; style-src 'unsafe-inline'; script-src 'unsafe-inline'"
NAMES = {"http://www.w3.org/2000/svg", "http://www.w3.org/1999/xhtml"}

# Runs of examples that have no schedule are those of this seed.
SEED = "1"

# Statuses of `check` at which `explain` says why, and the line of an explanation after the source's line and its carets.
EXPLAINED = (1, 4)
WINDOW = 3

# Fewer pages than this are a mistake: 11 accepted examples with three pages each, and 201 refused ones.
LEAST_PAGES = 234


def asked_for():
    """The words of a page for each example: its derivation, and if it is accepted its run and who sends what."""
    found = []
    for source in sorted(pages.EXAMPLES.glob("**/*.pony")):
        found.append(("derivation", str(source)))
        if pages.ask("check", str(source))[0] != 0:
            continue
        schedule = source.with_suffix(".sched")
        found.append(("run", str(source), *([str(schedule)] if schedule.exists() else ["--seed", SEED])))
        found.append(("sends", str(source)))
    return found


@functools.cache
def made():
    """All pages, in a folder that goes at the end: of each its words, its file and its status."""
    folder = pathlib.Path(tempfile.mkdtemp(prefix="view-pages-"))
    atexit.register(shutil.rmtree, folder, ignore_errors=True)

    def make(number, words):
        status, out, err = pages.make(*words)
        file = folder / f"{number:03}-{words[0]}-{pathlib.Path(words[1]).stem}.html"
        file.write_text(out)
        return words, file, status, err

    wanted = asked_for()
    with concurrent.futures.ThreadPoolExecutor(pages.PROCESSORS) as pool:
        return list(pool.map(make, range(len(wanted)), wanted))


def each(kind):
    """The words and the data of each page of a kind that was made."""
    for words, file, status, _ in made():
        if words[0] == kind and status == 0:
            yield words, pages.data_of(file.read_text())


@functools.cache
def schedule_of(words):
    """The schedule by which a page of a run is made. That of a seed is written beside the pages."""
    if words[2] != "--seed":
        return words[2]
    source = pathlib.Path(words[1])
    file = made()[0][1].with_name(f"{source.parent.name}-{source.stem}-{words[3]}.sched")
    file.write_text(pages.ask("schedule", words[1], words[3])[1])
    return str(file)


class Pages(unittest.TestCase):
    """What holds of every page."""

    def test_each_is_made(self):
        self.assertEqual([(words, err) for words, _, status, err in made() if status != 0], [])
        self.assertGreaterEqual(len(made()), LEAST_PAGES)

    def test_nothing_comes_from_outside(self):
        for _, file, _, _ in made():
            text = file.read_text()
            with self.subTest(file.name):
                self.assertIn(f'<meta http-equiv="Content-Security-Policy" content="{POLICY}', text)
                self.assertLess(text.index("Content-Security-Policy"), text.index("<style>"))
                page = pages.DATA.sub("", text)
                self.assertLessEqual(set(re.findall(r"https?://[^\"'\s`)]+", page)), NAMES)
                self.assertEqual(re.findall(r"<[a-z][^<>]*\s(?:src|href|action)\s*=", page), [])
                self.assertEqual(re.findall(r"url\((?!#)", page), [])
                self.assertEqual(re.findall(r"\b(?:fetch|XMLHttpRequest|WebSocket|EventSource|sendBeacon|localStorage|cookie)\b", page), [])
                self.assertEqual(text.count("</script>"), 2)


class Derivations(unittest.TestCase):
    """Data of derivations."""

    def test_each_line_is_that_of_the_derivation(self):
        looked = 0
        for words, data in each("derivation"):
            status, text = pages.ask("check", words[1])
            with self.subTest(words[1]):
                self.assertEqual(data["verdict"], "refused" if status else "accepted")
                if status == 0:
                    self.assertEqual(derivation_of(data), text)
                    looked += 1
                else:
                    self.assertNotIn("rule", data["nodes"])
        self.assertGreater(looked, 7)

    def test_each_place_is_that_of_the_core(self):
        looked = 0
        for words, data in each("derivation"):
            status, text = pages.ask("places", words[1])
            if status or not data["source"].isascii():
                continue
            with self.subTest(words[1]):
                self.assertEqual(places_of(data), text)
                self.assertEqual(data["source"], pathlib.Path(words[1]).read_bytes().decode())
                looked += 1
        self.assertGreater(looked, 12)

    def test_refused_places(self):
        looked = 0
        for words, data in each("derivation"):
            if data["verdict"] != "refused" or not data["refusal"]["place"]:
                continue
            head, place = data["refusal"]["head"], data["refusal"]["place"]
            line, column = (int(it) for it in re.search(r":(\d+):(\d+): ", head).groups())
            before = data["source"][: place[0]].encode()
            with self.subTest(words[1]):
                self.assertEqual((before.count(b"\n") + 1, len(before) - before.rfind(b"\n")), (line, column))
                self.assertGreater(place[1], place[0])
                looked += 1
        self.assertGreater(looked, 170)

    def test_each_explanation_is_that_of_the_program(self):
        looked = 0
        for words, data in each("derivation"):
            if pages.ask("check", words[1])[0] not in EXPLAINED:
                continue
            lines = pages.ask("explain", words[1])[1].splitlines()
            with self.subTest(words[1]):
                self.assertEqual(explanation_of(data), [lines[0], *lines[WINDOW if data["refusal"]["place"] else 1 :]])
                looked += 1
        self.assertGreater(looked, 180)


def explanation_of(data):
    """The lines of an explanation that a page's data says: all but the source's line and its carets."""
    return [data["refusal"]["head"], *(f"{word}: {words}" for word, words in data["refusal"]["lines"])]


def derivation_of(data):
    """The text of the derivation that a page's data says."""
    slots, nodes = data["slots"], data["nodes"]
    lines = [f"rcap-derivation 1 {len(slots['type'])} {len(nodes['kind'])}"]
    lines += [f"s {data['types'][it]}" for it in slots["type"]]
    for rule, type_, mask in zip(nodes["rule"], nodes["type"], nodes["masks"]):
        lines.append(f"n {nodes['rules'][rule]} {data['types'][type_]} {nodes['mask'][mask]}")
    return "\n".join(lines) + "\n"


def places_of(data):
    """The text of the places that a page's data says."""
    slots, nodes = data["slots"], data["nodes"]
    counts = [len(data["entities"]), len(data["fields"]), len(data["methods"]), len(slots["kind"]), len(nodes["kind"])]
    lines = [" ".join(["rcap-places 1", *map(str, counts)])]
    for letter, rows in (("e", data["entities"]), ("f", data["fields"]), ("m", data["methods"])):
        lines += [" ".join([letter, *("-" if it is None else str(it) for it in row)]) for row in rows]
    starts = pages.sums(slots["start"])
    for depth, kind, start, length, name in zip(slots["depth"], slots["kind"], starts, slots["length"], slots["name"]):
        lines.append(f"s {depth} {slots['kinds'][kind]} {start} {start + length} {data['names'][name]}")
    firsts = [row[5] for row in data["methods"]]
    starts, waiting = pages.sums(nodes["start"]), []
    for node, (kind, depth, length, count) in enumerate(zip(nodes["kind"], nodes["depth"], nodes["length"], nodes["children"])):
        children = waiting[len(waiting) - count :]
        del waiting[len(waiting) - count :]
        method = max(m for m, first in enumerate(firsts) if first <= node)
        words = ["n", nodes["kinds"][kind], method, depth, starts[node], starts[node] + length, *children]
        lines.append(" ".join(map(str, words)))
        waiting = [] if nodes["kinds"][kind] == "body" else [*waiting, node]
    return "\n".join(lines) + "\n"


class Runs(unittest.TestCase):
    """Data of runs."""

    def test_each_line_is_that_of_the_events(self):
        looked = 0
        for words, data in each("run"):
            if data["verdict"] == "ended":
                continue
            schedule = schedule_of(words)
            with self.subTest(words[1]):
                lines = events_of(data)
                self.assertEqual("\n".join(lines) + "\n", pages.ask("events", words[1], schedule)[1])
                accesses = [it for it in lines[:-1] if it.split(" ")[2] in ("read", "write")]
                trace = pages.ask("trace", words[1], schedule)[1]
                self.assertEqual([*accesses, f"accesses {data['accesses']} ordered"], trace.splitlines())
                self.assertEqual("".join(f"{it}\n" for it in [*data["printed"], data["numbers"]]), pages.ask("run", words[1], schedule)[1])
                looked += 1
        self.assertGreater(looked, 7)


def events_of(data):
    """The lines of the events that a page's data says."""
    events = data["events"]
    places, jumps = pages.sums(events["place"]), {it[0]: it[1:] for it in events["jumps"]}
    clocks, actors, lines = {}, 2, []
    for number, (place, actor) in enumerate(zip(places, events["actor"])):
        clock = clocks.setdefault(actor, [])
        clock += [0] * (actors - len(clock))
        clock[actor] += events["own"][number]
        jump = jumps.get(number, [])
        for other, more in zip(jump[::2], jump[1::2]):
            clock[other] += more
        word, what, companion = (events[it][number] for it in ("word", "what", "with"))
        lines.append(f"{place} {actor} {event_of(data, places, number, word, what, companion)} clock {','.join(map(str, clock))}")
        actors += data["words"][word] == "make"
    return [*lines, f"events {len(lines)} accesses {data['accesses']} ordered"]


def event_of(data, places, number, word, what, companion):
    """The words of an event between its actor and its clock."""
    name = data["words"][word]
    if name in ("take", "send", "make"):
        message = data["messages"][what]
        sent = places[number - companion] if companion else 0
        return f"take {message} {sent}" if name == "take" else f"{name} {companion} {message}"
    address, entity = data["objects"][what]
    return f"new {address} {entity}" if name == "new" else f"{name} {address} {companion}"


class Sends(unittest.TestCase):
    """Data of who sends what."""

    def test_each_line_is_that_of_the_table(self):
        looked = 0
        for words, data in each("sends"):
            names = [f"{data['boxes'][box] if box >= 0 else entity}.{name}" for box, entity, name in data["messages"]]
            lines = [f"{data['boxes'][box]} sends {names[m]}" for box, row in zip(data["senders"], data["rows"]) for m in pages.sums(row)]
            lines += [f"never {names[m]}" for m in data["never"]]
            with self.subTest(words[1]):
                self.assertEqual(lines, pages.ask("sends", words[1])[1].splitlines())
                looked += 1
        self.assertGreater(looked, 7)

    def test_boxes_do_not_overlap(self):
        looked = 0
        for words, data in each("sends"):
            for side, picture in ((1, data["wide"]), (0, data["tall"])):
                spans = {}
                for box, layer in enumerate(picture["layer"]):
                    half, at = data["sizes"][box][side] / 2, picture["at"][box]
                    spans.setdefault(layer, []).append((at - half, at + half))
                with self.subTest(words[1]):
                    for row in spans.values():
                        row.sort()
                        self.assertTrue(all(a[1] < b[0] for a, b in zip(row, row[1:])))
                    looked += 1
        self.assertGreater(looked, 2 * 7)
