"""The data of pages against JSON that was written by hand, of texts that were written by hand."""

import json
import os
import shutil
import subprocess
import sys
import tempfile
import unittest
from pathlib import Path

import pages


class ByHand(unittest.TestCase):
    """Each case is a source, its texts and its data, in cases/."""

    maxDiff = None

    def check(self, kind, source, *more):
        status, out, err = pages.make(kind, source, *more, stand_in=pages.STAND_IN, folder=pages.CASES)
        self.assertEqual((status, err), (0, ""))
        found = pages.data_of(out)
        found.pop("meanings", None)
        wanted = json.loads((pages.CASES / source).with_suffix(f".{kind}.json").read_text())
        self.assertEqual(found, wanted)
        return found

    def test_a_derivation(self):
        found = self.check("derivation", "cell.pony")
        # Each node's text is what its place cuts out of the source: these are written in the table of docs/core.md.
        starts = pages.sums(found["nodes"]["start"])
        cut = [found["source"][start : start + length] for start, length in zip(starts, found["nodes"]["length"])]
        wanted = ["5", "n", "n", "Cell", "Cell", "Cell", "Cell", "let c: Cell iso = Cell", "6", "c", "c.n = 6"]
        self.assertEqual(cut, [*wanted, "let c: Cell iso = Cell\n    c.n = 6", "create"])

    def test_a_refusal_after_characters_of_several_bytes(self):
        found = self.check("derivation", "alias.pony")
        start, end = found["refusal"]["place"]
        self.assertEqual(found["source"][start:end], "let b: C iso = a")

    def test_a_run(self):
        self.check("run", "keeper.pony", "keeper.sched")

    def test_who_sends_what(self):
        self.check("sends", "stops.pony")


class InACopy(unittest.TestCase):
    """A test in a copy of the cases."""

    def setUp(self):
        self.folder = Path(tempfile.mkdtemp(prefix="view-test-"))
        self.addCleanup(shutil.rmtree, self.folder)
        for file in pages.CASES.iterdir():
            shutil.copy(file, self.folder)


class Refused(InACopy):
    """Texts of another form, and answers that are no page: status 1 and one line."""

    def refused(self, line, *words):
        status, out, err = pages.make(*words, stand_in=pages.STAND_IN, folder=self.folder)
        self.assertEqual((status, out), (1, ""))
        self.assertEqual(err, line + "\n")

    def edit(self, name, old, new):
        file = self.folder / name
        data = file.read_bytes()
        self.assertEqual(data.count(old.encode()), 1)
        file.write_bytes(data.replace(old.encode(), new.encode()))

    def test_a_line_of_a_derivation(self):
        self.edit("cell.check", "n put 1 val 7 0 7 0", "n put 1 val 7 0 7")
        self.refused("derivation:16: bad line", "derivation", "cell.pony")

    def test_a_derivation_that_ends_early(self):
        self.edit("cell.check", "n body - 3 0 3 0\n", "")
        self.refused("derivation:18: bad line", "derivation", "cell.pony")

    def test_a_derivation_without_its_last_end(self):
        file = self.folder / "cell.check"
        file.write_text(file.read_text()[:-1])
        self.refused("derivation: the last line has no end", "derivation", "cell.pony")

    def test_a_derivation_of_another_core(self):
        self.edit("cell.places", "rcap-places 1 8 2 3 4 13", "rcap-places 1 8 2 3 3 13")
        self.edit("cell.places", "s 0 let 73 74 c\n", "")
        self.refused("cell.pony: check and places are of different cores", "derivation", "cell.pony")

    def test_children_that_are_not_the_last(self):
        self.edit("cell.places", "n setfield:n 1 0 17 18 0 1", "n setfield:n 1 0 17 18 1 0")
        self.refused("cell.pony: the children in places are not in post-order", "derivation", "cell.pony")

    def test_a_line_of_places(self):
        self.edit("cell.places", "f 6 var 1 val n", "f 6 var 1 n")
        self.refused("places:11: bad line", "derivation", "cell.pony")

    def test_a_field_of_an_entity_that_is_not_there(self):
        self.edit("cell.places", "f 6 var 1 val n", "f 8 var 1 val n")
        self.refused("places:11: bad line", "derivation", "cell.pony")

    def test_a_number_with_a_sign(self):
        self.edit("cell.places", "f 6 var 1 val n", "f -1 var 1 val n")
        self.refused("places:11: bad line", "derivation", "cell.pony")

    def test_an_actor_that_its_clock_has_not(self):
        self.edit("keeper.events", "49 2 take Keeper.bump 18 clock", "49 3 take Keeper.bump 18 clock")
        self.refused("events:8: bad line", "run", "keeper.pony", "keeper.sched")

    def test_a_clock_with_a_sign(self):
        self.edit("keeper.events", "clock 0,18,9", "clock 0,18,+9")
        self.refused("events:8: bad line", "run", "keeper.pony", "keeper.sched")

    def test_an_address_that_is_none(self):
        self.edit("keeper.events", "read 2.0 0", "read 2 0")
        self.refused("events:9: bad line", "run", "keeper.pony", "keeper.sched")

    def test_an_actor_that_nothing_made(self):
        self.edit("keeper.events", "read 2.0 0", "read 3.0 0")
        self.refused("events: no line makes actor 3", "run", "keeper.pony", "keeper.sched")

    def test_a_line_of_events(self):
        self.edit("keeper.events", "49 2 take Keeper.bump 18 clock 0,18,9", "49 2 take 18 clock 0,18,9")
        self.refused("events:8: bad line", "run", "keeper.pony", "keeper.sched")

    def test_a_message_without_a_method(self):
        self.edit("keeper.events", "18 1 send 2 Keeper.bump", "18 1 send 2 -")
        self.refused("events:5: bad line", "run", "keeper.pony", "keeper.sched")

    def test_an_object_that_nothing_made(self):
        self.edit("keeper.events", "7 1 new 1.1 Cell", "7 1 new 1.2 Cell")
        self.refused("events: no line makes object 1.1", "run", "keeper.pony", "keeper.sched")

    def test_events_without_their_last_line(self):
        self.edit("keeper.events", "events 10 accesses 4 ordered\n", "")
        self.refused("events:10: bad line", "run", "keeper.pony", "keeper.sched")

    def test_a_message_that_nobody_sent(self):
        self.edit("keeper.events", "take Keeper.bump 18", "take Keeper.bump 19")
        self.refused("events: nothing was sent at step 19", "run", "keeper.pony", "keeper.sched")

    def test_a_trace_of_other_accesses(self):
        self.edit("keeper.trace", "accesses 4 ordered", "accesses 5 ordered")
        self.refused("keeper.pony: events and trace differ in their last lines", "run", "keeper.pony", "keeper.sched")

    def test_a_line_of_sends(self):
        self.edit("stops.sends", "never A.stop", "never A")
        self.refused("sends:3: bad line", "sends", "stops.pony")

    def test_a_message_without_a_place(self):
        self.edit("stops.sends", "never A.stop", "never A.halt")
        self.refused("stops.pony: sends and places name different messages", "sends", "stops.pony")

    def test_an_explanation_of_another_fault(self):
        self.edit("alias.check.refused", "4:34", "4:33")
        self.refused("alias.pony: explain and check name different faults", "derivation", "alias.pony")

    def test_a_refusal_without_an_explanation(self):
        (self.folder / "alias.explain.refused").write_text("11\nalias.pony: out of memory\n")
        self.refused("alias.pony: out of memory", "derivation", "alias.pony")

    def test_a_line_of_an_explanation(self):
        self.edit("alias.explain", "part: the value", "part the value")
        self.refused("explain:5: bad line", "derivation", "alias.pony")

    def test_carets_that_are_none(self):
        self.edit("alias.explain", "^^^^^^^^^^^^^^^^", "~~~~~~~~~~~~~~~~")
        self.refused("explain:3: bad line", "derivation", "alias.pony")

    def test_a_refused_source_has_no_run_and_no_sends(self):
        for command in ("events", "sends"):
            shutil.copy(self.folder / "alias.check.refused", self.folder / f"alias.{command}.refused")
        self.refused("alias.pony:4:34: no rule", "run", "alias.pony", "keeper.sched")
        self.refused("alias.pony:4:34: no rule", "sends", "alias.pony")

    def test_a_file_that_is_not_there(self):
        (self.folder / "gone.check.refused").write_text("9\ngone.pony: cannot be read\n")
        self.refused("gone.pony: cannot be read", "derivation", "gone.pony")

    def test_a_seed_that_is_none(self):
        self.refused("x: no seed", "run", "keeper.pony", "--seed", "x")

    def test_a_program_that_is_not_there(self):
        status, out, err = pages.make("sends", "stops.pony", stand_in="/nowhere/rcap", folder=self.folder)
        self.assertEqual((status, out, err), (1, "", "/nowhere/rcap does not start: No such file or directory\n"))

    def test_output_that_is_full_or_closed(self):
        for redirected, why in ((">/dev/full", "No space left on device"), (">&-", "it is closed")):
            words = ["bash", "-c", f'exec "$@" {redirected}', "bash", sys.executable, pages.VIEW / "page", "sends", "stops.pony"]
            environment = {**os.environ, "RCAP": str(pages.STAND_IN)}
            ran = subprocess.run(words, cwd=self.folder, env=environment, stdin=subprocess.DEVNULL, capture_output=True, check=False)
            self.assertEqual((ran.returncode, ran.stderr.decode()), (1, f"standard output: {why}\n"))

    def test_other_words(self):
        status, out, err = pages.make("derivation", stand_in=pages.STAND_IN)
        self.assertEqual((status, out), (2, ""))
        self.assertTrue(err.startswith("usage: view/page"))


class OddPages(InACopy):
    """Refusals that a page shows, and names and texts that could be taken for something else."""

    def made(self, *words):
        status, out, err = pages.make(*words, stand_in=pages.STAND_IN, folder=self.folder)
        self.assertEqual((status, err), (0, ""))
        return out

    def test_a_fault_of_the_tree_has_no_nodes(self):
        (self.folder / "alias.check.refused").write_text("3\nalias.pony:4:11: bad byte\n")
        (self.folder / "alias.places").unlink()
        found = pages.data_of(self.made("derivation", "alias.pony"))
        self.assertEqual(found["nodes"]["kind"], [])
        start, end = found["refusal"]["place"]
        self.assertEqual((found["source"][start:end], found["verdict"]), ("\ufffd", "refused"))

    def test_a_name_that_is_no_text_is_shown_as_one(self):
        for file in list(self.folder.glob("alias.*")):
            data = file.read_bytes()
            file.unlink()
            named = file.name.replace("alias", "\udcff")
            (self.folder / named).write_bytes(data if named.endswith(".pony") else data.replace(b"alias.pony", b"\xff.pony"))
        found = pages.data_of(self.made("derivation", "\udcff.pony"))
        start, end = found["refusal"]["place"]
        self.assertEqual((found["name"], found["source"][start:end]), ("\ufffd.pony", "let b: C iso = a"))

    def test_a_source_that_is_too_long_is_not_in_its_page(self):
        (self.folder / "alias.check.refused").write_text("8\nalias.pony: longer than 1048576 bytes\n")
        found = pages.data_of(self.made("derivation", "alias.pony"))
        self.assertEqual((found["source"], found["refusal"]["place"]), ("", None))

    def test_a_run_that_ends_is_its_line(self):
        (self.folder / "keeper.events.refused").write_text("12\nkeeper.sched: text too long at step 142\n")
        found = pages.data_of(self.made("run", "keeper.pony", "keeper.sched"))
        wanted = {"page": "run", "name": "keeper.pony", "by": "keeper.sched", "verdict": "ended"}
        self.assertEqual(found, {**wanted, "line": "keeper.sched: text too long at step 142"})

    def test_a_seed_is_named_in_place_of_its_file(self):
        shutil.copy(self.folder / "keeper.sched", self.folder / "keeper.schedule")
        found = pages.data_of(self.made("run", "keeper.pony", "--seed", "007"))
        self.assertEqual(found["by"], "seed 7")

    def test_what_several_constructors_make_has_the_names_of_the_events(self):
        file = self.folder / "keeper.places"
        text = file.read_text().replace("rcap-places 1 9 3 5 6 0", "rcap-places 1 9 3 5 6 2")
        file.write_text(text + "n spawn:4 4 0 184 188\nn spawn:2 4 0 177 189 0\n")
        found = pages.data_of(self.made("run", "keeper.pony", "keeper.sched"))
        self.assertEqual((found["actors"], found["objects"]), (["OutStream", "Main", "Keeper"], [["1.1", "Cell"], ["2.0", "Keeper"]]))

    def test_tags_in_a_source_are_data(self):
        file = self.folder / "cell.pony"
        text = file.read_text() + "// </script><b>&amp; \"\u2028\n"
        file.write_text(text)
        out = self.made("derivation", "cell.pony")
        self.assertEqual(pages.data_of(out)["source"], text)
        self.assertEqual((out.count("</script>"), out.count("<b>")), (2, 0))

    def test_nothing_is_sent(self):
        (self.folder / "stops.sends").write_text("")
        found = pages.data_of(self.made("sends", "stops.pony"))
        self.assertEqual((found["boxes"], found["messages"], found["wide"]["layer"]), ([], [], []))
