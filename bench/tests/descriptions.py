"""The descriptions of sources, and the sources that are made of them, against what was written by hand."""

import dataclasses
import random
import re
import unittest

import composed
import fitting
import genes
import sizes

# A source that has each part, and its text, written by hand.
LINE = (
    "comment=3 traits=2 traits_is=1 trait_methods=1 bodies=yes classes=1 classes_is=1 class_methods=1 class_names=new fields=1 "
    "parameters=2 parameter_type=own_last locals=1 items=2 item=ask main_item=call levels=1 local_name=3"
)
TEXT = """\
/*ccc*/
trait T0
  fun m0(p0: U64, p1: T0 box) =>
    var la0: U64 = 0
    (p1.m0(0, p1))
    (p1.m0(0, p1))
trait T1 is (T0)
class E0 is (T1)
  var f0: U64 = 0
  fun n0(p0: U64, p1: E0 box) =>
    var la0: U64 = 0
    (p1.n0(0, p1))
    (p1.n0(0, p1))
actor Main
  new create(env: Env) =>
    let kept: T1 box = E0
    var la0: U64 = 0
    (kept.m0(0, kept))
"""

# Tokens but for comments: a text, a sign of two bytes, a name or a number, another sign.
TOKEN = re.compile(r'"[^"]*"|=>|\w+|[^\s\w]')
COMMENT = re.compile(r"(/\*)+c*(\*/)+")

SOURCES = 60

# Texts are made of this part of each size.
PART = 0.05


def text_of(described):
    """The text of a source."""
    return "".join(it.text for it in composed.pieces(described))


def by_chance(seed, count):
    """A number of descriptions that this seed chooses, each changed once."""
    chance = random.Random(seed)
    for _ in range(count):
        changed, names = genes.mutated(chance, genes.by_chance(chance))
        yield fitting.fitted(chance, changed, names)


class Lines(unittest.TestCase):
    """Descriptions as lines."""

    def test_a_line_is_read_and_written(self):
        self.assertEqual(genes.line_of(genes.parsed(LINE)), LINE)
        self.assertEqual(genes.parsed("plain"), genes.Genes())
        self.assertEqual(genes.line_of(genes.Genes()), "plain")

    def test_what_is_no_gene_or_no_value_is_refused(self):
        for line in ("horses=1", "traits", "traits=-1", "traits=999", "items=0", "bodies=perhaps"):
            with self.subTest(line), self.assertRaises(ValueError):
                genes.parsed(line)

    def test_parts_of_a_description(self):
        whole, quarter = genes.parsed("traits=100 classes=3 items=1 nest=if"), genes.parsed("traits=25 classes=1 nest=if")
        self.assertEqual(genes.scaled(whole, 0.25), quarter)


class Sources(unittest.TestCase):
    """The sources of descriptions."""

    maxDiff = None

    def test_a_source_by_hand(self):
        self.assertEqual(text_of(genes.parsed(LINE)), TEXT)

    def test_names(self):
        self.assertEqual(composed.spelled("m", 12, 6, "end"), "maaa12")
        self.assertEqual(composed.spelled("m", 12, 6, "start"), "m12aaa")
        self.assertEqual(composed.spelled("m", 12, 1, "end"), "m12")

    def test_methods_are_counted_with_those_taken_over(self):
        # T0 has 3, T1 takes them over; each class writes 1 of the 3, takes 2 over and gets a `create`; Main has one.
        line = "traits=2 traits_is=1 trait_methods=3 bodies=yes classes=5 classes_is=1 class_methods=1"
        self.assertEqual(composed.number_of_methods(genes.parsed(line)), 6 + 5 * 4 + 1)
        # Three writers with two new names each: 2, 4 and 6 methods; a primitive takes six over and gets no `create`.
        line = "traits=3 traits_is=1 writers=3 trait_methods=2 trait_names=new bodies=yes classes=1 class_kind=primitive "
        line += "classes_is=1"
        self.assertEqual(composed.number_of_methods(genes.parsed(line)), 2 + 4 + 6 + 6 + 1)

    def test_statuses(self):
        commands = ("show", "check", "explain", "places", "sends")
        statuses = {it: composed.status_of(it, genes.parsed("fault=rule")) for it in commands}
        self.assertEqual(statuses, {"show": 0, "check": 1, "explain": 0, "places": 0, "sends": 1})
        statuses = {it: composed.status_of(it, genes.parsed("fault=name")) for it in ("show", "check", "explain", "places")}
        self.assertEqual(statuses, {"show": 0, "check": 4, "explain": 0, "places": 4})
        many = genes.parsed("traits=1 trait_methods=10001 past=methods fault=rule")
        self.assertEqual([composed.status_of(it, many) for it in ("show", "check", "explain")], [0, 8, 8])
        self.assertEqual(composed.status_of("show", genes.parsed("fault=token")), 3)


class ByChance(unittest.TestCase):
    """Descriptions that are chosen by chance."""

    def test_one_seed_gives_the_same_sources(self):
        self.assertEqual(list(by_chance(5, 20)), list(by_chance(5, 20)))
        self.assertNotEqual(list(by_chance(5, 20)), list(by_chance(6, 20)))

    def test_sizes_are_within_the_limits(self):
        for described in by_chance(1, SOURCES):
            with self.subTest(genes.line_of(described)):
                found = sizes.sizes_of(described)
                self.assertLessEqual(max(found.bytes / 1_048_576, found.tokens / 200_000, found.nodes / 200_000), 1)
                self.assertLessEqual(described.traits + described.classes + 1, 1_000)
                self.assertLessEqual(described.parameters + described.locals + 1, 64)
                if described.past == "none":
                    self.assertLessEqual(found.methods, 10_000)

    def test_sizes_are_those_of_the_text(self):
        for described in by_chance(2, SOURCES):
            with self.subTest(genes.line_of(described)):
                part = genes.scaled(described, PART)
                text, found = text_of(part), sizes.sizes_of(part)
                self.assertEqual((found.bytes, found.tokens), (len(text), len(TOKEN.findall(COMMENT.sub("", text)))))

    def test_each_gene_changes_a_source(self):
        line = (
            "traits=3 traits_is=1 writers=2 trait_methods=2 classes=2 classes_is=1 class_methods=2 fields=1 parameters=1 "
            "locals=1 items=2 item=text main_items=2 text=8 levels=1 trait_name=4 class_name=4 method_name=4 field_name=4 "
            "parameter_name=4 local_name=4"
        )
        plain, changed = genes.parsed(line), set()
        for name, it in genes.FIELDS.items():
            others = it.metadata.get("words") or (getattr(plain, name) + 1,)
            texts = {text_of(fitting.consistent(dataclasses.replace(plain, **{name: other}))) for other in others}
            changed |= {name} if texts != {text_of(plain)} else set()
        # Which limit may be passed matters for large sizes alone.
        self.assertEqual(set(genes.FIELDS) - changed, {"past"})

    def test_a_size_is_filled_up_to_a_limit(self):
        chance = random.Random(2)
        filled = fitting.filled(chance, genes.Genes(main_items=2))
        self.assertGreater(filled.main_items, 150_000)
        self.assertLessEqual(sizes.sizes_of(filled).excess(filled), 1)
