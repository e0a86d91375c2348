"""What the whole course has to have, in the explanations that the program wrote in this run: each rule that can refuse, each
text of a refusal, and each kind of hint; and that the tables of the course's page say where."""

import kinds
import pages
import refused

HINT_LINE = "hint: "
NO_RULE = "no rule"

# What the course's page calls each kind of hint of examples/tests/kinds.py.
HINTS = {
    "write `consume x`": "Consume",
    "write `(consume x).m(..)`": "ConsumeReceiver",
    "an assignment gives the old value": "OldValue",
    "declare `fun ref m`": "DeclareFunction",
    "write `recover C end`": "RecoverNew",
    "make the object in a `recover`": "RecoverObject",
    "a value goes to these": "GoesTo",
    "declare it `fun box m`": "DeclareBox",
    "declare the result": "DeclareResult",
    "declare the result with `^`": "DeclareHat",
    "`=` assigns, `==` compares": "Compare",
    "compare it with a number": "CompareNumber",
    "`string()` of it is a String": "ToString",
    "compare objects with `is`": "CompareObjects",
    "let C say `is T`": "SayIs",
    "use it before it is consumed": "UseBefore",
    "make inside the `recover` what it needs": "MakeInside",
    "let the `recover` give the value": "GiveOut",
    "copy the parameter to a `var`": "CopyFirst",
    "declare the local `var`": "DeclareSlot",
    "declare the field `var`": "DeclareField",
    "declare the field `var`, in a constructor": "DeclareOwnField",
    "it is a method: call it": "CallMethod",
    "it is a field": "CallValue",
    "in a `recover` `this` is a tag": "TagInRecover",
    "until all fields are set `this` is a tag": "TagUntilSet",
    "an actor only takes messages": "SendMessage",
    "set the field before this": "SetBefore",
    "write `C.create(..)`": "CallConstructor",
    "make the argument in a `recover`": "SendArgument",
    "consume it after the loop": "ConsumeAfter",
    "set it before the loop": "SetBeforeLoop",
    "write `recover val`": "RecoverValue",
    "let the body end with `consume x`": "ConsumeEnd",
    "declare it C iso, C val or C tag": "a sendable parameter",
    "add the method": "add the method",
    "it is not a function": "it is no function",
    "give the field an initial value": "set the field",
    "write `m(..)`": "call the method",
    "call it on an object of C": "call it on an object",
    "`f = ..` gives its old value": "the old value",
    "give one of the two another name": "another name",
    "take one of the two away": "name one once",
    "take one `is` of the chain away": "take an is away",
    "add `actor Main`": "add Main",
    "write `actor Main`": "the form of Main",
}


def rules_that_refuse():
    """The rules that have a condition, as the table of docs/rules.md lists them."""
    rows = pages.table(pages.read("docs/rules.md"), "Rule", "For")
    return {name for row in rows if row.cells["Condition"] for name in row.cells["Rule"].split(", ")}


def hints_in(explanation):
    """The hints of an explanation, each with the rules of the line before it."""
    rules = ""
    for line in explanation:
        said = refused.RULE_LINE.match(line)
        rules = said[1] if said else rules
        if line.startswith(HINT_LINE):
            yield line.removeprefix(HINT_LINE), rules


def rules_met(lessons):
    """The rules by which programs of the course were refused, each with the numbers of the lessons that have one."""
    found = {}
    for lesson in lessons:
        for line in lines_of(lesson):
            said = refused.RULE_LINE.match(line)
            for name in said[1].split(", ") if said else []:
                found.setdefault(name, set()).add(lesson.number())
    return found


def is_of_kind(kind, hint, rule):
    """Whether a hint after the line of a rule is of a kind."""
    wanted, form = kinds.OTHER_HINTS[kind] if kind in kinds.OTHER_HINTS else (kinds.HINT_RULES.get(kind), kinds.HINTS[kind])
    return wanted in (None, rule) and kinds.is_of(form, hint)


def hints_met(lessons):
    """The kinds of the hints that were given, each with the numbers of the lessons that have one; what is of no kind, or of two,
    has its own words."""
    found = {}
    for lesson in lessons:
        for hint, rule in (it for explanation in lesson.written.values() for it in hints_in(explanation)):
            names = [name for name, kind in HINTS.items() if is_of_kind(kind, hint, rule)]
            found.setdefault(names[0] if len(names) == 1 else hint, set()).add(lesson.number())
    return found


def lines_of(lesson):
    """The lines of all explanations that the program wrote of a lesson's programs."""
    return [line for explanation in lesson.written.values() for line in explanation]


def look_at_table(course_page, title, met, results):
    """Compares a table of the course's page with what was met in this run."""
    rows = pages.table(course_page, title, "In lesson")
    listed = {row.cells[title]: row.cells["In lesson"] for row in rows}
    found = {name: ", ".join(map(str, sorted(numbers))) for name, numbers in met.items()}
    wrong = {name: found.get(name) for name in listed.keys() | found.keys() if listed.get(name) != found.get(name)}
    results.check(not wrong, f"{course_page.name}: in which lessons each is met: {title}", wrong)


def look_at_rules(lessons, course_page, results):
    """Looks for each rule that can refuse."""
    wanted, met = rules_that_refuse(), rules_met(lessons)
    results.check(len(wanted) > 20, "rules of docs/rules.md", sorted(wanted))
    for name in sorted(wanted):
        results.check(name in met, f"the rule {name} refuses a program of the course", "it refuses none")
    look_at_table(course_page, "Rule", {f"`{name}`": numbers for name, numbers in met.items()}, results)


def look_at_refusals(lessons, results):
    """Looks for each text of a refusal."""
    texts, lines = set(refused.texts()), [line for lesson in lessons for line in lines_of(lesson)]
    results.check(NO_RULE in texts, "refusals of docs/commands.md", sorted(texts))
    for text in sorted(texts):
        results.check(any(line.endswith(f": {text}") for line in lines), f"a program of the course is refused with {text!r}", "none is")


def look_at_hints(lessons, course_page, results):
    """Looks for each kind of hint."""
    met, known = hints_met(lessons), kinds.HINTS.keys() | kinds.OTHER_HINTS.keys()
    results.check(known == set(HINTS.values()), "the kinds of hint are those of examples/tests", known ^ set(HINTS.values()))
    for name in HINTS:
        results.check(name in met, f"the hint {name!r} is given for a program of the course", "for none")
    results.check(met.keys() <= HINTS.keys(), "each hint is of one kind", sorted(met.keys() - HINTS.keys()))
    look_at_table(course_page, "Hint", met, results)


def look(lessons, course_page, results):
    """Looks for all of these."""
    look_at_rules(lessons, course_page, results)
    look_at_refusals(lessons, results)
    look_at_hints(lessons, course_page, results)
