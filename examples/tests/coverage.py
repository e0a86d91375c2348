"""Which kinds of lines the explanations have: all of them, and no others."""

import re

import kinds
import pages
import refused

REASON = re.compile(r".*? has (?:no type|none): (.*)")

# Where the code lists the conditions and the hints.
CODE = {"Condition": "crates/pc_explain_conditions/src/condition.rt", "Hint": "crates/pc_explain_hints/src/hint.rt"}
VARIANT = re.compile(r"^    ([A-Z]\w*)[(,]", re.MULTILINE)


def variants(name):
    """The variants of a type of the code."""
    text = (pages.TOP / CODE[name]).read_text()
    return set(VARIANT.findall(text[text.index(f"pub enum {name}") :]))


def all_kinds():
    """All kinds, each with its form; the name of one begins with the group that it is of."""
    found = {("refusal", text): re.escape(text) for text in refused.texts()}
    for rule, asked in kinds.ASKED.items():
        for condition, part in asked:
            found["rule", f"{rule}: {condition}" + (f" of {part}" if part else "")] = kinds.CONDITIONS[condition].replace("PART", part or "PART")
    for rule, said in kinds.OTHERS.items():
        found |= {("rule", f"{rule}: {name}"): text for name, text in said.items()}
    found |= {("reason", name): text for name, text in kinds.REASONS.items()}
    found |= {("hint", name): text for name, text in kinds.HINTS.items()}
    found |= {("hint", name): text for name, (_, text) in kinds.OTHER_HINTS.items()}
    found |= {("node", name): text for name, text in {**kinds.NODES, **kinds.OTHER_NODES}.items()}
    return found | {("part", name): text for name, text in kinds.PARTS.items()}


def hint_rule(name):
    """The rule after whose line a hint is, if it is only there."""
    return kinds.OTHER_HINTS[name][0] if name in kinds.OTHER_HINTS else kinds.HINT_RULES.get(name)


def may_be(group, name, rule):
    """Whether a line after that of a rule, or the rule's own, may be of a kind."""
    if group == "rule":
        return name.startswith(f"{rule}: ")
    return group != "hint" or hint_rule(name) in (None, rule)


def reasons_in(sentence):
    """The reason for which a part has no type, and each reason in it."""
    found = REASON.match(sentence)
    while found is not None:
        yield found[1]
        found = REASON.match(found[1])


def said_in(explanation):
    """What an explanation says: the group, the words, and the rule of the line or of the one before it."""
    yield "refusal", explanation.fault(), ""
    rule = ""
    for line in explanation.lines():
        said = refused.RULE_LINE.match(line)
        if said is None:
            group, words = line.split(": ", 1)
            yield group, words, rule
            continue
        for rule in said[1].split(", "):
            yield "rule", said[2], rule
        for reason in reasons_in(said[2]):
            yield "reason", reason, rule


def kinds_of(said, known):
    """The kinds that something that is said is of."""
    group, words, rule = said
    return [kind for kind, text in known.items() if kind[0] == group and may_be(*kind, rule) and kinds.is_of(text, words)]


def met(explanations, known):
    """The kinds that occur, each with the sources that have it, and what is of no kind or of several."""
    found, odd = {}, []
    for it in explanations:
        for said in said_in(it):
            names = kinds_of(said, known)
            if len(names) != 1:
                odd.append(f"{it.name()}: {said}: {names}")
            for name in names:
                found.setdefault(name, []).append(it.name())
    return found, odd


def look(explanations, results):
    """Looks for each kind."""
    known = all_kinds()
    results.check(kinds.CONDITIONS.keys() | kinds.NEVER_FAIL == variants("Condition"), "the conditions are those of the code", variants("Condition"))
    results.check(kinds.HINTS.keys() == variants("Hint"), "the hints are those of the code", variants("Hint") ^ kinds.HINTS.keys())
    found, odd = met(explanations, known)
    results.check(not odd, "each line is of one kind", "; ".join(odd))
    for kind in known:
        results.check(kind in found, f"a source has the {' '.join(kind)}", "none has")


def show(explanations):
    """Lists the kinds, each with its first source."""
    found, _ = met(explanations, all_kinds())
    for (group, name), sources in found.items():
        print(f"{group:8} {name:50} {sources[0]}")
