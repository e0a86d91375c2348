"""The kinds of lines that an explanation may have: what is the same in each of a kind.

In these forms capital words stand for others: a NAME, a PIECE of a source, an ENTITY or a TYPE, and so on."""

import re

WORDS = {
    "PIECE": r".+",
    "NAME": r"[\w']+",
    "ENTITY": r"\w+",
    "FORM": r"(?:iso\^|trn\^|iso|trn|ref|val|box|tag)",
    "CAP": r"(?:iso|trn|ref|val|box|tag)",
    "NUMBER": r"\d+",
    "PLACE": r"\d+:\d+",
}
COMPOUND = {
    "TYPE": "ENTITY FORM",
    "AN_ENTITY": "an? ENTITY",
    "FORMS": "FORM(?:(?:, | or )FORM)*",
    "CAPS": "CAP(?:(?:, | or )CAP)*",
    "NAMES": "(?:none|`NAME`(?:, `NAME`)*(?: and NUMBER more)?)",
    "GOAL": "(?:`NAME`|the field `NAME`|the parameter(?: `NAME`)?|the result)",
    "METHOD": r"(?:fun CAP |be |new CAP |new )ENTITY\.NAME\(.*\)(?:: TYPE)?",
    "HOME": r"in ENTITY\.NAME(?:, which is taken over from ENTITY)?",
}


def form(text):
    """The regular expression of a form."""
    for words in (COMPOUND, COMPOUND, WORDS):
        for word, meaning in words.items():
            text = re.sub(rf"\b{word}\b", lambda _, meaning=meaning: meaning, text)
    return text


def is_of(text, line):
    """Whether a line has a form."""
    return re.fullmatch(form(text), line) is not None


def of(part, *conditions):
    """Conditions on one part."""
    return [(condition, part) for condition in conditions]


def both(*conditions):
    """Conditions on the left side, and then on the right one."""
    return of("the left side", *conditions) + of("the right side", *conditions)


# The sentence of each condition of `pc_explain_conditions`. PART is the part that it is about.
CONDITIONS = {
    "Typed": "PART has no type: PIECE",
    "Under": "PART is AN_ENTITY, which is not below ENTITY, the entity of GOAL(?:: (?:it has no function `NAME`|for ENTITY\\.NAME, PIECE))?",
    "Fits": "PART has the form FORM(?:, an alias,|, which is not sendable,)? and GOAL, an? CAP, takes (?:only )?FORMS"
    "|PART has the form FORM, which does not fit CAP: `NAME` takes its receiver as FORMS",
    "Below": "PART has the form FORM, which is not below FORM, the form of the result",
    "IsA": "PART is AN_ENTITY, and must be AN_ENTITY",
    "Comparable": "PART is AN_ENTITY: `==` compares two U64, two Bool or two String",
    "Printable": "PART is AN_ENTITY, and must be a U64 or a Bool, or have a method `string`",
    "Readable": "PART has the form FORM, which is not readable: its form must be below box",
    "Live": "`NAME` is not live here: `consume NAME` stands at PLACE",
    "Reached": "`NAME` comes from outside this recover, and CAP is not sendable: inside, only outer locals of iso, val or tag are (?:used|assigned)",
    "Variable": "`NAME` is (?:a `let`|a parameter), and only a `var` can be assigned",
    "HasField": "ENTITY has no field `NAME`",
    "HasOwnField": "ENTITY has no field `NAME`",
    "Seen": "PART has the form FORM, and nothing can be read through it",
    "NotFixed": "the field `NAME` is a `let`, which only a constructor can write, and only once",
    "Writable": "PART has the form FORM, and nothing can be written through it: only through iso, trn and ref",
    "Enters": "into an? (?:iso only iso\\^, val|trn only iso\\^, trn\\^, val) and tag can be written, and iso into a field of tag; the value has the form FORM",
    "Set": "the field `NAME` is not set here: a constructor can read a field only once it is set on every path",
    "SetOnce": "the field `NAME` is a `let` and is already set here",
    "HasMethod": "ENTITY has no method `NAME`",
    "Function": "`ENTITY\\.NAME` is a constructor, not a function",
    "Counted": "(?:`NAME`|`string` of U64 and Bool) takes (?:1 argument|(?:NUMBER|no) arguments), and (?:1 is|NUMBER are) given",
    "Isolated": "PART has the form FORM, and only an iso or a trn can be lent",
    "Lent": "`NAME` takes its receiver as CAP, and a receiver can be lent only as ref or box",
    "Sent": "PART has the form FORM and goes to an? CAP parameter: beside a lent receiver an argument must have the form iso\\^, iso, val or tag,"
    " or go to a parameter of iso, val or tag",
    "KeepsLive": "`NAME` is live before the loop but not after its body, so the next turn could not use it",
    "KeepsSet": "the field `NAME` is set in the loop, which may run no turn or several",
    "Lifted": "PART has the form FORM, which a recover lifts to FORM, and FORM does not fit CAP",
}

# These never fail first: `Send` is looked at only if the method is a behaviour, and at a node that is refused a receiver that fits would
# have been called.
NEVER_FAIL = {"Behaviour", "Unfit"}

GOES = ("Typed", "Under", "Fits")
READS = ("Typed", "IsA", "Readable")
ARGUMENTS = [("Counted", None), *of("argument NUMBER", *GOES)]

# What each rule asks and what can fail, in order; a rule that is not here is never refused. If a method is no function, the rule
# callrecover is not looked at, so what it asks before that holds; so it is with send.
ASKED = {
    "local": of(None, "Live", "Reached"),
    "consume": of(None, "Live", "Reached"),
    "get": [("Typed", "the origin"), ("HasField", None), ("Seen", "the origin")],
    "getown": of(None, "HasOwnField", "Set"),
    "put": [("Typed", "the value"), ("Typed", "the origin"), ("HasField", None), ("NotFixed", None), ("Under", "the value"), ("Fits", "the value")]
    + [("Writable", "the origin"), ("Enters", None)],
    "putown": [("HasOwnField", None), ("Typed", "the value"), ("SetOnce", None), ("Under", "the value"), ("Fits", "the value")],
    "define": of("the value", *GOES),
    "assign": [("Typed", "the value"), ("Variable", None), ("Reached", None), ("Under", "the value"), ("Fits", "the value")],
    "new": ARGUMENTS,
    "spawn": ARGUMENTS,
    "call": [("Typed", "the receiver"), ("HasMethod", None), ("Function", None), *ARGUMENTS, ("Fits", "the receiver")],
    "callrecover": [*ARGUMENTS, ("Isolated", "the receiver"), ("Lent", None), ("Sent", "argument NUMBER")],
    "send": ARGUMENTS,
    "builtin": [("Counted", None), *of("the receiver", "Typed", "Printable", "Readable")],
    "arith": both(*READS),
    "compare": both(*READS),
    "equal": of("the left side", "Typed", "Comparable", "Readable") + of("the right side", *READS),
    "join": both(*READS),
    "logic": of("the operand", *READS) + both(*READS),
    "lazy": both(*READS),
    "identity": both("Typed"),
    "if": of("the condition", *READS),
    "while": [*of("the condition", *READS), ("KeepsLive", None), ("KeepsSet", None)],
    "recover": of("the body", "Typed", "Lifted"),
    "body": of("the last value", "Typed", "Under", "Below"),
}

# Why a value has no type.
REASONS = {
    "a definition": "a definition gives no value",
    "an assignment": "`NAME` holds nothing before this assignment, so there is no old value",
    "a write": "the field `NAME` is not set before this write, so there is no old value",
    "a receiver that is lent": "the receiver is lent to `NAME`, and its result TYPE is not sendable",
    "two branches": "its branches are TYPE and TYPE, and neither is below the other",
    "a first branch": "its first branch has none: PIECE",
    "a second branch": "its second branch has none: PIECE",
    "a sequence": "its last item has none: PIECE",
}

# Why a method does not stand for another.
MISFITS = {
    "the receiver": "its receiver must take CAP, and CAP does not",
    "the number of parameters": "it takes NUMBER parameters?, and must take NUMBER",
    "the entity of a parameter": "its parameter `NAME` is AN_ENTITY, and must take AN_ENTITY",
    "the capability of a parameter": "its parameter `NAME` is CAP, and must take FORM",
    "the entity of the result": "it gives AN_ENTITY, which is no ENTITY",
    "the form of the result": "it gives FORM, which is not below FORM",
}

# What is said of declarations, constructors and names, by the rule.
OTHERS = {
    "parameters": {
        "a behaviour": "CAP is not sendable, and a behaviour takes only parameters of iso, val or tag",
        "an actor's constructor": "CAP is not sendable, and an actor's constructor takes only parameters of iso, val or tag",
        "a constructor that gives no ref": "CAP is not sendable, and a constructor that gives CAP takes only parameters of iso, val or tag",
    },
    "is": {
        "a method is missing": "ENTITY declares METHOD, and ENTITY has no such function",
        "a cycle": "a chain of `is` leads from ENTITY back to ENTITY",
        **MISFITS,
    },
    "constructor": {"a field is not set": "at the end of a constructor every field must be set"},
    "name": {
        "a bare name": r"a bare name is a visible local or parameter \(here NAMES\), a field of ENTITY \(NAMES\),"
        r" or directly before arguments one of its methods \(NAMES\)",
        "a name after consume": "a visible local or parameter is consumed; here are NAMES",
        "a constructor": "after the name of a class or an actor comes one of its constructors with its arguments, and ENTITY has no constructor `NAME`",
        "no entity": "no entity is called ENTITY",
        "a type as a value": "ENTITY is an? NAME, and only None, a primitive of the file, and a class or actor with a constructor `create`"
        " stand in an expression",
        "a name after is": "after `is` comes a trait or an interface, and ENTITY is an? NAME",
        "a parameter twice": "`NAME` is the name of the parameter at PLACE, which is visible here",
        "a local twice": "`NAME` is the name of the local at PLACE, which is visible here",
        "a field twice": "`NAME` is the name of the field at PLACE, which is visible here",
        "a method twice": "`NAME` is the name of the method at PLACE, which is visible here",
        "an entity twice": "`NAME` is the name of the class at PLACE, which is visible here",
        "a name that is built in": "ENTITY is built in",
        "a constructor that is added": "`create` is the name of the (?:field|method) at PLACE, and a constructor `create` is added to ENTITY, which has none",
        "a name twice after is": "`ENTITY` stands after `is` already, at PLACE",
        "a field of an entity that takes a method over": "`NAME` is the name of a field of an entity that takes this method over",
    },
    "main": {
        "no Main": r"a program has one actor `Main` with `new create\(env: Env\)`, and this file has no entity of that name",
        "another Main": "`Main` is an actor with a constructor `create` of exactly one parameter, of Env val",
    },
}

USED_UP = "it has the form FORM, and after it the name cannot be used"

# The hints of `pc_explain_hints`. Three have the same words, and are known by their rule.
HINTS = {
    "SayIs": "let ENTITY say `is ENTITY`",
    "Consume": f"write `consume PIECE`: {USED_UP}",
    "ConsumeReceiver": rf"write `\(consume PIECE\)\.NAME\(\.\.\)`: {USED_UP}",
    "OldValue": r"an assignment gives the old value: `PIECE = \.\.` has the form FORM",
    "DeclareFunction": "declare `fun CAP NAME`: in a function without a capability `this` is box",
    "RecoverNew": r"write `recover PIECE end`, which has the form iso\^; or declare the constructor `new iso`",
    "RecoverObject": r"make the object in a `recover`: what a recover gives of a ref is iso\^",
    "GoesTo": "a value of FORM goes to CAPS",
    "DeclareBox": "where `NAME` writes nothing, declare it `fun box NAME`",
    "DeclareResult": "declare the result TYPE",
    "DeclareHat": r"declare the result of `NAME` ENTITY (?:iso|trn)\^: without `\^` a call gives an alias",
    "Compare": "`=` assigns and gives the old value; `==` compares",
    "CompareNumber": "compare it with a number, as in `n != 0`",
    "ToString": r"`string\(\)` of it is a String",
    "CompareObjects": "compare objects with `is` or `isnt`",
    "UseBefore": "use it before it is consumed(?:, or assign to `NAME` again after that)?",
    "MakeInside": "make inside the recover what it needs, or hand it in as iso, val or tag",
    "GiveOut": "let the recover give the value, and assign it outside",
    "CopyFirst": "copy it to a `var` first",
    "DeclareSlot": "declare it `var NAME`",
    "DeclareField": "declare it `var NAME`",
    "DeclareOwnField": "declare it `var NAME`",
    "CallMethod": r"`NAME` is a method: call it, `NAME\(\.\.\)`",
    "CallValue": r"`NAME` is a field; `\(e\.NAME\)\(\.\.\)` calls `apply` of its value",
    "TagInRecover": "in a recover `this` is seen as tag, since CAP is not sendable",
    "TagUntilSet": "until all fields are set `this` is a tag",
    "SendMessage": "an actor only takes messages from others: call a behaviour of it",
    "SetBefore": "set `NAME` before this",
    "CallConstructor": r"write `ENTITY\.NAME\(\.\.\)`",
    "SendArgument": "make the argument in a `recover`, or let the parameter be iso, val or tag",
    "ConsumeAfter": "consume it after the loop(?:, or assign to `NAME` again in the body)?",
    "SetBeforeLoop": "set it before the loop",
    "RecoverValue": r"write `recover val`, or let the body end with a ref, which is lifted to iso\^",
    "ConsumeEnd": "let the body end with `consume NAME`",
}
HINT_RULES = {"DeclareSlot": "assign", "DeclareField": "put", "DeclareOwnField": "putown"}

# The hints about declarations, constructors and names, and their rules.
OTHER_HINTS = {
    "a sendable parameter": ("parameters", "declare it ENTITY iso, ENTITY val or ENTITY tag"),
    "add the method": ("is", r"add `PIECE => \.\.`"),
    "it is no function": ("is", r"ENTITY\.NAME is not a function"),
    "take an is away": ("is", "take one `is` of the chain away"),
    "set the field": ("constructor", "give `NAME` an initial value, or set it on every path"),
    "call the method": ("name", r"write `NAME\(\.\.\)`"),
    "call it on an object": ("name", "`NAME` is a method: call it on an object of ENTITY"),
    "the old value": ("name", r"its old value is what `NAME = \.\.` gives"),
    "another name": ("name", "give one of the two another name"),
    "name one once": ("name", "take one of the two away"),
    "add Main": ("main", r"add `actor Main` with `new create\(env: Env\) => None`"),
    "the form of Main": ("main", r"write `actor Main` with `new create\(env: Env\) => \.\.`"),
}

# What a node is.
NODES = {
    "Local": "the local `NAME`, TYPE, HOME",
    "Local, a parameter": "the parameter `NAME`, TYPE, HOME",
    "Consume": "`consume NAME`, of TYPE, HOME",
    "Field": "the read of the field `NAME` HOME",
    "SetField": "the write of the field `NAME`(?:, TYPE,)? HOME",
    "SetField, an initial value": "the initial value of the field `NAME`, TYPE, HOME",
    "Define": "the definition of `NAME`, TYPE, HOME",
    "Define without a type": "the definition of `NAME`, whose type follows from its value, HOME",
    "Assign": "the assignment to `NAME`, TYPE, HOME",
    "New": r"a call of new CAP ENTITY\.create\(.*\) HOME",
    "Spawn": r"a call of new ENTITY\.create\(.*\) HOME",
    "Call of a function": r"a call of fun CAP ENTITY\.NAME\(.*\): TYPE HOME",
    "Call of a behaviour": r"a call of be ENTITY\.NAME\(.*\) HOME",
    "Call of a name": "a call of `NAME` HOME",
    "Binary": "`(?:[-+*/%]|[=!<>]=|[<>]|xor)` HOME",
    "Not": "`not` HOME",
    "And": "`and` HOME",
    "Or": "`or` HOME",
    "Same": "`(?:is|isnt)` HOME",
    "If": "the `if` HOME",
    "While": "the `while` HOME",
    "Recover": "the `recover(?: CAP)?` HOME",
    "Body": "the body of METHOD(?:, which is taken over from ENTITY)?",
}

# What a declaration, a constructor or a name is.
OTHER_NODES = {
    "a parameter": "the parameter `NAME`, TYPE, of METHOD",
    "an entity": "the NAME ENTITY, which is AN_ENTITY",
    "a method": "the method METHOD",
    "a constructor": "the constructor METHOD",
    "a trait": "the trait ENTITY",
    "an interface": "the interface ENTITY",
    "a name in a method": r"the name `NAME` in ENTITY\.NAME",
    "a name in an entity": "the name `NAME` in ENTITY",
    "Main": "the name `Main`",
}

# What a part is.
PARTS = {
    **{role: f"{role} `PIECE` (?:is TYPE|has no type)" for role in ("the value", "the origin", "argument NUMBER", "the receiver", "the left side")},
    **{role: f"{role} `PIECE` (?:is TYPE|has no type)" for role in ("the right side", "the operand", "the condition", "the body", "the last value")},
    "this, not written": "(?:the origin|the receiver|the value) `this`, which is not written, is TYPE",
    "a method that is stood for": "it stands for METHOD",
    "a field that is never set": "the field `NAME`, TYPE, is not set",
    "a field that may be set": "the field `NAME`, TYPE, is not set on every path: it is set only at PLACE(?:, PLACE)*(?: and NUMBER more)?",
}
