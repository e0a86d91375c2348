"""Every prefix of two sources, and the first lines of a third. How each ends was worked out by hand from the tokens, the grammar
and the names of a file."""

from programs import BANK, CHAIN, HELLO
from prefixes_of import prefixes

# The line says that the end of the text is unexpected.
END = None

NO_MAIN = b"a.pony: no Main\n"

# What is added to a text, and the status and the line on err with which `check` ends on the text. Each byte that is added gives a
# text.
OF_HELLO = [
    (b"acto", 3, b"a.pony:1:1: unexpected\n"),
    (b"r ", 3, END),
    # A capital letter is an entity's name.
    (b"Mai", 4, NO_MAIN),
    (b"n\n  ", 4, b"a.pony:1:7: Main is of another form\n"),
    (b"ne", 3, b"a.pony:2:3: unexpected\n"),
    (b"w create(env: Env) ", 3, END),
    (b"=", 3, b"a.pony:2:24: unexpected\n"),
    (b">\n    ", 3, END),
    (b"en", 4, b"a.pony:3:5: name unknown\n"),
    (b"v", 0, b""),
    (b".", 3, END),
    (b"ou", 1, b"a.pony:3:5: no rule\n"),
    (b"t", 0, b""),
    (b".", 3, END),
    (b"print", 1, b"a.pony:3:5: no rule\n"),
    (b"(", 3, END),
    (b"\"hi", 3, b"a.pony:3:19: not closed\n"),
    (b"\"", 3, END),
    (b")\n", 0, b""),
]

OF_CHAIN = [
    (b"trai", 3, b"a.pony:1:1: unexpected\n"),
    (b"t ", 3, END),
    (b"Chain\n  ", 4, NO_MAIN),
    (b"fu", 3, b"a.pony:2:3: unexpected\n"),
    (b"n sum(", 3, END),
    (b")", 4, NO_MAIN),
    (b": ", 3, END),
    (b"U6", 4, b"a.pony:2:14: name unknown\n"),
    (b"4\n", 4, NO_MAIN),
    (b"clas", 3, b"a.pony:3:1: unexpected\n"),
    (b"s ", 3, END),
    (b"Stop ", 4, NO_MAIN),
    (b"i", 3, b"a.pony:3:12: unexpected\n"),
    (b"s ", 3, END),
    (b"Chai", 4, b"a.pony:3:15: name unknown\n"),
    (b"n\n  ", 4, NO_MAIN),
    (b"ne", 3, b"a.pony:4:3: unexpected\n"),
    (b"w create() ", 3, END),
    (b"=", 3, b"a.pony:4:16: unexpected\n"),
    (b"> ", 3, END),
    # A name that is first on its line is the next item of a body.
    (b"None\n  fu", 4, NO_MAIN),
    (b"n sum(): U64 ", 3, END),
    (b"=", 3, b"a.pony:5:18: unexpected\n"),
    (b"> ", 3, END),
    (b"0\nclas", 4, NO_MAIN),
    (b"s ", 3, END),
    (b"Link ", 4, NO_MAIN),
    (b"i", 3, b"a.pony:6:12: unexpected\n"),
    (b"s ", 3, END),
    (b"Chai", 4, b"a.pony:6:15: name unknown\n"),
    (b"n\n  ", 4, NO_MAIN),
    (b"le", 3, b"a.pony:7:3: unexpected\n"),
    (b"t ", 3, END),
    (b"_", 3, b"a.pony:7:7: bad byte\n"),
    (b"head: ", 3, END),
    (b"U6", 4, b"a.pony:7:14: name unknown\n"),
    (b"4\n  ", 4, NO_MAIN),
    (b"le", 3, b"a.pony:8:3: unexpected\n"),
    (b"t ", 3, END),
    (b"_", 3, b"a.pony:8:7: bad byte\n"),
    (b"tail: ", 3, END),
    (b"Chai", 4, b"a.pony:8:14: name unknown\n"),
    (b"n\n  ", 4, NO_MAIN),
    (b"ne", 3, b"a.pony:9:3: unexpected\n"),
    (b"w create(head: U64, tail: Chain) ", 3, END),
    (b"=", 3, b"a.pony:9:38: unexpected\n"),
    (b">\n    ", 3, END),
    (b"_", 3, b"a.pony:10:5: bad byte\n"),
    (b"head ", 4, NO_MAIN),
    (b"= ", 3, END),
    (b"head\n    ", 4, NO_MAIN),
    (b"_", 3, b"a.pony:11:5: bad byte\n"),
    (b"tail ", 4, NO_MAIN),
    (b"= ", 3, END),
    (b"tail\n  fu", 4, NO_MAIN),
    (b"n sum(): U64 ", 3, END),
    (b"=", 3, b"a.pony:12:18: unexpected\n"),
    (b"> ", 3, END),
    (b"_", 3, b"a.pony:12:21: bad byte\n"),
    (b"head ", 4, NO_MAIN),
    (b"+ ", 3, END),
    (b"_", 3, b"a.pony:12:29: bad byte\n"),
    (b"tail", 4, NO_MAIN),
    (b".", 3, END),
    (b"sum", 4, NO_MAIN),
    (b"(", 3, END),
    (b")\nacto", 4, NO_MAIN),
    (b"r ", 3, END),
    (b"Reader\n  ", 4, NO_MAIN),
    (b"le", 3, b"a.pony:14:3: unexpected\n"),
    (b"t ", 3, END),
    (b"_", 3, b"a.pony:14:7: bad byte\n"),
    (b"out: ", 3, END),
    (b"OutStrea", 4, b"a.pony:14:13: name unknown\n"),
    (b"m\n  ", 4, NO_MAIN),
    (b"ne", 3, b"a.pony:15:3: unexpected\n"),
    (b"w create(out: OutStream) ", 3, END),
    (b"=", 3, b"a.pony:15:30: unexpected\n"),
    (b"> ", 3, END),
    (b"_", 3, b"a.pony:15:33: bad byte\n"),
    (b"out ", 4, NO_MAIN),
    (b"= ", 3, END),
    (b"out\n  b", 4, NO_MAIN),
    (b"e read(list: Chain ", 3, END),
    (b"va", 3, b"a.pony:16:23: unexpected\n"),
    (b"l) ", 3, END),
    (b"=", 3, b"a.pony:16:28: unexpected\n"),
    (b"> ", 3, END),
    (b"_", 3, b"a.pony:16:31: bad byte\n"),
    (b"out", 4, NO_MAIN),
    (b".", 3, END),
    (b"print", 4, NO_MAIN),
    (b"(list.sum().string()", 3, END),
    (b")\nacto", 4, NO_MAIN),
    (b"r ", 3, END),
    (b"Mai", 4, NO_MAIN),
    (b"n\n  ", 4, b"a.pony:17:7: Main is of another form\n"),
    (b"ne", 3, b"a.pony:18:3: unexpected\n"),
    (b"w create(env: Env) ", 3, END),
    (b"=", 3, b"a.pony:18:24: unexpected\n"),
    (b">\n    ", 3, END),
    (b"le", 4, b"a.pony:19:5: name unknown\n"),
    (b"t list: Chain ", 3, END),
    (b"is", 3, b"a.pony:19:21: unexpected\n"),
    (b"o = ", 3, END),
    (b"recove", 4, b"a.pony:19:27: name unknown\n"),
    (b"r Link(1, Link(2, Stop)) ", 3, END),
    (b"en", 3, b"a.pony:19:58: unexpected\n"),
    (b"d\n    ", 0, b""),
    (b"Reade", 4, b"a.pony:20:5: name unknown\n"),
    # Its constructor has a parameter.
    (b"r", 1, b"a.pony:20:5: no rule\n"),
    (b"(env.out", 3, END),
    (b")", 0, b""),
    (b".", 3, END),
    (b"read", 1, b"a.pony:20:5: no rule\n"),
    (b"(consume list", 3, END),
    (b")\n", 0, b""),
]

# Each line that is added gives a text.
OF_BANK = [
    (b"\"\"\"A small bank.\"\"\"\n", 3, END),
    (b"trait Report\n  fun line(): String\n\nclass Account is Report\n  let _name: String\n  var _sum: U64 = 0\n\n", 4, NO_MAIN),
    (b"  new iso create(name: String) =>\n", 3, END),
    (b"    _name = name\n\n", 4, NO_MAIN),
    (b"  fun ref add(n: U64): U64 =>\n", 3, END),
    (b"    _sum = _sum + n\n    _sum\n\n", 4, NO_MAIN),
    (
        b"  fun ref take(n: U64): Bool =>\n"
        b"    \"\"\"Takes n where the sum holds it.\"\"\"\n"
        b"    if n <= _sum then\n"
        b"      _sum = _sum - n\n"
        b"      true\n"
        b"    else\n"
        b"      false\n",
        3,
        END,
    ),
    (
        b"    end\n"
        b"\n"
        b"  fun line(): String => _name + \": \" + _sum.string()\n"
        b"\n"
        b"actor Teller\n"
        b"  let _out: OutStream\n"
        b"  var _account: Account iso\n"
        b"\n",
        4,
        NO_MAIN,
    ),
    (b"  new create(out: OutStream, account: Account iso) =>\n", 3, END),
    (b"    _out = out\n    _account = consume account\n\n", 4, NO_MAIN),
    (b"  be deposit(n: U64) =>\n", 3, END),
    (b"    _account.add(n) // the account is iso: receiver recovery\n\n", 4, NO_MAIN),
    (
        b"  be withdraw(n: U64, to: Teller) =>\n"
        b"    if _account.take(n) then\n"
        b"      to.deposit(n)\n"
        b"    else\n"
        b"      _out.print(\"refused \" + n.string())\n",
        3,
        END,
    ),
    (b"    end\n\n", 4, NO_MAIN),
    (b"  be report() =>\n", 3, END),
    (b"    _out.print(_account.line())\n\n", 4, NO_MAIN),
    (b"actor Main\n", 4, b"a.pony:48:7: Main is of another form\n"),
    (b"  new create(env: Env) =>\n", 3, END),
    (
        b"    let ann: Teller = Teller(env.out, Account(\"ann\"))\n"
        b"    let bob: Teller = Teller(env.out, Account(\"bob\"))\n"
        b"    ann.deposit(100)\n"
        b"    ann.withdraw(30, bob)\n"
        b"    bob.withdraw(500, ann)\n"
        b"    ann.report()\n"
        b"    bob.report()\n",
        0,
        b"",
    ),
]

ROWS = [
    *prefixes("a program that greets", HELLO, OF_HELLO),
    *prefixes("a chain", CHAIN, OF_CHAIN),
    *prefixes("a bank", BANK, OF_BANK, by_lines=True),
]
