"""Sources and schedules as large as they may be, to measure pages by."""

ROUNDS = 1_000_000

MAIN = """actor Main
  new create(env: Env) =>
    env.out.print("done")
"""


def counters(bytes_wanted=1_000_000):
    """Classes with a counter each, until they have this many bytes."""
    pieces, length, number = [], 0, 0
    while length < bytes_wanted:
        piece = f'''// A counter of its own: what is added to it and taken from it is seen by whoever has this one.
class Counter{number}
  var _sum_of_all: U64 = 0
  let _name_of_it: String

  new iso create(name: String) =>
    _name_of_it = name // the name stays as it is

  fun ref add_to_it(amount: U64, other_amount: U64): U64 =>
    """Adds two amounts, the second one twice if it is small."""
    let before_this: U64 = _sum_of_all
    if other_amount < 10 then
      _sum_of_all = before_this + amount + (other_amount * 2)
    else
      _sum_of_all = before_this + amount + other_amount
    end
    _sum_of_all

  fun ref take_from_it(amount: U64): Bool =>
    """Takes an amount, if there is as much, and says whether there was."""
    if amount <= _sum_of_all then
      _sum_of_all = _sum_of_all - amount
      true
    else
      false
    end

  fun is_like(other: Counter{number} box): Bool =>
    (this is other) or (_name_of_it == other.say_what())

  fun say_what(): String => _name_of_it + ": " + _sum_of_all.string()

'''
        pieces.append(piece)
        length += len(piece)
        number += 1
    return "".join(pieces)


def derivation():
    """Counters, and a Main."""
    return counters() + MAIN


def refused():
    """The same, of which the last line is refused."""
    return counters() + MAIN + "    let one: Counter0 iso = Counter0(\"one\")\n    let other: Counter0 iso = one\n"


def long_line(bytes_wanted=1_000_000):
    """One line of a sum, as long as the limit of tokens lets it be, and a comment for the rest."""
    terms = " + ".join(["n"] * 60_000)
    start = f"actor Main new create(env: Env) => let n: U64 = 1; env.out.print(({terms}).string()) /*"
    return start + "x" * (bytes_wanted - len(start) - 2) + "*/"


def run():
    """62 actors and Main that each change an object again and again, and a schedule of as many turns as there may be."""
    workers = "\n".join(f"    Work{number}(env.out, Cell)" for number in range(62))
    actors = "".join(
        f'''actor Work{number}
  var _cell: Cell iso
  let _out: OutStream
  new create(out: OutStream, cell: Cell iso) =>
    _out = out
    _cell = consume cell
    go()
  be go() =>
    _cell.add(1)
    go()
'''
        for number in range(62)
    )
    source = f'''class Cell
  var _sum: U64 = 0
  new iso create() => None
  fun ref add(n: U64): U64 =>
    _sum = _sum + n
    _sum
{actors}actor Main
  new create(env: Env) =>
{workers}
'''
    first, rest = "1*2000", " ".join(f"{actor}*100" for actor in range(2, 64))
    rounds = (ROUNDS - 2000) // 6200
    return source, first + "\n" + f"{rest}\n" * rounds


def sends(count=500):
    """Actors that each call an interface to which all of them conform."""
    actors = "".join(
        f"actor Desk{number}\n  let _next: Next\n  new create(next: Next) => _next = next\n  be hand(text: String) => _next.hand(text)\n"
        for number in range(count)
    )
    made = "".join(f"    desk = Desk{number}(desk)\n" for number in range(count))
    return f'''interface tag Next
  be hand(text: String)
actor End
  new create() => None
  be hand(text: String) => None
{actors}actor Main
  new create(env: Env) =>
    var desk: Next = End
{made}    desk.hand("all")
'''
