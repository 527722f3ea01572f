"""The cases on documents: those that were thought of, and then some at random."""
from compares import MOST_STEPS, ROW_PAIRS, Area
from compares_cases import ANY_OF_TWO, PHASES, SIDES, Bench, deep, near, opened, sides_named, some_pair, verdict
from compares_cases import Session as Calls
from documents import LEVELS, LONGEST, Documents, way_of
from documents import document as answered
from drafts import Draft
from grown import made
from live_cases import ANY_NUMBER, NO_CHILD, ONE_CHILD, keywords
from text import Trouble
from trees_cases import BOOK, PAGE, THREE, U, V, W

LEAF = (0, {}, NO_CHILD)

# Any number of children under the symbols 0, 1 and 2.
ANY_OF_THREE = [(1, {0: 0, 1: 0, 2: 0})]


def document(area, claim, first, second, length, slots=ROW_PAIRS, levels=LEVELS):
    return f"document {area} {claim[0]} {claim[1]} {first} {second} {slots} {levels} {length}"


def exactly(*symbols):
    """The rows of a state that allows one sequence."""
    return [(0, {a: at + 1}) for at, a in enumerate(symbols)] + [(1, {})]


def concluded(first, second):
    """An area on which two drafts were compared, with the claim; it is apart."""
    area, sides = Area(7), (made(first), made(second))
    claim = area.begin(*sides, False)
    area.step(claim, *sides, MOST_STEPS, ROW_PAIRS)
    _, apart = area.conclude(claim)
    assert apart
    return area, claim


def length_of(first, second):
    """How many bytes the document of two drafts needs, however many those are."""
    area, _ = concluded(first, second)
    return Documents(made(first), made(second)).along(area.verdict.removeprefix("apart, "), way_of(area))[1]


class Table(Bench):
    """An area on which documents are asked for."""

    def document(self, first, second, length, *others):
        """The document of the holder."""
        yield document(self.name, (self.number, self.serial), first, second, length, *others)

    def apart(self, first, second):
        """A comparison that comes out apart, up to its conclusion."""
        yield from self.begin(0, first, second)
        yield from self.step(first, second)
        yield from self.conclude(0)


def documented(first, second, drafts, rooms=(0, -1)):
    """A comparison from the beginning to the end with its trail and its document, in outputs so much longer or shorter than it needs."""
    apart, trail, _ = verdict(*drafts)
    assert apart
    table, length = Table("A", 7), length_of(*drafts)
    yield from table.open()
    yield from table.apart(first, second)
    yield from table.trail(0, len(trail))
    for more in rooms:
        yield from table.document(first, second, max(min(length, LONGEST + 1) + more, 0))
    yield from table.give_up(0)


def pair(first, second, rooms=(0, -1)):
    """Two drafts, named, with their document."""
    yield first.named("one")
    yield second.named("two")
    yield from documented("one", "two", (first, second), rooms)


def examples():
    yield "# Documents. V against U and U against W: the output as long as the document, a byte short, empty, and longer."
    drafts = {"U": U, "V": V, "W": W}
    for name, draft in drafts.items():
        yield draft.named(name)
    for first, second in (("V", "U"), ("U", "W"), ("V", "W")):
        yield from documented(first, second, (drafts[first], drafts[second]), (0, -1, -99, 3))


def thought_of():
    yield ""
    yield "# Broken in value at the start, in each kind and in each half of a book, and in content at the start: a row, a next state or an end is lacking."
    yield from pair(U.but(domains=["0,63"]), U)
    yield from pair(U, U.but(domains=["-"]))
    yield from pair(U.but(domains=["5,9"]), U.but(domains=["5"]))
    yield from pair(V.but(domains=["7,8"]), V.but(domains=["7"]))
    second = keywords((0, {0: 1}, ANY_NUMBER), LEAF)
    yield from pair(second, second.but(row_table={1: 255}))
    yield from pair(second, second.but(transitions={0: 255}))
    yield from pair(second, second.but(row_table={0: 0}))
    yield from pair(second, keywords((0, {0: 1}, [(0, {0: 1}), (1, {0: 0})]), LEAF))
    yield from pair(second, keywords((0, {0: 1}, [(1, {0: 1}), (0, {0: 0})]), LEAF))
    yield from pair(second, keywords((0, {0: 1}, ONE_CHILD), LEAF))
    yield from pair(second, keywords((0, {0: 1}, exactly(0, 0)), LEAF))
    yield "# And along a trail, in each kind of domain."
    yield from pair(PAGE, PAGE.but(domains=["0", "65-90,300-399", "10"]))
    yield from pair(PAGE, PAGE.but(domains=["0", "65-90,300-400", "11"]))
    yield from pair(PAGE, PAGE.but(row_table={5: 255}))
    yield from pair(PAGE, PAGE.but(row_table={8: 255}))
    yield from pair(PAGE.but(domains=["300", "65536-70000", "128"]), PAGE)
    yield from pair(PAGE.but(domains=["300", "65536-70000", "128"]), PAGE.but(domains=["300", "65536-69999", "128"]))
    yield from pair(BOOK, BOOK.but(domains=["0,7 -", "- 32,65-90,98-122", "63 8364"]))
    yield from pair(BOOK.but(domains=["0,7 -", "0 32", "63 8364"]), BOOK)
    yield from pair(BOOK, BOOK.but(domains=["0 -", "- 32,65-90,97-122", "63 8364"]))
    yield from pair(BOOK, BOOK.but(row_table={24: 255}))
    for name, first, second in deep():
        if verdict(first, second)[0]:
            yield first.named(f"{name}1")
            yield second.named(f"{name}2")
            yield from documented(f"{name}1", f"{name}2", (first, second))
    yield "# The second state is dead where they meet."
    yield from pair(V, W)
    yield from pair(keywords((0, {0: 1}, ONE_CHILD), LEAF), keywords((0, {0: 1}, ONE_CHILD), (1, {}, NO_CHILD)))


def choices():
    none = [(0, {}, NO_CHILD)]
    values = ("0", "1", "5", "0,9", "-")

    def against_none(*states, symbols=3):
        """A schema against one that allows the start no child: broken in content there."""
        return keywords(*states, symbols=symbols, domains=values), keywords(*none, symbols=symbols, domains=values)

    five, one = (2, {}, NO_CHILD), (1, {}, NO_CHILD)
    either = [(0, {0: 1, 1: 1, 2: 1}), (1, {})]
    yield ""
    yield "# Equally short sequences: the first by symbols, whatever the children are. By the first symbol, and by the second."
    yield from pair(*against_none((0, {0: 1, 1: 2}, either), five, one))
    yield from pair(*against_none((0, {2: 1, 1: 2}, either), five, one))
    yield from pair(*against_none((0, {0: 1, 1: 2, 2: 2}, [(0, {0: 1, 1: 2}), (0, {2: 3, 1: 3}), (0, {0: 3}), (1, {})]), five, one))
    yield from pair(*against_none((0, {0: 1, 1: 2, 2: 2}, [(0, {2: 1, 1: 2}), (0, {0: 3}), (0, {2: 3, 1: 3}), (1, {})]), five, one))
    yield "# In books, where the values have one byte or five: the shortest sequence and not the shortest document."
    first = Draft("book", 2, ["0 -", "- 65"], [(0, {0: 1, 1: 2}, [(0, {0: 1, 1: 2}), (1, {}), (0, {1: 1})]), (1, {}, NO_CHILD), (0, {}, NO_CHILD)])
    yield from pair(first, Draft("book", 2, ["0 -", "- 65"], none))
    yield from pair(first.but(row_table={1: 2, 2: 1}), Draft("book", 2, ["0 -", "- 65"], none))
    yield "# A sample goes into states of lower rank, where a shorter live sequence into others is there: 0 leads back to the state or to one of its"
    yield "# rank or above, and 1 twice to a leaf."
    twice = [(0, {0: 3, 1: 1}), (0, {1: 2}), (1, {}), (1, {})]
    top = (0, {2: 1}, exactly(2))
    yield from pair(*against_none(top, (0, {0: 1, 1: 2}, twice), one))
    yield from pair(*against_none(top, (0, {0: 3, 1: 2}, twice), one, (2, {1: 2}, exactly(1))))
    yield from pair(*against_none(top, (0, {0: 3, 1: 2}, twice), one, (2, {1: 4}, exactly(1)), (2, {1: 2}, exactly(1))))
    yield from pair(*against_none(top, (0, {0: 3, 1: 2}, twice), (1, {1: 4}, exactly(1)), (2, {1: 4}, exactly(1)), LEAF))
    yield "# But a sequence that the second does not allow may go into any live state, and none into a dead one."
    yield from pair(*against_none((0, {0: 0, 1: 1}, [(1, {0: 1, 1: 1}), (1, {})]), one))
    yield from pair(*against_none((0, {0: 2, 1: 1}, [(1, {0: 1, 1: 1}), (1, {})]), one, (4, {}, NO_CHILD)))
    yield from pair(*against_none((0, {0: 3, 1: 1}, [(1, {0: 1, 1: 1}), (1, {})]), one, (4, {}, NO_CHILD), (0, {0: 2, 1: 1}, exactly(1))))

    yield ""
    yield "# On the way: a sequence that holds the next symbol, once or more. The first occurrence goes on, and the others are samples."
    for name, rows in (
        ("one", exactly(0)),
        ("first", exactly(0, 1, 1)),
        ("last", exactly(1, 2, 0)),
        ("midst", exactly(1, 0, 2, 1)),
        ("twice", exactly(0, 0)),
        ("apart", exactly(1, 0, 2, 0, 1, 0)),
        ("any", ANY_OF_THREE),
        ("must", [(0, {1: 1, 2: 1}), (1, {0: 2, 2: 1}), (0, {1: 0, 2: 1})]),
        ("even", [(1, {0: 1, 1: 0}), (0, {0: 0, 2: 1})]),
        ("choice", [(0, {1: 1, 2: 2}), (0, {0: 3, 1: 3}), (0, {0: 3}), (1, {})]),
    ):
        yield f"# {name}"
        upper = 0, {0: 1, 1: 2, 2: 3}, rows
        below = [one, (0, {0: 1}, exactly(0))]
        first = keywords(upper, (3, {1: 2}, exactly(1, 1)), *below, symbols=3, domains=values)
        yield from pair(first, keywords(upper, (0, {1: 2}, exactly(1, 1)), *below, symbols=3, domains=values))
        yield from pair(first, keywords(upper, (3, {1: 2}, exactly(1)), *below, symbols=3, domains=values))
    yield "# The end broken in value has the sequence of its state's sample, which is not the shortest live one; and the gap is not the least value."
    ends = (0, {0: 1}, exactly(0)), (3, {0: 1, 1: 2}, twice), one
    yield from pair(*(keywords(*ends, symbols=3, domains=("0", "1", "5", top, "-")) for top in ("0,3,9", "0,9")))
    yield from pair(*(keywords(*ends, symbols=3, domains=("0", "1", "5", top, "-")) for top in ("3,9", "9")))
    yield "# The way comes back to a state of the first schema, and goes on otherwise from there."
    first = keywords((0, {0: 0, 1: 1}, [(0, {0: 1, 1: 1}), (1, {0: 1, 1: 1})]), one, symbols=3, domains=values)
    for depth in (1, 2, 5):
        states = [(0, {0: q + 1, 1: depth + 1}, ANY_OF_TWO) for q in range(depth)] + [(0, {1: depth + 1}, ANY_NUMBER), one]
        yield from pair(first, keywords(*states, symbols=3, domains=values))


def sized(length, states):
    """A state over letters whose sample has that many bytes, put among the states; a node of that size has up to 15 children of nearly one size.

    The states are their values' lengths and their children's symbols and next states; what is given back is the number of the state."""
    known = [at for at, state in enumerate(states) if state[0] == length]
    if known:
        return known[0]
    if length <= 4:
        states.append((length, length - 2, {}, ()))
        return len(states) - 1
    count = min(15, (length - 2) // 3)
    each, more = divmod(length - 2 - count, count)
    nexts = {a: sized(size, states) for a, size, some in ((0, each, count - more), (1, each + 1, more)) if some}
    states.append((length, 0, nexts, (0,) * (count - more) + (1,) * more))
    return len(states) - 1


# Letters whose number has one byte, two and three.
LETTERS = ["65", "8364", "66304"]


def of_size(length, over=0):
    """A schema over letters whose sample has that many bytes, below so many states with one child each."""
    states = []
    root = sized(length - 3 * over, states)
    order = [root] + [at for at in range(len(states)) if at != root]
    place = {at: over + index for index, at in enumerate(order)}
    lines = [(0, {0: q + 1}, exactly(0)) for q in range(over)]
    for at in order:
        _, domain, nexts, symbols = states[at]
        lines.append((domain, {a: place[to] for a, to in nexts.items()}, exactly(*symbols)))
    return Draft("coverage", 2, LETTERS + ["66"], lines)


def lengths():
    yield ""
    yield "# Documents of 65,535 bytes, 65,536 and 65,537, which is too long: broken at the start and at the end of a trail, in content and in value."
    none = Draft("coverage", 2, LETTERS + ["66"], [(0, {}, NO_CHILD)])
    for length in (LONGEST - 1, LONGEST, LONGEST + 1):
        yield from pair(of_size(length), none, (0, -1, 1, 200))
        for over in (1, 3):
            first = of_size(length, over)
            assert length_of(first, first.but(state_table={4 * over: 3})) == length
            yield from pair(first, first.but(state_table={4 * over: 3}), (0, -1))
    first = of_size(LONGEST, 2)
    at = first.state_table[10]
    yield from pair(first, first.but(row_table={3 * at + 1: 255}), (0, -1, 1))
    yield "# Documents that are longer than can be counted, and ones of some hundred bytes, which are no longer printed whole."
    for states in (20, 64):
        doubled = Draft("coverage", 2, LETTERS, [(0, {0: q + 1}, exactly(*[0] * 15)) for q in range(states - 1)] + [(0, {}, NO_CHILD)])
        yield from pair(doubled, Draft("coverage", 2, LETTERS, [(0, {}, NO_CHILD)]), (0, 5000))
    for length in (511, 512, 513):
        yield from pair(of_size(length), none, (0, -1, 1))
    yield "# Too long by the children beside the way: by one alone, by two together, not by two that are a byte shorter, and by fourteen."
    for length, count in ((LONGEST, 1), (32765, 2), (32764, 2), (30000, 14)):
        states = []
        root = sized(length, states)
        lines = [(0, {0: len(states) + 1, 1: root + 1}, exactly(*[1] * count, 0))]
        lines += [(domain, {a: to + 1 for a, to in nexts.items()}, exactly(*symbols)) for _, domain, nexts, symbols in states]
        first = Draft("coverage", 2, LETTERS + ["66"], lines + [(0, {}, NO_CHILD)])
        yield from pair(first, first.but(state_table={4 * len(states) + 4: 3}), (0, -1))


def counters(deep_samples):
    """64 states each whose pairs are listed one after the other: symbol 0 counts up in the first, and symbol 1, which leads from its last state to
    its first alone, counts up in the second. The sample of each state but the last of the first has no child, or the next state's sample."""
    rows = exactly(0) if deep_samples else ANY_NUMBER
    first = [(0, {0: q + 1}, rows) for q in range(63)] + [(1, {1: 0}, [(1, {1: 0})])]
    second = [(1, {0: q, 1: (q + 1) % 64}, ANY_OF_TWO) for q in range(64)]
    return first, second


def long_and_wide(gap):
    """Counters whose states have four small children beside the one that goes on, which lead back to the pair (0, 0), and values of one byte to
    three. The bytes beside those of the trail are 64 times 832, and those of the value at the end and its child count."""
    rows = [(1, {0: 1}), (0, {2: 2}), (0, {2: 3}), (0, {2: 4}), (0, {2: 5}), (1, {})]
    domains = ["65", "300", "70000", gap, "0-1114111", "65,300,70000"]
    value_at = [0] + [2] * 14 + [1] * 48
    first = [(value_at[q], {0: q + 1, 2: 0}, rows) for q in range(63)] + [(3, {1: 0}, [(1, {1: 0})])]
    second = [(5 if q == 63 else 4, {0: q, 1: (q + 1) % 64, 2: 0}, ANY_OF_THREE) for q in range(64)]
    return Draft("coverage", 3, domains, first), Draft("coverage", 3, domains, second)


def longest():
    two = ("0", "0,1")
    yield ""
    yield "# 64 states each: a trail of 4,095 symbols, to the last of 4,096 pairs, broken in value and in content."
    first, second = counters(False)
    second[63] = 0, {0: 63, 1: 0}, ANY_OF_TWO
    yield from pair(keywords(*first, domains=two), keywords(*second, domains=two), (0, -1, 1))
    first, second = counters(False)
    second[63] = 1, {0: 63}, ANY_OF_TWO
    yield from pair(keywords(*first, domains=two), keywords(*second, domains=two))
    yield "# A trail of 4,095 symbols to a node with a child whose sample has 64 levels: 4,160 levels."
    first, second = counters(True)
    second[63] = 1, {0: 63}, ANY_OF_TWO
    drafts = keywords(*first, domains=two), keywords(*second, domains=two)
    yield from pair(*drafts)
    table, room = Table("A", 7), length_of(*drafts)
    yield from table.open()
    yield from table.apart("one", "two")
    yield from table.document("one", "two", room, ROW_PAIRS - 1, LEVELS)
    yield from table.document("one", "two", room, ROW_PAIRS, LEVELS - 1)
    yield from table.document("one", "two", room, ROW_PAIRS + 9, LEVELS + 9)
    yield from table.give_up(0)
    yield "# The same trail, and a document of 65,535 bytes, of 65,536, and of 65,537, by the value at its end."
    for gap in ("65-66", "65,301", "65,70002"):
        yield from pair(*long_and_wide(gap), (0, -1))

    yield ""
    yield "# 16 rows each: the shortest sequence that the first allows and the second does not has 271 symbols, and goes through all pairs of rows, and"
    yield "# through all rows of the first once more when the second has none left."
    count = [(0, {0: r + 1}) for r in range(15)] + [(1, {1: 0})]
    turns = [(1, {0: r, 1: r + 1}) for r in range(15)] + [(1, {0: 15})]
    leaves = LEAF, (1, {}, NO_CHILD)
    first = keywords((0, {0: 1, 1: 2}, count), *leaves, domains=two)
    yield from pair(first, keywords((0, {0: 1, 1: 2}, turns), *leaves, domains=two), (0, -1, 1))
    yield "# The same below a node."
    yield from pair(
        keywords((0, {1: 1}, exactly(1)), (0, {0: 2, 1: 3}, count), *leaves, domains=two),
        keywords((0, {1: 1}, exactly(1)), (0, {0: 2, 1: 3}, turns), *leaves, domains=two),
    )
    yield "# 127 children and 128: their count has one byte and two."
    for many in (127, 128):
        first = [(int(r == many % 16), {0: r + 1} if r < 15 else {1: 0}) for r in range(16)]
        second = [(int(s < many // 16), {0: s, 1: s + 1} if s < many // 16 else {0: s}) for s in range(many // 16 + 1)]
        yield from pair(*(keywords((0, {0: 1, 1: 2}, rows), *leaves, domains=two) for rows in (first, second)))
    yield "# 31 symbols to hold the symbol by which the way goes on: through all rows before it and after it. Below, a sample of 15 symbols."
    hold = [(0, {0: r + 1}) for r in range(15)] + [(1, {1: 0})]
    first = keywords((0, {0: 1, 1: 2}, hold), LEAF, (1, {0: 1}, exactly(*[0] * 15)), domains=two)
    yield from pair(first, keywords((0, {0: 1, 1: 2}, hold), LEAF, (0, {0: 1}, exactly(*[0] * 15)), domains=two))
    yield from pair(first, keywords((0, {0: 1, 1: 2}, hold), LEAF, (1, {0: 1}, exactly(*[0] * 14)), domains=two))


def others():
    two = ("0", "0,1", "5,6", "-")
    leaf = (1, {}, NO_CHILD)
    upper = (0, {0: 1, 1: 1}, ANY_OF_TWO), (0, {0: 2}, ANY_NUMBER)
    valued = keywords(*upper, leaf, domains=two), keywords(*upper, LEAF, domains=two)
    more = keywords((0, {0: 1, 1: 1}, ANY_OF_TWO), (0, {0: 2, 1: 2}, [(1, {0: 0, 1: 0})]), LEAF, domains=two)
    contents = more, more.but(row_table={5: 255})
    yield ""
    yield "# Other schemas than those that were compared, with the same counts: the document tells those apart that are handed over, where they lead along"
    yield "# the trail through the listed pairs and have all that the document needs. First a pair broken in value, then one broken in content."
    changes = (
        {},
        {"state_table": {0: 1, 4: 2}},
        {"state_table": {8: 2}},
        {"state_table": {0: 3}},
        {"state_table": {4: 3}},
        {"state_table": {8: 3}},
        {"transitions": {0: 255}},
        {"transitions": {0: 2}},
        {"transitions": {1: 255}},
        {"transitions": {1: 0}},
        {"transitions": {2: 0}},
        {"transitions": {2: 1}},
        {"transitions": {2: 255}},
        {"transitions": {3: 0}},
        {"row_table": {0: 0}},
        {"row_table": {1: 255}},
        {"row_table": {2: 255}},
        {"row_table": {3: 0}},
        {"row_table": {4: 255}},
        {"row_table": {6: 0}},
        {"domains": ["3", "4,7", "7", "-"]},
        {"domains": ["0", "0", "5", "-"]},
        {"rows": 4, "row_table": valued[0].row_table + [7, 7, 7]},
        {"domains": ["0", "0,1", "5,6", "-", "9"]},
    )
    for name, drafts in (("value", valued), ("content", contents)):
        yield f"# {name}"
        yield drafts[0].named("one")
        yield drafts[1].named("two")
        table = Table("A", 7)
        yield from table.open()
        yield from table.apart("one", "two")
        yield from table.document("two", "one", 12)
        yield from table.document("one", "one", 12)
        yield from table.document("two", "two", 12)
        for change in changes:
            yield drafts[0].but(**change).named("first")
            yield drafts[1].but(**change).named("second")
            yield from table.document("first", "two", 12)
            yield from table.document("one", "second", 12)
            yield from table.document("first", "second", 12)
        yield from table.give_up(0)

    yield ""
    yield "# Schemas of another kind, which have other values; and steps that were handed others than the document is."
    yield U.but(domains=["0,1"]).named("keys")
    yield Draft("coverage", 2, ["8364"], [(0, {}, NO_CHILD)]).named("letters")
    yield Draft("coverage", 2, ["8364-8365"], [(0, {}, NO_CHILD)]).named("letters2")
    yield Draft("book", 2, ["- 8364"], [(0, {}, NO_CHILD)]).named("books")
    yield Draft("book", 2, ["- -"], [(0, {}, NO_CHILD)]).named("books2")
    table = Table("A", 7)
    yield from table.open()
    yield from table.apart("keys", "U")
    for sides in (("letters2", "letters"), ("letters", "letters2"), ("books", "books2"), ("books2", "books"), ("keys", "U")):
        yield from table.document(*sides, 12)
    yield from table.give_up(0)
    yield from table.begin(0, "U", "V")
    yield from table.step("V", "U")
    yield from table.conclude(0)
    for sides in (("U", "V"), ("V", "U"), ("V", "W"), ("U", "W"), ("W", "U")):
        yield from table.document(*sides, 12)
    yield from table.give_up(0)
    yield from table.begin(0, "one", "two")
    yield from table.step("one", "one", 1)
    yield from table.step("two", "one", 1)
    yield from table.step("one", "two")
    yield from table.conclude(0)
    for sides in (("one", "two"), ("two", "one"), ("one", "one"), ("two", "two")):
        yield from table.document(*sides, 12)
    yield from table.give_up(0)


def deviations(limit, *options):
    """Choices of one of each options, so that at most so many are not the first of theirs."""
    chosen = [((), 0)]
    for option in options:
        chosen = [(before + (each,), count + (at > 0)) for before, count in chosen for at, each in enumerate(option)]
    return [before for before, count in chosen if count <= limit]


def refused():
    yield ""
    yield "# Each refusal alone and each two at once, in each phase: tables of the first and of the second, symbols and counts, the claim's two numbers,"
    yield "# row pairs, levels and room. Area A has number 9, and the claims 1 and 2 were ousted before. Nothing that is refused changes the area."
    for name, draft in sides_named():
        yield draft.named(name)
    for phase in PHASES:
        yield f"# {phase}"
        table = Table("A", 9)
        yield from table.open()
        yield from table.to_phase("apart", 0)
        yield from table.to_phase("running", 1)
        yield from table.to_phase(phase, 2)
        firsts, seconds = ("V", "size", "state", "row", "domain", "three", "more"), ("U", "size", "state", "row", "domain", "three", "more")
        if phase == "included":
            firsts, seconds = ("U", *firsts[1:]), ("V", *seconds[1:])
        for first, second, number, serial, slots, levels, room in deviations(2, firsts, seconds, (9, 8), (3, 2, 4), (272, 271), (4160, 4159), (5, 4)):
            yield document("A", (number, serial), first, second, room, slots, levels)
        for slots, levels in ((0, 0), (0, 4160), (272, 0), (271, 4159), (273, 4161)):
            yield document("A", (9, 3), firsts[0], seconds[0], 0, slots, levels)
            yield document("A", (9, 3), firsts[0], seconds[0], 5, slots, levels)
        if phase in ("running", "ready", "apart"):
            yield from table.conclude(2)
            yield from table.step(firsts[0], seconds[0])
            yield from table.conclude(2)
            yield from table.document(firsts[0], seconds[0], 5)
            yield from table.trail(2, 0)
        yield from table.give_up(2)
        yield from table.document(firsts[0], seconds[0], 5)
    yield "# Where all else is right: schemas without a document before too little room, and after too little scratch."
    table = Table("A", 9)
    yield from table.open()
    yield from table.to_phase("apart", 0)
    for slots, levels, room in ((272, 4160, 0), (271, 4160, 0), (272, 4159, 0), (271, 4159, 9), (272, 4160, 9)):
        yield from table.document("U", "V", room, slots, levels)
    yield "# The counts of rows and of domains may be others than when the comparison began."
    yield from table.document("V", "rowed", 5)
    yield from table.document("V", "valued", 5)
    yield "# A document changes nothing: the area goes on as if it had not been asked for, and so does another of the same number."
    yield from table.trail(0, 0)
    yield opened("B", 9)
    yield document("B", (9, 1), "V", "U", 5)
    yield from table.begin(1, "V", "U", "oust")
    yield document("A", (9, 1), "V", "U", 5)
    yield document("A", (9, 2), "V", "U", 5)
    yield from table.step("V", "U")
    yield document("A", (9, 2), "V", "U", 5)
    yield from table.conclude(1)
    yield document("A", (9, 2), "V", "U", 5)
    yield document("A", (9, 1), "V", "U", 5)
    yield from table.give_up(1)
    yield document("A", (9, 2), "V", "U", 5)
    yield "# Faults at other states of three: the place is the state of the fault that is given."
    yield THREE.named("sound")
    yield THREE.but(transitions={5: 3}).named("late")
    yield THREE.but(transitions={3: 3}, state_table={1: 0}).named("both")
    yield THREE.but(state_table={9: 17, 4: 2}).named("rowless")
    yield from table.begin(0, "V", "U")
    yield from table.step("V", "U")
    yield from table.conclude(0)
    names = ("sound", "late", "both", "rowless")
    for first in names:
        for second in names:
            yield from table.document(first, second, 5)
    yield from table.give_up(0)


def texts():
    yield ""
    yield "# Text that asks for no document."
    yield opened("A", 5)
    for text in (
        "document",
        "document A",
        "document X 5 1 V U 272 4160 5",
        "document A x 1 V U 272 4160 5",
        "document A 5 -1 V U 272 4160 5",
        "document A 5 1 nobody U 272 4160 5",
        "document A 5 1 V nobody 272 4160 5",
        "document A 5 1 V letters 272 4160 5",
        "document A 5 1 V U x 4160 5",
        "document A 5 1 V U 272 x 5",
        "document A 5 1 V U 272 4160 x",
        "document A 5 1 V U 272 4160",
        "document A 5 1 V U 272 4160 5 1",
    ):
        yield text


def room_for(area, claim, first, second):
    """How many bytes a document has, or some where there is none."""
    try:
        return len(answered(area, claim, made(first), made(second), ROW_PAIRS, LEVELS, LONGEST))
    except Trouble:
        return 9


def at_random(chance):
    yield ""
    yield "# At random: two schemas that come out apart, with their document, and then with documents of schemas that differ a little from them."
    turn = 0
    while turn < 90:
        first, second = some_pair(chance)
        try:
            apart, trail, count = verdict(first, second)
        except Trouble:
            continue
        if not apart or chance.random() < (0.98 if count < 3 else 0.8 if count < 5 else 0.2):
            continue
        turn += 1
        table, (area, claim) = Table("B", turn), concluded(first, second)
        yield first.named("one")
        yield second.named("two")
        yield from table.open()
        yield from table.apart("one", "two")
        yield from table.trail(0, len(trail))
        room = room_for(area, claim, first, second)
        yield from table.document("one", "two", room)
        yield from table.document("one", "two", room - 1 if chance.random() < 0.5 else room + 2)
        for _ in range(3):
            other = near(first, chance) if chance.random() < 0.8 else first
            another = near(second, chance)
            yield other.named("other")
            yield another.named("another")
            yield from table.document("other", "another", room_for(area, claim, other, another) + chance.choice([0, 0, 0, 1, -1]))
        yield from table.give_up(0)


class Session(Calls):
    """Two areas on a desk, as for comparing, where documents are asked for too."""

    def __init__(self, drafts):
        super().__init__(drafts)
        self.calls["document"] = self.desk.document

    def line(self, chance):
        if chance.random() < 0.75:
            return super().line(chance)
        apart = [name for name, area in self.desk.areas.items() if area.phase == "apart"]
        name = chance.choice(apart * 3 + ["A", "B"])
        area = self.desk.areas[name]
        sides = chance.choice([self.sides.get(name, SIDES[0])] * 15 + SIDES)
        claim = chance.choice([area.number] * 15 + [1, 2]), chance.choice([area.serial] * 15 + [max(area.serial - 1, 0), area.serial + 1])
        slots, levels = chance.choice([272] * 15 + [271]), chance.choice([4160] * 15 + [4159])
        return document(name, claim, *sides, chance.choice([5, 12, 12, 40, 40]), slots, levels)


def sessions(chance):
    yield ""
    yield "# At random: calls on two areas, documents among them, with four places for claims, whatever comes of them."
    drafts = {"U": U, "V": V, "W": W, "page1": PAGE, "page2": PAGE.but(domains=["0", "65-90", "10"]), "three": dict(sides_named())["three"]}
    for name, first, second in deep():
        drafts |= {f"{name}1": first, f"{name}2": second}
    for name, draft in drafts.items():
        yield draft.named(name)
    for _ in range(6):
        session = Session(drafts)
        yield from (session.told(opened("A", 1)), session.told(opened("B", 2)))
        for _ in range(120):
            yield session.told(session.line(chance))


def lines(chance):
    """Every case on documents. Some of the schemas are those of the cases before."""
    for group in (examples, thought_of, choices, lengths, longest, others, refused, texts):
        yield from group()
    yield from at_random(chance)
    yield from sessions(chance)
