"""The cases on trimming: schemas of which some states have a reason to go or to stay, and then some at random with trees on what is left."""
from drafts import Draft, check, live, trim
from grown import KINDS, depth, full_size, grow, made, some_domains, wild
from live_cases import ANY_NUMBER, FAULTS, NO_CHILD, NO_END, ONE_CHILD, ONE_OF_TWO, keywords, sparse_rows
from schemas import NONE
from text import Trouble
from trees import tree_bytes
from trees_cases import BOOK, PAGE, SMALLEST, THREE, TOP, U, V, W
from trims import restricted, trimmed

# A child under symbol 1 and no other; any number of children under the symbols 0 and 1; one under symbol 0 and then one under symbol 1.
ONE_SECOND = [(0, {1: 1}), (1, {})]
ANY_OF_TWO = [(1, {0: 0, 1: 0})]
ONE_OF_EACH = [(0, {0: 1}), (0, {1: 2}), (1, {})]


def result(draft, permitted):
    """What trimming leaves of a draft, or none."""
    try:
        return trimmed(made(draft), permitted)
    except Trouble:
        return None


def exact(draft, permitted):
    """The lengths that the trimmed tables fill; where there are none, those of the draft's own tables."""
    left = result(draft, permitted)
    tables = left.tables() if left else (draft.transitions, draft.state_table, draft.row_table)
    return [len(table) for table in tables]


def asked(draft, *numbers, name="cut"):
    """The cases that name a schema and trim it to the symbols of each of the numbers, into outputs that are just long enough."""
    yield draft.named(name)
    for permitted in numbers:
        yield trim(name, permitted, exact(draft, permitted))


def thought_of():
    yield "# Trimming. U, V and W to none, one and both of their symbols, and to bits that no symbol has."
    for name, draft in (("U", U), ("V", V), ("W", W)):
        yield from asked(draft, 0, 1, 2, 3, 4, 7, TOP - 3, TOP, name=name)
    yield "# A page of lines of letters, a book with title, texts and emphasis, and three states that end anywhere, each to every set of symbols."
    yield from asked(PAGE, *range(4), TOP, name="page")
    yield from asked(BOOK, *range(16), TOP - 15, TOP - 8, TOP, name="book")
    yield from asked(THREE, *range(4), TOP, name="three")


# States that are dead, each for a reason of its own: the first of the states that a schema goes on with from number 2 on. State 1 is live.
DEAD = {
    "no value": [(1, {}, NO_CHILD)],
    "no row where children may end": [(0, {0: 1, 1: 1}, NO_END)],
    "no next state for its one symbol": [(0, {1: 1}, ONE_CHILD)],
    "no way but into a state without a value": [(0, {0: 3}, ONE_CHILD), (1, {}, NO_CHILD)],
    "two ways, both into states without a value": [(0, {0: 3, 1: 4}, ONE_OF_TWO), (1, {}, NO_CHILD), (1, {0: 1}, ANY_NUMBER)],
    "one way, whose second symbol leads into a state without a value": [(0, {0: 1, 1: 3}, ONE_OF_EACH), (1, {}, NO_CHILD)],
    "no tree without itself in it": [(0, {0: 2, 1: 2}, ONE_OF_TWO)],
    "no tree without one that wants it": [(0, {0: 3}, ONE_CHILD), (0, {1: 2}, ONE_SECOND)],
    "no tree without one of two that want it": [(0, {0: 3, 1: 4}, ONE_OF_TWO), (0, {0: 2}, ONE_CHILD), (0, {1: 2}, ONE_SECOND)],
}


def dead():
    yield ""
    yield "# A state is dead, and where it was needed so is what needs it: symbol 0 leads into it, symbol 1 into a live state."
    for reason, states in DEAD.items():
        yield f"# Dead, having {reason}: not needed; one of two; needed; and at the start."
        for rows in (ANY_OF_TWO, ONE_OF_TWO, ONE_OF_EACH):
            yield from asked(keywords((0, {0: 2, 1: 1}, rows), (0, {}, NO_CHILD), *states), 3, 2, 1, 0)
        yield from asked(turned_to_start(states), 3, 0)

    yield ""
    yield "# Dead only where a symbol is not permitted: a state that wants a child under symbol 1, and one that wants either."
    for rows in (ONE_SECOND, ONE_OF_TWO, ONE_OF_EACH):
        yield from asked(keywords((0, {0: 1}, ANY_NUMBER), (0, {0: 2, 1: 2}, rows), (0, {}, NO_CHILD)), *range(4))
        yield from asked(keywords((0, {0: 1}, ONE_CHILD), (0, {0: 2, 1: 2}, rows), (0, {}, NO_CHILD)), *range(4))


def turned_to_start(states):
    """A schema that starts with the first of these states, which were numbered from 2 on, and has the live state at the end."""
    names = {state: state - 2 for state in range(2, 2 + len(states))} | {1: len(states)}
    moved = [(domain, {a: names[to] for a, to in nexts.items()}, rows) for domain, nexts, rows in states]
    return keywords(*moved, (0, {}, NO_CHILD))


def chains():
    yield ""
    yield "# 64 states in a line, each with a child of the next, so that the first has rank 63; then the first needs none; then one has no value."
    line = [(0, {0: q + 1}, ONE_CHILD) for q in range(63)]
    last = (0, {}, NO_CHILD)
    yield from asked(keywords(*line, last, symbols=1), 1, 0, TOP)
    yield from asked(keywords((0, {0: 1}, ANY_NUMBER), *line[1:], last, symbols=1), 1, 0)
    yield from asked(keywords((0, {0: 1}, ANY_NUMBER), *line[1:], (1, {}, NO_CHILD), symbols=1), 1)
    yield from asked(keywords(*[(0, {0: q + 1}, ANY_NUMBER) for q in range(40)], (1, {0: 41}, ANY_NUMBER), *line[41:], last, symbols=1), 1)
    yield "# The line from the last state back to the second, every other state of it, and every third with the states between them dead."
    back = [(0, {0: 63}, ONE_CHILD), last, *[(0, {0: q - 1}, ONE_CHILD) for q in range(2, 64)]]
    yield from asked(keywords(*back, symbols=1), 1)
    yield from asked(keywords(*[(0, {0: q + 2}, ANY_NUMBER) if q < 62 else last for q in range(64)], symbols=1), 1)
    thirds = [(int(q % 3 > 0), {0: (q + 3) % 64, 1: (q + 1) % 64}, ANY_OF_TWO) for q in range(64)]
    yield from asked(keywords(*thirds), 1, 2, 3)
    yield "# A ring of 64 states, whole and with a symbol that leads across it."
    ring = [(0, {0: (q + 1) % 64, 1: (q + 16) % 64}, ANY_OF_TWO) for q in range(64)]
    yield from asked(keywords(*ring), 1, 2, 0)


def reach():
    leaf = (0, {}, NO_CHILD)
    yield ""
    yield "# Live states that nothing leads to, that only a state of that kind leads to, and that only a dead state leads to."
    yield from asked(keywords(leaf, leaf, leaf), 0, 3)
    yield from asked(keywords((0, {1: 3}, ANY_OF_TWO), (0, {0: 2}, ANY_NUMBER), leaf, leaf), *range(4))
    yield from asked(keywords((0, {0: 1, 1: 3}, ANY_OF_TWO), (1, {0: 2}, ANY_NUMBER), leaf, leaf), *range(4))

    yield ""
    yield "# Led to by a symbol that no live sequence holds: no row has it; its row is cut off; the way on from it is dead, or has no end."
    dead_end = (1, {}, NO_CHILD)
    for rows in (
        [(1, {1: 0})],
        [(1, {1: 0}), (1, {0: 0})],
        [(1, {0: 1}), (0, {1: 2}), (1, {})],
        [(1, {0: 1, 1: 0}), (0, {0: 1})],
        [(1, {1: 1}), (0, {0: 2}), (1, {})],
    ):
        yield from asked(keywords((0, {0: 2, 1: 1}, rows), dead_end, leaf), *range(4))
        yield from asked(keywords((0, {0: 2, 1: 1}, rows), leaf, leaf), *range(4))

    yield ""
    yield "# Such a symbol stays, with its row entries, where another way leads to its state, or where that is the state itself."
    three = {"symbols": 3}
    stuck = [(1, {2: 0, 0: 1}), (0, {1: 2}), (1, {})]
    yield from asked(keywords((0, {0: 2, 1: 1, 2: 2}, stuck), dead_end, leaf, **three), *range(8))
    yield from asked(keywords((0, {0: 0, 1: 1, 2: 2}, stuck), dead_end, leaf, **three), 7, 3, 1, 5)
    yield from asked(keywords((0, {0: 2, 2: 3}, [(1, {2: 0})]), dead_end, leaf, (0, {1: 2}, [(1, {1: 0})]), **three), 7, 5, 6)
    yield from asked(keywords((0, {0: 0}, NO_CHILD)), 1, 2)

    yield ""
    yield "# A row entry whose symbol has no next state goes, whether it was in the way or not."
    yield from asked(keywords((0, {0: 0}, ANY_OF_TWO)), *range(4))
    yield from asked(keywords((0, {}, [(1, {0: 1, 1: 0}), (0, {1: 1})])), 3)
    yield from asked(keywords((0, {0: 1, 1: 1}, ANY_OF_TWO), (0, {1: 0}, [(0, {0: 1, 1: 1}), (1, {0: 0, 1: 1})])), *range(4))


def shared():
    leaf = (0, {}, NO_CHILD)
    yield ""
    yield "# Rows that two states share are copied for each: all of them, some of them, and with one state gone."
    two = keywords((0, {0: 1, 1: 1}, [(0, {0: 1, 1: 0}), (1, {0: 1})]), (0, {0: 1}, NO_CHILD))
    same = two.but(rows=2, row_table=two.row_table[:6], state_table=[0, 2, 0, 0, 0, 2, 0, 0])
    yield from asked(same.but(row_table={0: 1}), *range(4))
    yield from asked(same.but(state_table={5: 1, 6: 1}, row_table={4: 0}), *range(4))
    yield from asked(same.but(state_table={1: 1, 2: 1, 4: 1}, row_table={4: 0}), *range(4))
    yield "# Rows of no state go: before, between and behind the others."
    stray = two.but(rows=6, row_table=[9, 9, 9, *two.row_table[:6], 2, 254, 7, *two.row_table[6:], 255, 7, 7], state_table=[0, 2, 1, 0, 0, 1, 4, 0])
    yield from asked(stray, *range(4))
    yield "# Sixteen rows in the last places of a table of 1,024 come to its front."
    sixteen = keywords((0, {0: 1}, [(int(r == 15), {0: min(r + 1, 15)}) for r in range(16)]), leaf, symbols=1)
    last = sixteen.but(rows=1024, row_table=[3, 3] * 1007 + sixteen.row_table)
    yield from asked(last.but(state_table=[0, 16, 1007 % 256, 1007 // 256, 0, 1, 1023 % 256, 1023 // 256]), 1, 0)
    yield "# 64 states that share sixteen rows come to 1,024 rows; 17 of them to 272, the first number of which has a high byte."
    many = keywords(*[(0, {0: (q + 1) % 64, 1: (q + 4) % 64}, NO_CHILD) for q in range(64)])
    rows = [byte for r in range(16) for byte in ((r + 1) % 2, (r + 1) % 16, (r + 3) % 16)]
    many = many.but(rows=16, row_table=rows, state_table=[0, 16, 0, 0] * 64)
    yield from asked(many, 1, 2)
    yield from asked(many.but(transitions={2 * 16: NONE, 2 * 16 + 1: NONE}), 1)


def sizes():
    yield ""
    yield "# The smallest schema, which accepts nothing, and then the same with a value and an end."
    yield from asked(SMALLEST, 0, 1)
    yield from asked(SMALLEST.but(row_table={0: 1}), 0, 1)
    yield from asked(SMALLEST.but(row_table={0: 1}, domains=["0"]), 0, 1)
    yield from asked(SMALLEST.but(row_table={0: 1}, domains=["0"], transitions=[0]), 0, 1)
    yield "# The largest: 64 states, 32 symbols and 1,024 rows after trimming, and outputs a byte too short for it."
    steps = [(0, {a: (q + a + 1) % 64 for a in range(32)}, NO_CHILD) for q in range(64)]
    rows = [[(r + 1) % 2, *[(r + a) % 16 if (r + a) % 3 else NONE for a in range(32)]] for r in range(16)]
    most = keywords(*steps, symbols=32).but(rows=16, row_table=sum(rows, []), state_table=[0, 16, 0, 0] * 64)
    yield from asked(most, TOP, name="most")
    for at in range(3):
        yield trim("most", TOP, [length - (place == at) for place, length in enumerate((2048, 256, 33792))])
    yield from asked(most.but(transitions={32 * 5 + 31: NONE}), 2**31, name="high")
    yield trim("most", 0, (32, 4, 528))
    yield "# The schema of full size of the cases on trees, to a few of its symbols."
    for permitted in (0, 2**31, 5, 2**31 + 2**16 + 1):
        yield trim("full", permitted, exact(full_size(), permitted))


def outputs():
    yield ""
    yield "# Outputs that are just long enough, a byte short, a byte longer and much longer; what lies past the tables stays."
    for name, draft, permitted in (("U", U, 0), ("V", V, 1), ("book", BOOK, 6), ("book", BOOK, 15), ("page", PAGE, 3), ("three", THREE, 3)):
        fit = exact(draft, permitted)
        yield trim(name, permitted, fit)
        for at in range(3):
            yield trim(name, permitted, [length - (place == at) for place, length in enumerate(fit)])
            yield trim(name, permitted, [length + (place == at) for place, length in enumerate(fit)])
            yield trim(name, permitted, [0 if place == at else length + 9 for place, length in enumerate(fit)])
        yield trim(name, permitted, [length + 20 for length in fit])
        yield trim(name, permitted, [length - 1 for length in fit])
    yield "# Long enough for what is left and too short for what there was."
    yield trim("book", 5, exact(BOOK, 5))
    yield trim("book", 13, exact(BOOK, 5))
    yield "# `nothing` comes before `room`, and a refusal of the tables before both."
    for name, permitted in (("book", 0), ("book", 2), ("W", 3), ("W", 0)):
        yield trim(name, permitted, (0, 0, 0))
        yield trim(name, permitted, (40, 40, 40))


def refused():
    yield ""
    yield "# Refusals of the tables, by number and then by state, with outputs that have room, that have none, and with no symbol permitted."
    for changes in FAULTS:
        yield THREE.but(**changes).named("wrong")
        for permitted, length in ((3, 40), (3, 0), (0, 40), (0, 0)):
            yield trim("wrong", permitted, [length] * 3)
    yield "# Tables that are refused although what is wrong with them would go."
    yield from asked(keywords((0, {}, NO_CHILD), (2, {}, NO_CHILD)), 0)
    yield from asked(keywords((0, {1: 2}, NO_CHILD), (0, {}, NO_CHILD)), 1)
    yield from asked(keywords((0, {}, NO_CHILD), (0, {}, [(2, {})])), 0)

    yield ""
    yield "# Text that says no trimming."
    yield "trim"
    yield "trim U"
    yield "trim U 0"
    yield "trim U 0 2 4"
    yield "trim U 0 2 4 3 1"
    yield "trim U 4294967296 2 4 3"
    yield "trim U -1 2 4 3"
    yield "trim U 0,1 2 4 3"
    yield "trim U - 2 4 3"
    yield "trim U 0 2 4 x"
    yield "trim nobody 0 2 4 3"
    yield "trims U 0 2 4 3"


def before(chance):
    yield ""
    yield "# At random: the schemas of the cases on trees, sound and spoiled, with outputs that may be too short."
    for kind in KINDS:
        for turn in range(8):
            yield trim(f"{kind}{turn}", chance.randrange(16), (chance.choice([8, 20]), 20, chance.choice([20, 75])))
    for turn in range(60):
        yield trim(f"spoiled{turn}", chance.randrange(8), (12, chance.choice([8, 16]), 32))


def some_draft(chance):
    """A schema at random, some of whose states are dead, or are so where a symbol is missing."""
    kind, symbols, states = chance.choice(list(KINDS)), chance.randint(2, 5), chance.randint(2, 9)
    domains = some_domains(kind, 3, chance) + ["- -" if kind == "book" else "-"]
    listed = []
    for state in range(states):
        nexts = {a: chance.randrange(states) for a in range(symbols) if chance.random() < 0.8}
        rows = [(1, {})] if chance.random() < 0.2 else sparse_rows(symbols, chance)
        listed.append((chance.choice([0, 0, 1, 1, 2, 3]) if state else 0, nexts, rows))
    return Draft(kind, symbols, domains, listed)


def some_trees(draft, permitted, chance):
    """Small trees: grown over the permitted symbols, grown over all of them, and wild."""
    schema = made(draft)
    narrow = restricted(schema, permitted)
    for source, most in ((narrow, 4), (schema, 4)):
        trees = [grow(source, 0, 4, chance) for _ in range(200)]
        small = {tuple(tree_bytes(tree)): tree for tree in trees if tree and len(tree_bytes(tree)) < 80}
        yield from sorted(small.values(), key=lambda tree: len(tree_bytes(tree)))[-most:]
    yield from (wild(schema, 2, chance) for _ in range(2))


def left_over(turn, draft, permitted, chance):
    """A schema trimmed, and where something is left its tables as a schema of their own: all its states live, and trees put to both."""
    old, new = f"old{turn}", f"new{turn}"
    yield from asked(draft, permitted, name=old)
    left = result(draft, permitted)
    if left is None:
        return
    names = ("states", "rows", "transitions", "state_table", "row_table")
    yield draft.but(**{name: getattr(left, name) for name in names}).named(new)
    yield live(new)
    for tree in some_trees(draft, permitted, chance):
        yield check(old, tree_bytes(tree), depth(tree))
        yield check(new, tree_bytes(tree), depth(tree))


def at_random(chance):
    """Schemas with dead states, trimmed to some of their symbols; of those that are left with nothing or with one state a few alone."""
    yield ""
    yield "# At random: schemas, what is left of them as schemas of their own, and trees over permitted and other symbols put to both."
    turn = 0
    while turn < 48:
        draft = some_draft(chance)
        permitted = chance.choice([chance.randrange(2**draft.symbols), 2**draft.symbols - 1 - 2 ** chance.randrange(draft.symbols), TOP])
        left = result(draft, permitted)
        if (left is None or left.states == 1) and chance.random() < 0.97:
            continue
        yield from left_over(turn, draft, permitted, chance)
        turn += 1


def lines(chance):
    """Every case on trimming. The schemas at random that it begins with are those of the cases on trees."""
    for group in (thought_of, dead, chains, reach, shared, sizes, outputs, refused):
        yield from group()
    yield from before(chance)
    yield from at_random(chance)
