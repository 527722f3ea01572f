"""The cases on live states: schemas whose dead states have one cause each, and schemas of the cases before them."""
from drafts import Draft, live
from grown import KINDS, full_size, some_domains
from schemas import NONE
from trees_cases import BOOK, PAGE, THREE, U, V, W

# The rows of a state without a child, with any number under symbol 0, with exactly one, and with a way to no end.
NO_CHILD = [(1, {})]
ANY_NUMBER = [(1, {0: 0})]
ONE_CHILD = [(0, {0: 1}), (1, {})]
ONE_OF_TWO = [(0, {0: 1, 1: 1}), (1, {})]
NO_END = [(0, {0: 1}), (0, {0: 0})]

# What is wrong with the tables of three states, each time one thing or two.
FAULTS = (
    {"states": 65},
    {"symbols": 0},
    {"domains": []},
    {"row_table": THREE.row_table[:-1]},
    {"transitions": {0: 3}},
    {"transitions": {5: 254}},
    {"state_table": {1: 0}},
    {"state_table": {9: 17}},
    {"state_table": {10: 4}},
    {"row_table": {9: 2}},
    {"row_table": {7: 1}},
    {"state_table": {4: 2}},
    {"domains": ["-"]},
    {"transitions": {5: 3}, "state_table": {0: 9, 1: 0}},
    {"state_table": {0: 9, 9: 0}},
)


def asked(draft, name="life"):
    """The cases that name a schema and ask for its live states."""
    return draft.named(name), live(name)


def keywords(*states, symbols=2, domains=("0", "-")):
    """A schema over keywords: domain 0 has a value, domain 1 has none."""
    return Draft("keywords", symbols, list(domains), list(states))


def thought_of():
    yield "# Live states. U and V accept the node without a child. W wants a child of W, so no tree is finite there."
    for name, draft in (("U", U), ("V", V), ("W", W), ("page", PAGE), ("book", BOOK), ("three", THREE)):
        yield from asked(draft, name)

    yield ""
    yield "# A domain without a value: keywords, letters, and both halves of a book, one of which is enough."
    yield from asked(keywords((1, {}, NO_CHILD)))
    yield from asked(keywords((0, {0: 1}, ANY_NUMBER), (1, {}, NO_CHILD), (0, {0: 1}, ONE_CHILD)))
    yield from asked(keywords((0, {}, NO_CHILD), (1, {0: 0}, ANY_NUMBER), (0, {0: 0}, ONE_CHILD)))
    yield from asked(PAGE.but(domains=["0", "-", "10"]))
    yield from asked(PAGE.but(domains=["0", "65-90", "-"]))
    yield from asked(PAGE.but(domains=["-", "65-90", "10"]))
    yield from asked(PAGE.but(domains=["0", "1114111", "10"]))
    for domain in ("- -", "0 -", "63 -", "- 0", "- 1114111"):
        yield from asked(BOOK.but(domains=["0 -", domain, "63 8364"]))

    yield ""
    yield "# No way to a row where children may end: none is marked, the marked one is cut off, its symbol has no next state, or it comes first."
    yield from asked(keywords((0, {0: 0, 1: 0}, [(0, {})])))
    yield from asked(keywords((0, {0: 1}, NO_END), (0, {}, NO_CHILD)))
    yield from asked(keywords((0, {0: 1}, [(0, {0: 1}), (0, {0: 0}), (1, {0: 2})]), (0, {}, NO_CHILD)))
    yield from asked(keywords((0, {0: 1}, [(0, {0: 1}), (0, {1: 2}), (1, {})]), (0, {}, NO_CHILD)))
    yield from asked(keywords((0, {0: 1, 1: 1}, [(0, {0: 1}), (0, {1: 2}), (1, {})]), (0, {}, NO_CHILD)))
    yield from asked(keywords((0, {1: 1}, [(0, {0: 1, 1: 0}), (1, {})]), (0, {}, NO_CHILD)))
    yield from asked(keywords((0, {0: 1}, [(1, {0: 1}), (0, {0: 1})]), (1, {}, NO_CHILD)))

    yield ""
    yield "# Only into dead states; into a dead one or a live one; into both, one after the other, in either order."
    yield from asked(keywords((0, {0: 1}, ONE_CHILD), (0, {0: 2}, ONE_CHILD), (1, {}, NO_CHILD)))
    yield from asked(keywords((0, {0: 1, 1: 2}, ONE_OF_TWO), (1, {}, NO_CHILD), (1, {}, NO_CHILD)))
    yield from asked(keywords((0, {0: 1, 1: 2}, ONE_OF_TWO), (1, {}, NO_CHILD), (0, {}, NO_CHILD)))
    yield from asked(keywords((0, {0: 1, 1: 2}, ONE_OF_TWO), (0, {}, NO_CHILD), (1, {}, NO_CHILD)))
    for first, second in ((0, 1), (1, 0)):
        both = [(0, {first: 1}), (0, {second: 2}), (1, {})]
        yield from asked(keywords((0, {0: 1, 1: 2}, both), (0, {}, NO_CHILD), (1, {}, NO_CHILD)))
        yield from asked(keywords((0, {0: 1, 1: 2}, both), (0, {}, NO_CHILD), (0, {}, NO_CHILD)))

    yield ""
    yield "# States that want one another, and a state that wants one of two children which both lead back to it; and then with a way out."
    yield from asked(keywords((0, {0: 1}, ONE_CHILD), (0, {0: 0}, ONE_CHILD)))
    yield from asked(keywords((0, {0: 1}, ONE_CHILD), (0, {0: 0}, ANY_NUMBER)))
    yield from asked(keywords((0, {0: 1}, ONE_CHILD), (0, {0: 2}, ONE_CHILD), (0, {0: 0}, ONE_CHILD)))
    back = [(0, {0: 1, 1: 2}, ONE_OF_TWO), (0, {0: 0}, ONE_CHILD), (0, {1: 0}, [(0, {1: 1}), (1, {})])]
    yield from asked(keywords(*back))
    yield from asked(keywords(*back[:2], (0, {1: 0}, [(1, {1: 1}), (1, {})])))
    yield from asked(keywords(*back[:2], (0, {0: 3, 1: 0}, ONE_OF_TWO), (0, {}, NO_CHILD)))
    yield from asked(keywords((0, {0: 0, 1: 0}, ONE_OF_TWO)))
    yield from asked(keywords((0, {0: 0, 1: 1}, ONE_OF_TWO), (0, {}, NO_CHILD)))

    yield ""
    yield "# State 0 dead while others live, live states that state 0 never leads to, and a lone live state in the last place."
    yield from asked(keywords((1, {0: 1}, ANY_NUMBER), (0, {0: 2}, ONE_CHILD), (0, {}, NO_CHILD)))
    yield from asked(keywords((0, {0: 0}, ONE_CHILD), (0, {0: 0}, ANY_NUMBER), (0, {0: 1}, ONE_CHILD)))
    yield from asked(keywords((0, {}, NO_CHILD), (0, {0: 2}, ONE_CHILD), (0, {}, NO_CHILD), (0, {0: 3}, ONE_CHILD)))
    yield from asked(keywords(*[(int(q < 63), {}, NO_CHILD) for q in range(64)]))
    yield from asked(keywords(*[(int(q > 0), {}, NO_CHILD) for q in range(64)]))
    yield from asked(keywords(*[(q % 2, {}, NO_CHILD) for q in range(63)]))


def chains():
    yield ""
    yield "# 64 states that each want one child of the next: the last wants none, then wants itself, then has no value; and from the other end."
    line = [(0, {0: q + 1}, ONE_CHILD) for q in range(63)]
    yield from asked(keywords(*line, (0, {}, NO_CHILD), symbols=1))
    yield from asked(keywords(*line, (0, {0: 63}, ONE_CHILD), symbols=1))
    yield from asked(keywords(*line, (1, {}, NO_CHILD), symbols=1))
    yield from asked(keywords(*line, (0, {0: 0}, ONE_CHILD), symbols=1))
    yield from asked(keywords(*line[:40], (1, {0: 41}, ONE_CHILD), *line[41:], (0, {}, NO_CHILD), symbols=1))
    turned = [(0, {0: q}, ONE_CHILD) for q in range(63)]
    yield from asked(keywords((0, {}, NO_CHILD), *turned, symbols=1))
    yield from asked(keywords((1, {}, NO_CHILD), *turned, symbols=1))
    two = [(0, {0: (q + 1) % 64, 1: (q + 2) % 64}, [(0, {0: 1}), (0, {1: 2}), (1, {})]) for q in range(62)]
    yield from asked(keywords(*two, (0, {}, NO_CHILD), (0, {}, NO_CHILD)))
    yield from asked(keywords(*two, (0, {}, NO_CHILD), (1, {}, NO_CHILD)))


def rows():
    yield ""
    yield "# Rows that two states share: the same rows end at one state and not at the other; and rows of no state."
    shared = keywords((0, {0: 1}, ONE_CHILD), (0, {}, NO_CHILD), symbols=1)
    both = shared.but(rows=2, row_table=[0, 1, 1, NONE], state_table=[0, 2, 0, 0, 0, 2, 0, 0])
    yield from asked(both)
    third = keywords((0, {0: 2}, ONE_CHILD), (0, {}, NO_CHILD), (0, {}, NO_CHILD), symbols=1)
    yield from asked(third.but(rows=2, row_table=[0, 1, 1, NONE], state_table=[0, 2, 0, 0, 0, 2, 0, 0, 0, 1, 1, 0]))
    yield from asked(both.but(row_table={0: 1}))
    yield from asked(both.but(state_table={5: 1, 6: 1}))
    yield from asked(both.but(state_table={1: 1, 2: 1, 5: 2, 6: 0}, transitions=[NONE, 0]))
    yield from asked(both.but(state_table={5: 1, 6: 1, 4: 1}))
    yield from asked(both.but(state_table={1: 1, 5: 1}, row_table=[1, NONE, 1, 0]))
    yield from asked(shared.but(rows=5, row_table=[9, 9, 0, 1, 1, NONE, 255, 7, 1, NONE], state_table=[0, 2, 1, 0, 0, 1, 4, 0]))

    yield ""
    yield "# Sixteen rows, of which the last alone may end, and one fewer of them that can be reached."
    sixteen = keywords((0, {0: 1}, [(int(r == 15), {0: min(r + 1, 15)}) for r in range(16)]), (0, {}, NO_CHILD), symbols=1)
    yield from asked(sixteen)
    yield from asked(sixteen.but(row_table={29: 13}))
    yield from asked(sixteen.but(transitions=[0, NONE]))
    last = sixteen.but(rows=1024, row_table=[3, 3] * 1007 + sixteen.row_table)
    yield from asked(last.but(state_table=[0, 16, 1007 % 256, 1007 // 256, 0, 1, 1023 % 256, 1023 // 256]))


def refused():
    yield ""
    yield "# Refusals of the tables, by number and then by state; and names that say no schema."
    for changes in FAULTS:
        yield from asked(THREE.but(**changes))
    yield "live"
    yield "live nobody"
    yield "live U U"
    yield "lives U"


def before():
    yield ""
    yield "# The schemas at random of the cases above, and the one of full size; then without the values that its odd states end on."
    yield from (live(f"{kind}{turn}") for kind in KINDS for turn in range(8))
    yield from (live(f"spoiled{turn}") for turn in range(60))
    yield live("full")
    full = full_size()
    yield from asked(full.but(domains=["-" if d % 2 == 0 else words for d, words in enumerate(full.domains)]))
    yield from asked(full.but(domains=["-" if d % 3 == 0 else words for d, words in enumerate(full.domains)]))
    yield from asked(full.but(domains=["-" if d > 5 else words for d, words in enumerate(full.domains)]))


def sparse_rows(symbols, chance):
    """Rows of which few may end."""
    count = chance.randint(1, 4)
    return [(int(chance.random() < 0.25), {a: chance.randrange(count) for a in range(symbols) if chance.random() < 0.5}) for _ in range(count)]


def sparse(chance):
    """Schemas at random with few ends, so that they have dead states."""
    yield ""
    yield "# At random: schemas with few rows where children may end, and with domains without a value."
    for turn in range(60):
        kind, symbols, states = chance.choice(list(KINDS)), chance.randint(1, 4), chance.randint(2, 12)
        domains = some_domains(kind, 3, chance) + ["- -" if kind == "book" else "-"]
        listed = []
        for _ in range(states):
            nexts = {a: chance.randrange(states) for a in range(symbols) if chance.random() < 0.8}
            listed.append((chance.choice([0, 0, 1, 1, 2, 3]), nexts, sparse_rows(symbols, chance)))
        yield from asked(Draft(kind, symbols, domains, listed), f"sparse{turn}")


def lines(chance):
    """Every case on live states. The schemas at random that they ask about are those of the cases on trees."""
    for group in (thought_of, chains, rows, refused, before):
        yield from group()
    yield from sparse(chance)
