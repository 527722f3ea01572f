"""The cases on trees: those that were thought of, and then some at random."""
from domains import LAST_CODE_POINT, MIDDLE
from drafts import Draft, check
from grown import at_random, grown_on
from schemas import NONE
from trees import number_bytes, tree_bytes

TOP = 2**32 - 1

# One state, two symbols, the keyword 0: no child, any number of symbol 0, exactly one child.
U = Draft("keywords", 2, ["0"], [(0, {}, [(1, {})])])
V = Draft("keywords", 2, ["0"], [(0, {0: 0}, [(1, {0: 0})])])
W = Draft("keywords", 2, ["0"], [(0, {0: 0, 1: 0}, [(0, {0: 1, 1: 1}), (1, {})])])

SMALLEST = Draft("keywords", 1, ["-"], [(0, {}, [(0, {})])])

# A page (value 0) has lines under symbol 0, a line (10) has a letter or more under symbol 1, and a letter has no child.
PAGE = Draft(
    "coverage",
    2,
    ["0", "65-90,300-400", "10"],
    [(0, {0: 1}, [(1, {0: 0})]), (2, {1: 2}, [(0, {1: 1}), (1, {1: 1})]), (1, {}, [(1, {})])],
)

# A book: title (0), then text (1) any number of times; a title has letters (2), a text letters and emphasis (3).
BOOK = Draft(
    "book",
    4,
    ["0,7 -", "- 32,65-90,97-122", "63 8364"],
    [
        (0, {0: 1, 1: 2}, [(0, {0: 1}), (1, {1: 1})]),
        (0, {2: 3}, [(0, {2: 1}), (1, {2: 1})]),
        (0, {2: 3, 3: 1}, [(1, {2: 0, 3: 0})]),
        (1, {}, [(1, {})]),
    ],
)

# Three states over two symbols, so that a fault can be put at any of them.
THREE = Draft(
    "keywords",
    2,
    ["0", "1"],
    [(0, {0: 1, 1: 2}, [(1, {0: 1, 1: 1}), (1, {0: 0})]), (1, {0: 2}, [(1, {0: 0})]), (1, {}, [(1, {}), (0, {1: 0})])],
)


def leaf(value=0):
    return value, []


def chain(levels, symbol=0, value=0):
    """A tree with one node on each level."""
    tree = leaf(value)
    for _ in range(levels - 1):
        tree = value, [(symbol, tree)]
    return tree


def thought_of():
    yield "# U allows no child, V any number under symbol 0, W exactly one; each has one state and the keyword 0."
    yield from (U.named("U"), V.named("V"), W.named("W"))
    trees = [
        leaf(),
        (0, [(0, leaf())]),
        (0, [(1, leaf())]),
        (0, [(0, leaf()), (0, leaf())]),
        (0, [(0, leaf()), (1, leaf())]),
        (0, [(0, (0, [(0, leaf())])), (0, leaf())]),
        leaf(1),
        (0, [(0, leaf(1))]),
        (1, [(0, leaf())]),
        leaf(64),
        leaf(TOP),
    ]
    for name in "UVW":
        yield from (check(name, tree_bytes(tree)) for tree in trees)
        yield check(name, [128, 0])

    yield ""
    yield "# The smallest schema, with nothing in its domain, and then with one value; and one that wants a child where none may be."
    yield SMALLEST.named("smallest")
    yield check("smallest", [0, 0])
    yield SMALLEST.but(domains=["5"], row_table={0: 1}).named("smallest")
    yield check("smallest", [5, 0])
    yield check("smallest", [4, 0])
    yield check("smallest", [5, 1, 0, 5, 0])
    yield SMALLEST.but(domains=["5"], row_table=[0, 0], transitions=[0]).named("smallest")
    yield check("smallest", [5, 0])
    yield check("smallest", [5, 1, 0, 5, 0])

    yield ""
    yield "# A symbol with a next row and no next state, and one with a next state and no next row: neither is allowed."
    yield V.but(transitions=[NONE, 0]).named("torn")
    yield check("torn", tree_bytes((0, [(0, leaf())])))
    yield check("torn", tree_bytes((0, [(1, leaf())])))
    yield check("torn", [0, 0])


def sizes():
    yield ""
    yield "# Each count at its limit and one past it, and at 0."
    one = V.but(symbols=1, transitions=[0], row_table=[1, 0])
    for symbols in (32, 33):
        yield Draft("keywords", symbols, ["0"], [(0, {31: 0}, [(1, {31: 0})])]).named("symbols")
        yield check("symbols", tree_bytes((0, [(31, leaf())])))
        yield check("symbols", tree_bytes((0, [(32, leaf())])))
        yield check("symbols", tree_bytes((0, [(30, leaf())])))
    for states in (64, 65):
        line = [(0, {0: min(q + 1, states - 1)}, [(1, {0: 0})]) for q in range(states)]
        yield Draft("keywords", 1, ["0"], line).named("states")
        yield check("states", tree_bytes(chain(70)), 70)
    for rows in (1024, 1025):
        yield one.but(rows=rows, row_table=[1, 0] * rows).named("rows")
        yield check("rows", tree_bytes(chain(3)))
    for domains in (64, 65):
        yield one.but(domains=[str(d % 64) for d in range(domains)], state_table={0: 63}).named("domains")
        yield check("domains", [63, 0])
        yield check("domains", [0, 0])
    yield from (one.but(symbols=0, transitions=[], row_table=[1]).named("none"), check("none", [0, 0]))
    yield from (one.but(states=0, transitions=[], state_table=[]).named("none"), check("none", [0, 0]))
    yield from (one.but(rows=0, row_table=[]).named("none"), check("none", [0, 0]))
    yield from (one.but(domains=[]).named("none"), check("none", [0, 0]))
    yield from (one.but(symbols=0, states=0, rows=0, transitions=[], state_table=[], row_table=[], domains=[]).named("none"), check("none", [0, 0]))

    yield ""
    yield "# Counts that are far too large, and counts that would fit the tables in other places."
    for count in ("symbols", "states", "rows"):
        yield from (one.but(**{count: TOP}).named("vast"), check("vast", [0, 0]))
    yield from (one.but(symbols=TOP, states=TOP, rows=TOP).named("vast"), check("vast", [0, 0]))
    yield from (THREE.but(symbols=3, states=2).named("turned"), check("turned", [0, 0]))
    yield from (THREE.but(rows=6).named("turned"), check("turned", [0, 0]))

    yield ""
    yield "# Each table with a byte fewer and a byte more, and with none."
    yield from (THREE.named("three"), check("three", [0, 0]))
    for table in ("transitions", "state_table", "row_table"):
        yield from (THREE.shorter(table).named("three"), check("three", [0, 0]))
        yield from (THREE.longer(table).named("three"), check("three", [0, 0]))
        yield from (THREE.but(**{table: []}).named("three"), check("three", [0, 0]))


def faults():
    def wrong(**changes):
        yield THREE.but(**changes).named("wrong")
        yield check("wrong", [0, 0])

    yield ""
    yield "# Transitions: 255 and a state are right, anything between is wrong, at the lowest state that has one."
    yield from wrong(transitions={0: 2})
    yield from wrong(transitions={0: 3})
    yield from wrong(transitions={1: 254})
    yield from wrong(transitions={2: 3})
    yield from wrong(transitions={5: 3})
    yield from wrong(transitions={5: 64, 3: 200})

    yield ""
    yield "# Row counts 0, 17 and 255; a first row that leaves the table, by the low byte and by the high byte."
    for state in range(3):
        for count in (0, 17, 255):
            yield from wrong(state_table={4 * state + 1: count})
    yield from wrong(state_table={2: 3})
    yield from wrong(state_table={2: 4})
    yield from wrong(state_table={2: 5})
    yield from wrong(state_table={6: 255})
    yield from wrong(state_table={11: 1})
    yield from wrong(state_table={10: 255, 11: 255})

    yield ""
    yield "# End marks other than 0 and 1, and entries at the row count and past it."
    for row in range(5):
        yield from wrong(row_table={3 * row: 2})
    yield from wrong(row_table={12: 255})
    yield from wrong(row_table={1: 2})
    yield from wrong(row_table={4: 254})
    yield from wrong(row_table={7: 1})
    yield from wrong(row_table={14: 2})

    yield ""
    yield "# Domain numbers at the domain count and past it."
    yield from wrong(state_table={0: 2})
    yield from wrong(state_table={4: 2})
    yield from wrong(state_table={8: 255})
    yield from wrong(domains=["0"])

    yield ""
    yield "# Several at once: the lowest number wins wherever it stands, and then the lowest state."
    yield from wrong(transitions={5: 3}, state_table={0: 9, 1: 0})
    yield from wrong(transitions={4: 3, 2: 3}, state_table={0: 9, 1: 0})
    yield from wrong(state_table={0: 9, 9: 0})
    yield from wrong(state_table={0: 9, 4: 9}, row_table={9: 2})
    yield from wrong(state_table={0: 9, 4: 9, 8: 9})
    yield from wrong(state_table={4: 9, 8: 9})
    yield from wrong(domains=[], transitions={0: 3}, state_table={1: 0})
    yield from wrong(rows=4, transitions={0: 3}, state_table={0: 9})
    yield THREE.but(transitions={0: 3}, state_table={0: 9}).longer("row_table").named("wrong")
    yield check("wrong", [0, 0])

    yield ""
    yield "# A fault of the tables comes before any fault of the bytes or the levels."
    yield from (THREE.but(state_table={8: 2}).named("wrong"), check("wrong", []), check("wrong", [128, 0], 0), check("wrong", [0, 0, 0]))

    yield ""
    yield "# States that share rows. An entry may be right for the one and wrong for the other, that has fewer of them."
    shared = Draft("keywords", 1, ["0", "1"], [(0, {0: 1}, [(0, {0: 1}), (1, {0: 1})]), (1, {}, [(1, {})])])
    both = shared.but(rows=2, row_table=shared.row_table[:4], state_table=[0, 2, 0, 0, 1, 2, 0, 0])
    yield both.named("shared")
    yield check("shared", [0, 1, 0, 1, 0])
    yield both.but(transitions=[1, 0]).named("shared")
    yield check("shared", [0, 0])
    yield check("shared", [0, 1, 0, 1, 0])
    yield both.but(state_table={5: 1}).named("shared")
    yield check("shared", [0, 0])
    yield both.but(state_table={5: 1, 6: 1}).named("shared")
    yield check("shared", [0, 0])
    yield both.but(state_table={5: 1, 6: 1}, row_table={3: NONE}).named("shared")
    yield check("shared", [0, 1, 0, 1, 0])
    yield check("shared", [0, 2, 0, 1, 0, 0, 1, 0])

    yield ""
    yield "# Rows of no state are not looked at: before, between and behind the others."
    stray = shared.but(rows=6, row_table=[9, 9] + shared.row_table[:4] + [2, 254] + shared.row_table[4:] + [255, 7], state_table=[0, 2, 1, 0, 1, 1, 4, 0])
    yield stray.named("stray")
    yield check("stray", [0, 1, 0, 1, 0])
    yield check("stray", [0, 0])
    yield stray.but(state_table={1: 3}).named("stray")
    yield check("stray", [0, 1, 0, 1, 0])
    yield stray.but(state_table={2: 0}).named("stray")
    yield check("stray", [0, 1, 0, 1, 0])
    yield stray.but(state_table={5: 2}).named("stray")
    yield check("stray", [0, 1, 0, 1, 0])

    yield ""
    yield "# Sixteen rows of a state, each the next one's, in the last places of a table of 1,024."
    sixteen = Draft("keywords", 1, ["0"], [(0, {0: 0}, [(int(r == 15), {0: min(r + 1, 15)}) for r in range(16)])])
    yield sixteen.named("sixteen")
    for children in (0, 14, 15, 16, 40):
        yield check("sixteen", tree_bytes((0, [(0, (0, [(0, leaf())] * 15))] * children)))
    last = sixteen.but(rows=1024, row_table=[3, 3] * 1008 + sixteen.row_table, state_table=[0, 16, 1008 % 256, 1008 // 256])
    yield last.named("last")
    yield check("last", tree_bytes((0, [(0, leaf())] * 15)))
    yield check("last", tree_bytes((0, [(0, leaf())] * 14)))
    yield last.but(state_table={2: 1009 % 256}).named("last")
    yield check("last", [0, 0])


# Bytes that are no number: a 0 behind others, and a fifth byte that has too much in it.
NO_NUMBERS = (
    [128, 0],
    [255, 128, 0],
    [128, 128, 128, 128, 0],
    [255, 255, 255, 255, 16],
    [128, 128, 128, 128, 128],
    [129, 128, 128, 128, 255, 0],
)


def reading():
    yield ""
    yield "# A page of lines of letters, and every beginning of the bytes of one: `short` at its end."
    yield PAGE.named("page")
    tree = 0, [(0, (10, [(1, leaf(65)), (1, leaf(300))])), (0, (10, [(1, leaf(400))]))]
    whole = tree_bytes(tree)
    for length in range(len(whole) + 1):
        yield check("page", whole[:length], 3)

    yield ""
    yield "# Bytes that are no number in the place of each number of a tree: `number` at its first byte."
    parts = [[0], [1], [0], [10], [1], [1], [172, 2], [0]]
    yield check("page", sum(parts, []))
    for at in range(len(parts)):
        for bad in NO_NUMBERS:
            yield check("page", sum(parts[:at], []) + bad + sum(parts[at + 1 :], []))

    yield ""
    yield "# The largest number, and numbers of every length, are read and are no keyword or letter; cut off, they are `short`."
    for value in (63, 64, 127, 128, 16383, 16384, 2**21 - 1, 2**21, 2**28 - 1, 2**28, MIDDLE - 1, MIDDLE, TOP):
        yield check("V", number_bytes(value) + [0])
    for length in range(6):
        yield check("V", number_bytes(TOP)[:length])
    yield check("V", [128, 128, 128, 128])
    yield check("V", [128, 128, 128, 128, 15, 0])
    yield check("V", [0] + number_bytes(TOP))
    yield check("V", [0] + number_bytes(TOP) + [0, 0, 0])

    yield ""
    yield "# A symbol at the symbol count or past it: `symbol` at its first byte, before anything behind it."
    for symbol in (2, 3, 127, 128, 255, 300, TOP):
        yield check("V", [0, 1] + number_bytes(symbol) + [0, 0])
        yield check("V", [0, 1] + number_bytes(symbol))
    yield check("V", [0, 2, 0, 0, 0, 2, 0, 0])
    yield check("V", [0, 1, 0, 0, 1, 2])
    yield check("V", [0, 1, 2, 128, 0])
    yield check("V", [0, 1, 2], 1)
    yield check("V", [0, 1, 130, 0], 1)

    yield ""
    yield "# No level for a node: `deep` at its first byte, before that byte is looked at, also where the input has ended."
    yield check("V", [], 0)
    yield check("V", [0, 0], 0)
    yield check("V", [128, 0], 0)
    yield check("V", [0, 0], 1)
    yield check("V", [], 1)
    yield check("V", [0, 1, 0], 1)
    yield check("V", [0, 1, 0], 2)
    yield check("V", [0, 1, 0, 0, 0], 1)
    yield check("V", [0, 1, 0, 0, 0], 2)
    yield check("V", [0, 1, 0, 128, 0], 1)
    yield check("V", [0, 1, 0, 128, 0], 2)
    yield check("V", [0, 1, 0, 0, 1, 0], 2)
    yield check("V", [0, 2, 0, 0, 0, 0, 0, 1, 0], 2)
    yield check("V", [0, 2, 0, 0, 0, 0, 0, 0], 2)
    yield check("V", [0, 0], 100000)

    yield ""
    yield "# Bytes left over: `rest` at the first, whatever they are."
    yield check("V", [0, 0, 0])
    yield check("V", [0, 0, 0, 0])
    yield check("V", [0, 0, 128, 0])
    yield check("V", [0, 0, 255])
    yield check("V", [0, 1, 0, 0, 0, 7])
    yield check("V", [0, 0] * 50, 1)

    yield ""
    yield "# A fault in the bytes outweighs a no: a wrong value, a symbol that is not allowed, children that may not end there."
    for no in ([1], [64], number_bytes(TOP)):
        yield check("V", no + [0])
        yield check("V", no)
        yield check("V", no + [128, 0])
        yield check("V", no + [1, 2, 0, 0])
        yield check("V", no + [1, 0, 0, 0], 1)
        yield check("V", no + [0, 0])
    for name, no in (("V", [0, 2, 1, 0, 0]), ("U", [0, 2, 0, 0, 0]), ("W", [0, 2, 0, 0, 0])):
        yield check(name, no + [0, 0, 0])
        yield check(name, no)
        yield check(name, no + [128, 0])
        yield check(name, no + [255, 0])
        yield check(name, no + [2, 0, 0])
        yield check(name, no + [0, 0, 1, 0, 0, 0], 2)
        yield check(name, no + [0, 0, 0, 5])
    yield check("W", [0, 0, 0])
    yield check("W", [0, 0])


def shapes():
    yield ""
    yield "# Chains: with a level for each node, and with one fewer."
    for levels in (2, 63, 64, 65, 3000):
        yield check("V", tree_bytes(chain(levels)), levels)
        yield check("V", tree_bytes(chain(levels)), levels - 1)
        yield check("W", tree_bytes(chain(levels)), levels)
    yield check("V", tree_bytes(chain(3000))[:-1], 3000)
    yield check("V", tree_bytes(chain(3000)) + [0], 3000)

    yield ""
    yield "# Wide nodes: from 128 children on their count takes two bytes."
    for children in (127, 128, 200):
        yield check("V", tree_bytes((0, [(0, leaf())] * children)), 2)
    yield check("V", tree_bytes((0, [(0, leaf())] * 199 + [(0, leaf(1))])), 2)
    yield check("V", tree_bytes((0, [(0, leaf())] * 199 + [(1, leaf())])), 2)
    yield check("V", tree_bytes((0, [(0, leaf())] * 200))[:-1], 2)
    yield check("V", tree_bytes((0, [(0, leaf())] * 200)) + [0], 2)
    yield check("V", tree_bytes((0, [(0, (0, [(0, leaf())] * 30))] * 30)), 3)


def letter(value):
    return 2, leaf(MIDDLE + value)


def books():
    yield ""
    yield "# Letters in a coverage: its ends, beside them, and past the last code point."
    for value in (64, 65, 90, 91, 299, 300, 400, 401, LAST_CODE_POINT, LAST_CODE_POINT + 1, MIDDLE + 65, TOP):
        yield check("page", tree_bytes((0, [(0, (10, [(1, leaf(value))]))])))
    yield check("page", tree_bytes(leaf()))
    yield check("page", tree_bytes((0, [(0, leaf(10))])))
    yield check("page", tree_bytes((0, [(1, leaf(65))])))
    yield check("page", tree_bytes((10, [(1, leaf(65))])))

    yield ""
    yield "# A book: a title (0) and texts (1), in them letters (2) and emphasis (3). Keywords stay apart from letters."
    yield BOOK.named("book")
    title = 0, (0, [letter(72), letter(105)])
    yield check("book", tree_bytes((7, [title])))
    yield check("book", tree_bytes((7, [title, (1, leaf()), (1, (7, [letter(32), (3, (0, [letter(122)])), letter(97)]))])))
    yield check("book", tree_bytes((7, [])))
    yield check("book", tree_bytes((7, [title, title])))
    yield check("book", tree_bytes((7, [(1, leaf()), title])))
    yield check("book", tree_bytes((7, [(0, leaf())])))
    yield check("book", tree_bytes((1, [title])))
    yield check("book", tree_bytes((63, [title])))
    yield check("book", tree_bytes((MIDDLE + 7, [title])))
    yield check("book", tree_bytes((0, [(0, (0, [(2, leaf(72))]))])))
    yield check("book", tree_bytes((0, [(0, (0, [letter(8364)]))])))
    yield check("book", tree_bytes((0, [(0, (0, [letter(72), (3, (0, [letter(72)]))]))])))
    yield check("book", tree_bytes((0, [title, (1, (0, [(3, leaf())]))])))
    yield check("book", tree_bytes((0, [title, (1, (0, [(3, (0, [(3, (0, [letter(72)]))]))]))])))
    yield check("book", tree_bytes((0, [title, (1, (0, [(3, (0, [letter(72)]))]))])), 4)
    yield check("book", tree_bytes((0, [title, (1, (0, [(3, (0, [letter(72)]))]))])), 3)
    mixed = BOOK.but(state_table={12: 2})
    yield mixed.named("mixed")
    yield check("mixed", tree_bytes((0, [(0, (0, [letter(8364), (2, leaf(63))]))])))
    yield check("mixed", tree_bytes((0, [(0, (0, [letter(63)]))])))
    yield check("mixed", tree_bytes((0, [(0, (0, [(2, leaf(8364))]))])))


def unreadable():
    yield ""
    yield "# A name that was given again means the schema given last; one that was refused or could not be read gives no name."
    yield U.named("again")
    yield check("again", [0, 1, 0, 0, 0])
    yield V.named("again")
    yield check("again", [0, 1, 0, 0, 0])
    yield PAGE.but(domains=["0", "65-90,91-95", "10"]).named("touching")
    yield check("touching", [0, 0])
    yield BOOK.but(domains=["0 1,3,5,7,9,11,13,15,17"]).named("nine")
    yield check("nine", [0, 0])
    yield PAGE.but(domains=["0", "5-4", "10"]).named("again")
    yield check("again", [0, 1, 0, 0, 0])

    yield ""
    yield "# Text that says no schema and no check."
    words = U.named("no").split()
    for length in range(1, len(words)):
        yield " ".join(words[:length])
    yield " ".join(words + ["0"])
    yield U.but(kind="letters").named("no")
    yield U.but(kind="mirror").named("no")
    yield U.but(symbols=2**32).named("no")
    yield U.but(symbols="-").named("no")
    yield U.but(transitions=[255, 256]).named("no")
    yield U.but(row_table=[1, 255, "x"]).named("no")
    yield U.but(row_table=[1, 255, ""]).named("no")
    yield U.but(state_table=["0-1"]).named("no")
    yield U.but(domains=["64"]).named("no")
    yield U.but(domains=["0", "1"]).named("no").replace(" 2 0 1", " 3 0 1")
    yield U.but(domains=["0", "1"]).named("no").replace(" 2 0 1", " 1 0 1")
    yield check("no", [0, 0])
    yield "check"
    yield "check U"
    yield "check U 0,0"
    yield "check U 0,0 -1"
    yield "check U 0,0 4294967296"
    yield "check U 0,0 1 1"
    yield "check U 0,256 1"
    yield "check U 0,,0 1"
    yield "check U 0,+0 1"
    yield "check u 0,0 1"
    yield "checks U 0,0 1"


def lines(chance):
    """Every case on trees."""
    for group in (thought_of, sizes, faults, reading, shapes, books, unreadable):
        yield from group()
    yield from grown_on("page", PAGE, chance)
    yield from grown_on("book", BOOK, chance)
    yield from at_random(chance)
