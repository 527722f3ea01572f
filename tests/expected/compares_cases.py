"""The cases on comparing: those that were thought of, and then some at random."""
from copy import deepcopy

from compares import MOST_STEPS, ROW_PAIRS, Area
from desks import Desk
from drafts import Draft, check
from grown import KINDS, depth, grow, made, some_domains, some_rows
from live_cases import ANY_NUMBER, FAULTS, NO_CHILD, ONE_CHILD, keywords
from text import Trouble
from trees import Shelf, tree_bytes
from trees_cases import BOOK, PAGE, THREE, U, V, W

# Any number of children under the symbols 0 and 1.
ANY_OF_TWO = [(1, {0: 0, 1: 0})]

# How a comparison is left: no comparison, one that runs, one ready with each verdict, and one concluded apart.
PHASES = ("free", "running", "included", "ready", "apart")


def opened(area, number):
    return f"open {area} {number}"


def begun(call, area, place, first, second):
    return f"{call} {area} {place} {first} {second}"


def step(area, claim, first, second, steps=MOST_STEPS, slots=ROW_PAIRS):
    return f"step {area} {claim[0]} {claim[1]} {first} {second} {steps} {slots}"


def verdict(first, second):
    """How comparing two drafts ends: the verdict, the trail where it is apart, and the count of pairs."""
    area, sides = Area(0), (made(first), made(second))
    claim = area.begin(*sides, False)
    area.step(claim, *sides, MOST_STEPS, ROW_PAIRS)
    count, apart = area.examined, area.verdict != "included"
    area.conclude(claim)
    return apart, area.trail(claim, MOST_STEPS) if apart else [], count


class Bench:
    """An area under a name, with the serial that the calls on it have come to."""

    def __init__(self, name, number):
        self.name, self.number, self.serial = name, number, 0

    def open(self):
        self.serial = 0
        yield opened(self.name, self.number)

    def begin(self, place, first, second, call="take"):
        """A comparison begins, and its claim goes to a place."""
        self.serial += 1
        yield begun(call, self.name, place, first, second)

    def step(self, first, second, *others):
        """A step of the holder."""
        yield step(self.name, (self.number, self.serial), first, second, *others)

    def conclude(self, place):
        yield f"conclude {self.name} {place}"

    def trail(self, place, length):
        yield f"trail {self.name} {place} {length}"

    def give_up(self, place):
        yield f"giveup {self.name} {place}"

    def to_phase(self, phase, place, call="oust"):
        """Brings the area into a phase, with the holder's claim in the place; V and U run there, and U and V come out included."""
        first, second = ("U", "V") if phase == "included" else ("V", "U")
        yield from self.begin(place, first, second, call)
        if phase in ("included", "ready", "apart"):
            yield from self.step(first, second)
        if phase == "apart":
            yield from self.conclude(place)
        if phase == "free":
            yield from self.give_up(place)


def compared(first, second, drafts, room=None):
    """A comparison from the beginning to the end in one step, with its trail."""
    bench = Bench("A", 7)
    apart, trail, _ = verdict(*drafts)
    yield from bench.open()
    yield from bench.begin(0, first, second)
    yield from bench.step(first, second)
    yield from bench.conclude(0)
    if apart:
        yield from bench.trail(0, len(trail) if room is None else room)
        yield from bench.give_up(0)


def pair(first, second):
    """Two drafts, named and compared."""
    yield first.named("one")
    yield second.named("two")
    yield from compared("one", "two", (first, second))


def examples():
    yield "# Comparing. U, V and W with each other: a fresh area, number 7, and a step for five pairs."
    drafts = {"U": U, "V": V, "W": W}
    for name, draft in drafts.items():
        yield draft.named(name)
    for first in drafts:
        for second in drafts:
            bench = Bench("A", 7)
            yield from bench.open()
            yield from bench.begin(0, first, second)
            yield from bench.step(first, second, 5)
            yield from bench.conclude(0)
            if verdict(drafts[first], drafts[second])[0]:
                yield from bench.trail(0, 0)
                yield from bench.trail(0, 3)
                yield from bench.give_up(0)
            yield from bench.begin(1, first, second)
            yield from bench.give_up(1)


def thought_of():
    leaf, dead = (0, {}, NO_CHILD), (1, {}, NO_CHILD)
    yield ""
    yield "# A symbol that leads into a dead state breaks nothing where the second schema forbids it; where the state has a value it does."
    first = keywords((0, {0: 1, 1: 2}, ANY_OF_TWO), leaf, dead)
    second = keywords((0, {0: 1}, ANY_NUMBER), leaf)
    yield from pair(first, second)
    yield from pair(second, first)
    yield from pair(first.but(state_table={8: 0}), second)
    yield "# A symbol that the first allows and no sequence to an end holds; and one that leads to an end."
    stuck = keywords((0, {0: 1, 1: 1}, [(1, {0: 0, 1: 1}), (0, {1: 1})]), leaf)
    yield from pair(stuck, second)
    yield from pair(stuck.but(row_table={3: 1}), second)
    yield "# The second lacks a row, a next state or an end: each breaks the content."
    yield from pair(second, second.but(row_table={1: 255}))
    yield from pair(second, second.but(transitions={0: 255}))
    yield from pair(second, second.but(row_table={0: 0}))
    yield from pair(second, keywords((0, {0: 1}, [(1, {0: 1}), (0, {0: 0})]), leaf))
    yield from pair(second, keywords((0, {0: 1}, ONE_CHILD), leaf))

    yield ""
    yield "# Broken in value, at the start and below it, in each kind and in each half of a book; and in value and in content at once."
    yield from pair(U, U.but(domains=["1"]))
    yield from pair(U.but(domains=["0,63"]), U)
    yield from pair(U, U.but(domains=["0,63"]))
    yield from pair(U, U.but(domains=["-"]))
    yield from pair(U.but(domains=["-"]), U)
    yield from pair(PAGE, PAGE)
    yield from pair(PAGE, PAGE.but(domains=["0", "65-90,300-399", "10"]))
    yield from pair(PAGE, PAGE.but(domains=["0", "65-90,299-401", "10"]))
    yield from pair(PAGE, PAGE.but(domains=["0", "65-90,300-400", "11"]))
    yield from pair(BOOK, BOOK)
    yield from pair(BOOK, BOOK.but(domains=["0 -", "- 32,65-90,97-122", "63 8364"]))
    yield from pair(BOOK, BOOK.but(domains=["0,7 -", "- 32,65-90,98-122", "63 8364"]))
    yield from pair(BOOK.but(domains=["0,7 -", "0 32", "63 8364"]), BOOK)
    yield from pair(BOOK, BOOK.but(domains=["0,7,9 32", "63 32,65-90,97-122", "63 8364"]))
    yield from pair(V, U.but(domains=["1"]))
    yield from pair(V.but(domains=["-"]), U)

    yield ""
    yield "# The second state is dead, and the first is live: apart where they meet, whatever is below."
    yield from pair(V, W)
    yield from pair(keywords((0, {0: 1}, ONE_CHILD), leaf), keywords((0, {0: 1}, ONE_CHILD), dead))
    yield from pair(keywords((0, {0: 1}, ANY_NUMBER), dead), keywords((0, {}, NO_CHILD), leaf))


def line(count, last=0):
    """States that may each have a child that is the next, and then a last one with another domain: a trail of that many symbols."""
    return [(0, {0: q + 1}, ANY_NUMBER) for q in range(count)] + [(last, {}, NO_CHILD)]


def deep():
    """Schemas with several states, under names, and how they are told apart."""
    two = ["0", "0,1"]
    ring = [(0, {0: (q + 1) % 6, 1: (q + 2) % 6}, ANY_OF_TWO) for q in range(6)]
    five = [(0, {0: (q + 1) % 5, 1: (q + 2) % 5}, ANY_OF_TWO) for q in range(5)]
    yield "line", keywords(*line(4, 1), domains=two), keywords(*line(4), domains=two)
    yield "sixth", keywords(*ring, domains=two), keywords(*five[:4], (0, {0: 0, 1: 1}, [(1, {0: 0})]), domains=two)
    yield "rings", keywords(*ring, domains=two), keywords(*five, domains=two)
    yield "late", keywords(*ring[:5], (1, {0: 0, 1: 1}, ANY_OF_TWO), domains=two), keywords(*five[:4], (1, {0: 0, 1: 1}, ANY_OF_TWO), domains=two)
    mixed = [(0, {0: 1, 1: 2}, ANY_OF_TWO), (0, {1: 3}, [(0, {1: 1}), (1, {1: 1})]), (0, {0: 4, 1: 0}, ANY_OF_TWO), (1, {0: 4}, ANY_NUMBER), (0, {1: 5}, [(1, {1: 0})]), (1, {}, NO_CHILD)]
    other = deepcopy(mixed)
    other[4] = (0, {1: 6}, [(1, {1: 0})])
    other.append((0, {}, NO_CHILD))
    yield "mixed", keywords(*mixed, domains=two), keywords(*other, (1, {0: 7, 1: 7}, ANY_OF_TWO), domains=two)


def in_steps():
    yield ""
    yield "# Schemas with several states: in one step, pair by pair, and by two and by three. Counts, verdict and trail are the same."
    for name, first, second in deep():
        apart, trail, count = verdict(first, second)
        yield first.named(f"{name}1")
        yield second.named(f"{name}2")
        sides = f"{name}1", f"{name}2"
        for size in (MOST_STEPS, count, 1, 2, 3):
            bench = Bench("A", 3)
            yield from bench.open()
            yield from bench.begin(0, *sides)
            for _ in range(-(-count // size)):
                yield from bench.step(*sides, size)
            yield from bench.conclude(0)
            if apart:
                yield from bench.trail(0, len(trail))
                yield from bench.give_up(0)

    yield ""
    yield "# Room for a trail: as long as it is, a byte short, none, and longer; what lies past it stays."
    for name, first, second in deep():
        apart, trail, _ = verdict(first, second)
        if not apart:
            continue
        sides = f"{name}1", f"{name}2"
        bench = Bench("A", 3)
        yield from bench.open()
        yield from bench.begin(0, *sides)
        yield from bench.step(*sides)
        yield from bench.conclude(0)
        for room in (len(trail), len(trail) - 1, 0, len(trail) + 1, len(trail) + 9):
            yield from bench.trail(0, room)
        yield from bench.give_up(0)


def large():
    yield ""
    yield "# 64 states each: symbol 0 leads on in the first alone and symbol 1 in the second alone, so that all 4,096 pairs are listed."
    first = keywords(*[(q // 63, {0: (q + 1) % 64, 1: q}, ANY_OF_TWO) for q in range(64)], domains=("0", "0,1"))
    second = keywords(*[(1, {0: q, 1: (q + 1) % 64}, ANY_OF_TWO) for q in range(64)], domains=("0", "0,1"))
    yield first.named("wide1")
    yield second.named("wide2")
    yield second.but(state_table={4 * 63: 0}).named("wide3")
    for other, sizes in (("wide2", (4096,)), ("wide2", (4095, 1)), ("wide2", (4000, 4096)), ("wide3", (4096,)), ("wide3", (4095, 4096))):
        bench = Bench("A", 2**32 - 1)
        yield from bench.open()
        yield from bench.begin(0, "wide1", other)
        for size in sizes:
            yield from bench.step("wide1", other, size)
        yield from bench.conclude(0)
        if other == "wide3":
            yield from bench.trail(0, 126)
            yield from bench.trail(0, 125)
            yield from bench.give_up(0)
    yield "# Rings of 63 and 64 states: a trail of 4,031 symbols."
    ring = keywords(*[(q // 62, {0: (q + 1) % 63}, ANY_NUMBER) for q in range(63)], domains=("0", "0,1"))
    other = keywords(*[(int(q < 63), {0: (q + 1) % 64}, ANY_NUMBER) for q in range(64)], domains=("0", "0,1"))
    yield ring.named("ring1")
    yield other.named("ring2")
    yield from compared("ring1", "ring2", (ring, other))


def sides_named():
    """Schemas with a fault each, one with another symbol count, and some whose counts differ from those of U and V."""
    yield "size", U.shorter("row_table")
    yield "state", U.but(transitions={1: 1})
    yield "row", U.but(row_table={0: 2})
    yield "domain", U.but(state_table={0: 1})
    yield "three", Draft("keywords", 3, ["0"], [(0, {}, NO_CHILD)])
    yield "more", keywords((0, {}, NO_CHILD), (0, {}, NO_CHILD))
    yield "rowed", U.but(rows=2, row_table=U.row_table * 2)
    yield "valued", U.but(domains=["0", "1"])


def phases():
    yield ""
    yield "# What each call answers in each phase. Area A has number 9; the claims in the places 0 and 1 were ousted, an apart claim and one not"
    yield "# concluded, and the holder's is in place 2. What is refused leaves the area as found, so that the calls after it find the phase."
    for phase in PHASES:
        yield f"# {phase}"
        bench = Bench("A", 9)
        yield from bench.open()
        yield from bench.to_phase("apart", 0)
        yield from bench.to_phase("running", 1)
        yield from bench.to_phase(phase, 2)
        first, second = ("U", "V") if phase == "included" else ("V", "U")
        yield begun("take", "A", 3, first, second)
        if phase == "free":
            bench.serial += 1
            yield from bench.give_up(3)
        for serial in (0, 1, 2, 4, 5, 2**32 - 1):
            yield step("A", (9, serial), first, second)
        yield from bench.conclude(1)
        yield from bench.trail(0, 3)
        yield from bench.give_up(1)
        yield from bench.give_up(0)
        if phase == "running":
            yield from bench.conclude(2)
        yield from bench.step(first, second, 1)
        yield from bench.step(first, second, 1)
        if phase in ("running", "included", "ready"):
            yield from bench.conclude(2)
        if phase in ("running", "ready", "apart"):
            yield from bench.trail(2, 1)
            yield from bench.give_up(2)
        yield from bench.begin(2, first, second)
        yield from bench.give_up(2)


def foreign():
    yield ""
    yield "# Claims and numbers of another area, in each phase: B has number 8 and the serial of A. They stay good where they belong."
    for phase in PHASES:
        yield f"# {phase}"
        a, b = Bench("A", 9), Bench("B", 8)
        yield from (*a.open(), *b.open())
        yield from b.to_phase("apart", 0, "take")
        yield from a.to_phase(phase, 2, "take")
        first, second = ("U", "V") if phase == "included" else ("V", "U")
        yield step("A", (8, 1), first, second)
        yield step("A", (0, 1), first, second)
        yield from a.trail(0, 3)
        yield from a.give_up(0)
        yield from b.trail(0, 3)
        yield from b.begin(1, "U", "V", "oust")
        yield from a.conclude(1)
        yield from a.give_up(1)
        yield from b.conclude(1)
        yield step("B", (8, 2), "U", "V")
        yield from b.conclude(1)
        yield from a.step(first, second)
        yield from a.conclude(2)
        yield from b.give_up(0)
        yield from a.give_up(2)


def ousting():
    yield ""
    yield "# Ousted in each phase: the claim before is refused and answers 0, once, and the one that holds goes on."
    for phase in PHASES:
        yield f"# {phase}"
        bench = Bench("A", 9)
        yield from bench.open()
        yield from bench.to_phase(phase, 0, "take")
        yield from bench.begin(1, "V", "U", "oust")
        yield step("A", (9, 1), "V", "U", 1)
        yield from bench.conclude(0)
        yield from bench.trail(0, 1)
        yield from bench.give_up(0)
        yield from bench.give_up(0)
        yield from bench.step("V", "U", 1)
        yield from bench.conclude(1)
        yield from bench.trail(1, 1)
        yield from bench.give_up(1)
    yield "# One after the other, none of them concluded; a claim given to a place takes the place of the one there, which is given up elsewhere."
    bench = Bench("A", 9)
    yield from bench.open()
    for place in (0, 1, 2, 3, 0, 0):
        yield from bench.begin(place, "U", "V", "oust")
    for place in (1, 2, 3):
        yield from bench.give_up(place)
    yield from bench.step("U", "V")
    yield from bench.conclude(0)


def refused():
    yield ""
    yield "# Refusals of what is handed over: the tables, the symbol counts, the counts noted, steps and scratch, each alone."
    for name, draft in sides_named():
        yield draft.named(name)
    bad = ("size", "state", "row", "domain", "three")
    a = Bench("A", 9)
    yield from a.open()
    for name in bad:
        for call in ("take", "oust"):
            yield begun(call, "A", 0, name, "U")
            yield begun(call, "A", 0, "U", name)
    yield from a.begin(0, "U", "V")
    for name in (*bad, "more"):
        yield from a.step(name, "V")
        yield from a.step("U", name)
    yield from a.step("three", "three")
    yield from a.step("more", "more")
    for steps in (0, 4097, 2**32 - 1):
        yield from a.step("U", "V", steps)
    for slots in (0, 1, 271):
        yield from a.step("U", "V", 1, slots)
    yield "# The counts of rows and of domains may be others than those noted, and the row pairs more than are needed."
    yield from a.step("rowed", "V", 1, 300)
    yield from a.conclude(0)
    yield from a.begin(0, "U", "V")
    yield from a.step("U", "valued", 4096, 272)
    yield from a.conclude(0)
    yield "# A step on a ready or apart area passes the tests first."
    yield from a.to_phase("ready", 0, "take")
    for phase in ("ready", "apart"):
        for sides in (("size", "U"), ("three", "U"), ("three", "three"), ("V", "more"), ("more", "U")):
            yield from a.step(*sides)
        yield from a.step("V", "U", 0)
        yield from a.step("V", "U", 4097)
        yield from a.step("V", "U", 1, 271)
        yield from a.step("V", "U", 1)
        yield from a.step("U", "V", 1)
        if phase == "ready":
            yield from a.conclude(0)
    yield from a.trail(0, 0)
    yield from a.give_up(0)

    yield ""
    yield "# Two refusals at once: the tables of both schemas, one test after the other, and then the symbols; and in a free area and a held one."
    held = Bench("B", 9)
    yield from (*a.open(), *held.open())
    yield from held.begin(1, "V", "U")
    for first in (*bad, "U"):
        for second in (*bad, "U"):
            if first == second and first in ("three", "U"):
                continue
            yield begun("take", "A", 0, first, second)
            yield begun("take", "B", 0, first, second)
            yield begun("oust", "B", 0, first, second)
            yield step("B", (9, 1), first, second)
    yield "# Three states with faults at each of them, in the first, in the second and in both: the place is the state of the fault that is given."
    for number, changes in enumerate(FAULTS):
        yield THREE.but(**changes).named(f"fault{number}")
    yield THREE.named("sound")
    names = ["sound"] + [f"fault{number}" for number in range(len(FAULTS))]
    for first in names:
        for second in names[1:] if first == "sound" else names:
            yield begun("take", "A", 0, first, second)
    yield "# And of a step: schemas, area number, serial, step count and row pairs, each right or wrong."
    for sides in (("V", "size"), ("V", "three"), ("V", "more"), ("V", "U")):
        for number in (9, 8):
            for serial in (1, 0):
                for steps in (1, 0, 4097):
                    for slots in (272, 271):
                        if (sides, number, serial, steps, slots) != (("V", "U"), 9, 1, 1, 272):
                            yield step("B", (number, serial), *sides, steps, slots)
    yield from held.step("V", "U", 1, 272)
    yield from held.conclude(1)
    yield "# Of trail and conclude: another area's claim that is not the holder's, and an output that is too short."
    yield from (*a.open(), *Bench("C", 4).open())
    yield from a.to_phase("apart", 0, "take")
    yield "trail C 0 0"
    yield from a.begin(2, "V", "U", "oust")
    yield from a.trail(0, 0)
    yield "trail C 0 0"
    yield "conclude C 2"
    yield "giveup C 2"
    yield from a.conclude(2)
    yield from a.step("V", "U")
    yield from a.conclude(2)
    yield "conclude A 2"

    yield ""
    yield "# Two areas of one number, which are not to be used together: a claim of the one is taken for the other's, and trail meets a phase too early."
    for phase in PHASES:
        yield f"# {phase}"
        one, two = Bench("A", 6), Bench("B", 6)
        yield from (*one.open(), *two.open())
        yield from one.to_phase("apart", 0, "take")
        yield from two.to_phase(phase, 1, "take")
        yield from two.trail(0, 0)
        yield from two.begin(1, "V", "U", "oust")
        yield from two.step("V", "U")
        yield from two.conclude(1)
        yield from one.begin(2, "V", "U", "oust")
        yield from two.conclude(2)
        yield from two.give_up(2)
        yield from two.give_up(1)
        yield from one.give_up(0)
    yield "# Too early before too little room, and a claim that is not the holder's before both."
    yield from (*one.open(), *two.open(), opened("C", 7))
    yield from one.to_phase("apart", 0, "take")
    yield from two.begin(1, "mixed1", "mixed2")
    for steps in (3, 4096):
        yield from two.step("mixed1", "mixed2", steps)
        yield from two.trail(0, 0)
    yield from two.conclude(1)
    yield from two.trail(1, 0)
    yield from two.trail(1, 3)
    yield "trail C 1 0"
    yield from two.begin(2, "mixed1", "mixed2", "oust")
    yield from two.step("mixed1", "mixed2")
    yield from two.conclude(2)
    yield from two.trail(1, 0)
    yield from two.trail(2, 2)
    yield from two.give_up(2)


def kinds():
    yield ""
    yield "# One area, and comparisons over each kind of domain, one after the other and one in the midst of the other."
    sides = {"keywords": ("V", "U"), "coverage": ("page1", "page2"), "book": ("book1", "book2")}
    yield PAGE.named("page1")
    yield PAGE.but(domains=["0", "65-90", "10"]).named("page2")
    yield BOOK.named("book1")
    yield BOOK.but(domains=["0,7 -", "- 32,65-90,97-121", "63 8364"]).named("book2")
    bench = Bench("A", 12)
    yield from bench.open()
    for kind in ("keywords", "coverage", "book", "keywords", "book", "coverage"):
        yield from bench.begin(0, *sides[kind])
        yield from bench.step(*sides[kind])
        yield from bench.conclude(0)
        yield from bench.trail(0, 3)
        yield from bench.give_up(0)
    for place, kind in enumerate(("book", "coverage", "keywords", "book")):
        yield from bench.begin(place, *sides[kind], "oust")
        yield from bench.step(*sides[kind], 1)
    yield from bench.step(*sides["coverage"])
    yield from bench.step(*sides["book"])
    for place in range(4):
        yield from bench.conclude(place)
    yield from bench.trail(3, 2)
    for place in range(4):
        yield from bench.give_up(place)
    yield "# Two schemas of two kinds are not compared: that is a type error, and can't be put in a case."
    yield "take A 0 V page2"
    yield "oust A 0 book1 U"
    yield "step A 12 1 page1 book2 1 272"


def texts():
    yield ""
    yield "# Text that says no call; a claim that is not there or not of the call's type is one that the compiler refuses."
    yield opened("A", 5)
    yield "take A 1 V U"
    for text in (
        "open",
        "open A",
        "open A x",
        "open A 4294967296",
        "open A 1 2",
        "take",
        "take A",
        "take X 0 V U",
        "take A 4 V U",
        "take A -1 V U",
        "take A 0 nobody U",
        "take A 0 V",
        "take A 0 V nobody",
        "take A 0 V U 1",
        "step A 5 1 V U 1",
        "step A 5 1 V U x 272",
        "step A 5 x V U 1 272",
        "step X 5 1 V U 1 272",
        "step A 5 1 V U 1 272 1",
        "conclude",
        "conclude A",
        "conclude A 0",
        "conclude X 1",
        "conclude A 1 1",
        "trail A 1 0",
        "trail A 0 0",
        "trail A 0",
        "giveup A 0",
        "giveup A 9",
        "giveup A 1 1",
        "give A 1",
    ):
        yield text
    yield "giveup A 1"


def near(draft, chance):
    """A draft that differs a little: an entry, an end mark or a domain."""
    other = draft
    for _ in range(chance.choice([0, 1, 1, 2])):
        name = chance.choice(["transitions", "row_table", "row_table", "state_table"])
        table = getattr(other, name)
        at = chance.randrange(len(table))
        if name == "transitions":
            other = other.but(**{name: {at: chance.choice([255, *range(other.states)])}})
        elif name == "state_table" and at % 4 == 0:
            other = other.but(**{name: {at: chance.randrange(len(other.domains))}})
        elif name == "row_table":
            low = at % (other.symbols + 1) == 0
            other = other.but(**{name: {at: int(not table[at]) if low else chance.choice([255, 0])}})
    return other


def some_pair(chance):
    """Two schemas of one kind, the second near the first or another over the same domains."""
    kind, symbols, states = chance.choice(list(KINDS)), chance.randint(1, 3), chance.randint(2, 8)
    domains = some_domains(kind, 2, chance) + ["- -" if kind == "book" else "-"]

    def draft():
        listed = []
        for state in range(states):
            nexts = {a: chance.randrange(states) for a in range(symbols) if chance.random() < 0.8}
            rows = some_rows(symbols, 2, chance) if state % 2 == 0 else [(1, {a: 0 for a in nexts})]
            listed.append((chance.choice([0, 0, 0, 1, 2]) if state else 0, nexts, rows))
        return Draft(kind, symbols, domains, listed)

    first = draft()
    return first, near(first, chance) if chance.random() < 0.9 else draft()


def trees_put(first, second, apart, chance):
    """Trees of the first schema put to both: one that tells them apart where there is one, and others."""
    sides = made(first), made(second)
    trees = [tree for tree in (grow(sides[0], 0, 5, chance) for _ in range(300)) if tree and len(tree_bytes(tree)) < 120]
    telling = [tree for tree in trees if not sides[1].accepts(0, tree)]
    assert apart or not telling
    for tree in sorted(telling, key=lambda tree: len(tree_bytes(tree)))[:1] + trees[:2]:
        yield check("one", tree_bytes(tree), depth(tree))
        yield check("two", tree_bytes(tree), depth(tree))


def at_random(chance):
    yield ""
    yield "# At random: two schemas, compared in one step and in steps of some pairs, with trees of the first put to both."
    turn = 0
    while turn < 60:
        first, second = some_pair(chance)
        try:
            apart, trail, count = verdict(first, second)
        except Trouble:
            continue
        if chance.random() < (0.99 if count < 4 else 0.9) - 0.9 * (apart and count > 2):
            continue
        turn += 1
        yield from pair(first, second)
        bench = Bench("B", turn)
        yield from bench.open()
        yield from bench.begin(0, "one", "two")
        left = count
        while left > 0:
            size = chance.choice([1, 1, 2, 5])
            yield from bench.step("one", "two", size)
            left -= size
        yield from bench.conclude(0)
        if apart:
            yield from bench.trail(0, len(trail) + chance.choice([0, 0, 2]))
        yield from trees_put(first, second, apart, chance)


# What is compared in the sessions at random: schemas by the names that they have in the cases before them.
SIDES = [("V", "U"), ("V", "U"), ("U", "V"), ("mixed1", "mixed2"), ("rings1", "rings2"), ("W", "U"), ("page1", "page2"), ("V", "three")]


class Session:
    """Two areas on a desk, so that calls at random find claims and numbers that are in use."""

    def __init__(self, drafts):
        self.desk = Desk(Shelf())
        self.desk.shelf.schemas = {name: made(draft) for name, draft in drafts.items()}
        self.calls = {"open": self.desk.open, "take": self.desk.take, "oust": self.desk.oust, "step": self.desk.step}
        self.calls |= {"conclude": self.desk.conclude, "trail": self.desk.trail, "giveup": self.desk.give_up}
        self.sides = {}

    def told(self, line):
        """The line, once the desk has done what it says."""
        try:
            call, *words = line.split()
            self.calls[call](words)
        except Trouble:
            pass
        return line

    def place(self, chance, kinds):
        """A place with a claim of one of these kinds, where there is one."""
        places = [at for at, held in enumerate(self.desk.places) if held and held[1] in kinds]
        return chance.choice(places or range(4))

    def line(self, chance):
        """A call on one of the areas: numbers and claims in use or others, and mostly the schemas that are compared there."""
        name = chance.choice("AAB")
        area = self.desk.areas[name]
        call = chance.choice(["take", "oust", "step", "step", "step", "step", "conclude", "conclude", "conclude", "trail", "trail", "giveup"])
        if call in ("take", "oust"):
            sides = chance.choice(SIDES)
            if call == "oust" or area.phase == "free":
                self.sides[name] = sides
            return begun(call, name, chance.randrange(4), *sides)
        if call == "step":
            sides = chance.choice([self.sides.get(name, SIDES[0])] * 30 + SIDES)
            claim = chance.choice([area.number] * 15 + [1, 2]), chance.choice([area.serial] * 15 + [max(area.serial - 1, 0), area.serial + 1])
            return step(name, claim, *sides, chance.choice([1, 2, 5, 4096, 4096]))
        place = self.place(chance, {"conclude": (False,), "trail": (True,), "giveup": (False, True)}[call])
        return f"{call} {name} {place}" + (f" {chance.randrange(4)}" if call == "trail" else "")


def sessions(chance):
    yield ""
    yield "# At random: calls on two areas, with four places for claims, whatever comes of them."
    drafts = {"U": U, "V": V, "W": W, "page1": PAGE, "page2": PAGE.but(domains=["0", "65-90", "10"]), "three": dict(sides_named())["three"]}
    for name, first, second in deep():
        drafts |= {f"{name}1": first, f"{name}2": second}
    for _ in range(6):
        session = Session(drafts)
        yield from (session.told(opened("A", 1)), session.told(opened("B", 2)))
        for _ in range(120):
            yield session.told(session.line(chance))


def lines(chance):
    """Every case on comparing. Some of the schemas are those of the cases before."""
    for group in (examples, thought_of, in_steps, large, phases, foreign, ousting, refused, kinds, texts):
        yield from group()
    yield from at_random(chance)
    yield from sessions(chance)
