"""The cases on refusals and domains: those that were thought of, and then some at random."""
from domains import KINDS, LAST_CODE_POINT, MIDDLE

ALL = ",".join(str(value) for value in range(64))
FULL = f"0-{LAST_CODE_POINT}"
EIGHT = "1,3,5,7,9,11,13,15"
TOP = 2**32 - 1

THOUGHT_OF = f"""
# The words of the refusals, and the numbers that have none.
{chr(10).join(f"word {number}" for number in range(23))}
word {TOP}

# Ranges that touch are refused, and so are those that run backward, overlap, descend or repeat.
make -
make 65-90
make 65-90,91-95
make 65-90,92-95
make 65-90,90-95
make 65-90,70-80
make 65-90,65-90
make 97-122,65-90
make 90-65
make 65-90,97-96
make 65-90,95-92
make 0
make 0,1
make 0,2
make 0-0
make 5,5
make 10,20,19,30

# The last code point is taken, the next is not.
make {LAST_CODE_POINT}
make {LAST_CODE_POINT + 1}
make {FULL}
make 0-{LAST_CODE_POINT + 1}
make {LAST_CODE_POINT - 1},{LAST_CODE_POINT}
make {LAST_CODE_POINT - 2},{LAST_CODE_POINT}
make 0-{TOP}
make {TOP}
make 0,{TOP}
make {TOP}-0
make 0-5,{TOP}-{TOP},7

# Eight ranges are taken, nine are not, whatever else is wrong with them.
make 1,3,5,7,9,11,13
make {EIGHT}
make {EIGHT},17
make {EIGHT},17,19,21,23,25,27,29,31
make 1,3,5,4,9,11,13,15,17
make 9-1,3,5,7,9,11,13,15,{TOP}
make 1,2,3,4,5,6,7,8,9
make 1,3,5,7,9,11,13,14
make 1-2,4-5,7-8,10-11,13-14,16-17,19-20,22-{LAST_CODE_POINT}

# The first range that breaks the rule is the one that is named.
make 10,11,5,{LAST_CODE_POINT + 1}
make 10,20,30,25,40,39
make 9-8,7-6
make 10,{LAST_CODE_POINT + 1},12
make 1,3,5,7,9,11,10,{TOP}

# Keywords.
least keywords -
least keywords {ALL}
least keywords 63
least keywords 7,3
has keywords - 0
has keywords {ALL} 0
has keywords {ALL} 63
has keywords {ALL} 64
has keywords {ALL} {MIDDLE}
has keywords {ALL} {TOP}
has keywords 0 32
has keywords 32 0
has keywords 63 63
has keywords 63,63 63
gap keywords - -
gap keywords - {ALL}
gap keywords {ALL} -
gap keywords {ALL} {ALL}
gap keywords 0,63 0
gap keywords 0,3,7 0,1,2,3
gap keywords 0,1,2,3 0,3,7
gap keywords 7 0,1,2,3,4,5,6

# Coverages.
least coverage -
least coverage {FULL}
least coverage {LAST_CODE_POINT}
least coverage 65-90,97-122
least coverage {EIGHT}
has coverage - 0
has coverage {FULL} 0
has coverage {FULL} {LAST_CODE_POINT}
has coverage {FULL} {LAST_CODE_POINT + 1}
has coverage {FULL} {MIDDLE}
has coverage {FULL} {TOP}
has coverage 65-90,97-122 64
has coverage 65-90,97-122 65
has coverage 65-90,97-122 90
has coverage 65-90,97-122 91
has coverage 65-90,97-122 96
has coverage 65-90,97-122 97
has coverage 65-90,97-122 122
has coverage 65-90,97-122 123
has coverage {EIGHT} 15
has coverage {EIGHT} 14
gap coverage - -
gap coverage - {FULL}
gap coverage {FULL} -
gap coverage {FULL} {FULL}
gap coverage {FULL} 0-{LAST_CODE_POINT - 1}
gap coverage {FULL} 1-{LAST_CODE_POINT}
gap coverage {FULL} {EIGHT}
gap coverage {EIGHT} {FULL}
gap coverage 65-90 65-89
gap coverage 65-90 66-90
gap coverage 65-90 65-70,72-90
gap coverage 65-90,97-122 65-122
gap coverage 65-90,97-122 65-90
gap coverage 65-90,97-122 60-100
gap coverage 32-126 0-40,42-60,62-126
gap coverage {EIGHT} 1,3,5,7,9,11,13
gap coverage 0-10 11-20
gap coverage 11-20 0-10
gap coverage 65-90,91-95 65-90
gap coverage 65-90 65-90,91-95

# Joints: the left half answers below {MIDDLE}, the right half from there on.
gap book - 65-90 - 65-89
gap book 0,3,7 65-90 0,3 65-90
gap book 0,3,7 65-90 0,3 65-89
gap book 0,3 65-90 0,3,7 32-126
gap book - - {ALL} {FULL}
gap book {ALL} {FULL} - -
gap book {ALL} {FULL} {ALL} {FULL}
gap book {ALL} {FULL} {ALL} 0-{LAST_CODE_POINT - 1}
least book - -
least book - 0
least book - {LAST_CODE_POINT}
least book 63 0
least book {ALL} {FULL}
has book 0 65-90 0
has book 0 65-90 65
has book 0 65-90 {MIDDLE}
has book 0 65-90 {MIDDLE + 64}
has book 0 65-90 {MIDDLE + 65}
has book 0 65-90 {MIDDLE + 90}
has book 0 65-90 {MIDDLE + 91}
has book {ALL} {FULL} 63
has book {ALL} {FULL} 64
has book {ALL} {FULL} {MIDDLE - 1}
has book {ALL} {FULL} {MIDDLE}
has book {ALL} {FULL} {MIDDLE + LAST_CODE_POINT}
has book {ALL} {FULL} {MIDDLE + LAST_CODE_POINT + 1}
has book {ALL} {FULL} {TOP}
least mirror - 0
least mirror 8364 0
has mirror 65-90 0 65
has mirror 65-90 0 {MIDDLE}
has mirror 65-90 0 {MIDDLE + 65}
has mirror {FULL} {ALL} {TOP}
gap mirror 65-90 5 65-90 4
gap mirror 65-90 5 65-89 4
least twokeys - -
least twokeys - 63
least twokeys 63 -
has twokeys {ALL} {ALL} {MIDDLE + 63}
has twokeys {ALL} {ALL} {MIDDLE + 64}
has twokeys {ALL} {ALL} {TOP}
gap twokeys 0,2 0,1,2 0,2 0,1
gap twokeys - 5 5 -

# Joints of joints: what a half has from {MIDDLE} on is cut off, so an inner joint shows its left half alone.
has double 1 65-90 2 97-122 1
has double 1 65-90 2 97-122 65
has double 1 65-90 2 97-122 {MIDDLE + 2}
has double 1 65-90 2 97-122 {MIDDLE + 65}
has double 1 65-90 2 97-122 {MIDDLE + 97}
has double {ALL} {FULL} {ALL} {FULL} {TOP}
has double {ALL} {FULL} {ALL} {FULL} {MIDDLE + 63}
has double {ALL} {FULL} {ALL} {FULL} {MIDDLE + 64}
least double - 65-90 - 97-122
least double - 65-90 2 97-122
least double 1 65-90 2 97-122
least double - - - -
gap double - 65-90 - 97-122 - - - -
gap double - 65-90 2 97-122 - - - -
gap double 1 65-90 2 97-122 1 65-90 2 97-121
gap double 1 65-90 2 97-122 1 65-90 - 97-121
gap double 1,2 65-90 2 97-122 1 65-90 - 97-122
has nested 1 2 65-90 3 97-122 1
has nested 1 2 65-90 3 97-122 2
has nested 1 2 65-90 3 97-122 {MIDDLE + 2}
has nested 1 2 65-90 3 97-122 {MIDDLE + 65}
has nested 1 2 65-90 3 97-122 {MIDDLE + 97}
has nested {ALL} {ALL} {FULL} {ALL} {FULL} {MIDDLE - 1}
has nested {ALL} {ALL} {FULL} {ALL} {FULL} {TOP}
least nested - 2 65-90 3 -
least nested - 2 65-90 3 97-122
least nested 1 2 65-90 3 97-122
least nested - - - - -
gap nested - 2 65-90 3 - - - - - -
gap nested - 2 65-90 3 97-122 - - - - 97-121
gap nested 1 2 65-90 3 97-122 1 - - - 97-122
gap nested 5,9 2 65-90 3 97-122 5 2 65-90 3 97-122

# A refusal comes from the first of the words that deserves one.
has book 0 91-90 0
least book 0 {EIGHT},17
gap book 0 91-90 0 {EIGHT},17
gap mirror 5,4 0 {EIGHT},17 0
gap double 0 65-90 0 5,6 0 9-8 0 -
gap nested 0 0 1 0 1 0 0 1 0 1,3,4

# Text that says no case.
make
make 1 2
make x
make 1,,3
make 1,
make ,
make 1-2-3
make 1-
make --
make +1
make 4294967296
make 65-90,91-95 x
word
word x
word -1
word 4294967296
word 1 1
has keywords 64 0
has keywords 1,2,64 0
has keywords 0-3 0
has keywords 0
has keywords 0 0 0
has keywords 0 4294967296
least letters 0
least
least book 0
gap coverage 1
gap book 0 1 0
gap book 0 x 0 1
gap keywords 0 0 0
lack keywords 0 0
"""


def some_keywords(chance):
    """A set of keywords: most often a few, at times none or all."""
    size = chance.choice([0, 1, 2, 3, 5, 8, 30, 64])
    return sorted(chance.sample(range(64), size))


def some_ranges(chance):
    """Up to eight ranges that may stand together, close ones among them."""
    ranges, free = [], chance.choice([0, 0, 1, 60, 8000])
    for _ in range(chance.choice([0, 1, 2, 3, 5, 8])):
        first = free + chance.choice([0, 0, 1, 3, 40])
        last = first + chance.choice([0, 0, 1, 2, 25, 300])
        ranges.append([first, last])
        free = last + 2
    return ranges


def some(kind, chance):
    """The leaves of a domain, left to right."""
    if kind == "keywords":
        return [("keywords", some_keywords(chance))]
    if kind == "coverage":
        return [("coverage", some_ranges(chance))]
    return some(kind[0], chance) + some(kind[1], chance)


def near_keywords(values, chance):
    """Some of the values, and maybe one more."""
    kept = [value for value in values if chance.random() < 0.9]
    return sorted(set(kept + [chance.randrange(64)])) if chance.random() < 0.5 else kept


def near_ranges(ranges, chance):
    """The ranges with one of them left out, cut at an end or cut in two."""
    if not ranges:
        return ranges
    at = chance.randrange(len(ranges))
    first, last = ranges[at]
    middle = (first + last) // 2
    put = chance.choice([[], [[first, last]], [[first + 1, last]], [[first, last - 1]], [[first, middle - 1], [middle + 1, last]]])
    return ranges[:at] + [r for r in put if 0 <= r[0] <= r[1]] + ranges[at + 1 :]


def near(leaves, chance):
    """A domain of the same kind that differs in little, so that a gap is hard to see."""
    change = {"keywords": near_keywords, "coverage": near_ranges}
    return [(kind, change[kind](leaf, chance) if chance.random() < 0.5 else leaf) for kind, leaf in leaves]


def text(leaves):
    """The words of a domain."""
    words = []
    for kind, leaf in leaves:
        if kind == "keywords":
            shown = [str(value) for value in leaf]
        else:
            shown = [str(a) if a == b else f"{a}-{b}" for a, b in leaf]
        words.append(",".join(shown) or "-")
    return " ".join(words)


def edges(leaves):
    """Values at and beside the ends of the leaves."""
    found = [0, 63, 64, LAST_CODE_POINT]
    for kind, leaf in leaves:
        for item in leaf:
            found += [item - 1, item, item + 1] if kind == "keywords" else [item[0] - 1, item[0], item[1], item[1] + 1]
    return [value for value in found if value >= 0]


def at_random(chance):
    """A few cases of each question for each kind."""
    for name, kind in KINDS.items():
        yield ""
        yield f"# At random: {name}."
        for _ in range(8):
            leaves = some(kind, chance)
            value = chance.choice(edges(leaves)) + chance.choice([0, MIDDLE])
            yield f"has {name} {text(leaves)} {value}"
        for _ in range(4):
            yield f"least {name} {text(some(kind, chance))}"
        for _ in range(12):
            leaves = some(kind, chance)
            yield f"gap {name} {text(leaves)} {text(near(leaves, chance))}"
    yield ""
    yield "# At random: ranges that may break the rule."
    for _ in range(40):
        ranges = some_ranges(chance) + some_ranges(chance)[:1]
        if chance.random() < 0.5:
            chance.shuffle(ranges)
        yield f"make {text([('coverage', ranges)])}"


def lines(chance):
    """Every case on refusals and domains."""
    yield THOUGHT_OF.strip()
    yield from at_random(chance)
