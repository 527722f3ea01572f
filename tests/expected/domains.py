"""What the cases on domains must come to, from the definitions alone.

A domain is the set of its members, every one of them written out, so that an answer is read off the set: no rule about
where a smallest value may lie is used.
"""
from refusals import refused
from text import Trouble, count, number, parts, take

MIDDLE = 2**31
LAST_CODE_POINT = 1114111

# The kinds: a leaf by its name, a joint as the pair of its left and its right kind.
BOOK = ("keywords", "coverage")
MIRROR = ("coverage", "keywords")
TWOKEYS = ("keywords", "keywords")
KINDS = {
    "keywords": "keywords",
    "coverage": "coverage",
    "book": BOOK,
    "mirror": MIRROR,
    "twokeys": TWOKEYS,
    "double": (BOOK, BOOK),
    "nested": ((TWOKEYS, MIRROR), "coverage"),
}


def keywords(text):
    """The set of the values, each below 64."""
    return {number(part, text, 64) for part in parts(text)}


def sound(ranges):
    """Whether ranges are of code points, ascend, and leave a value out between any two."""
    ends = all(first <= last <= LAST_CODE_POINT for first, last in ranges)
    return ends and all(a[1] + 1 < b[0] for j, b in enumerate(ranges) for a in ranges[:j])


def coverage(text):
    """The set of the code points of the ranges."""
    ranges = []
    for part in parts(text):
        first, _, last = part.partition("-")
        ranges.append((number(first, text), number(last if "-" in part else first, text)))
    if len(ranges) > 8:
        raise Trouble(refused(1, 0))
    for place in range(len(ranges)):
        if not sound(ranges[: place + 1]):
            raise Trouble(refused(5, place))
    return {value for first, last in ranges for value in range(first, last + 1)}


def read(kind, words):
    """The set of the domain that the next words say."""
    if kind == "keywords":
        return keywords(take(words))
    if kind == "coverage":
        return coverage(take(words))
    left = read(kind[0], words)
    right = read(kind[1], words)
    return {v for v in left if v < MIDDLE} | {MIDDLE + v for v in right if v < MIDDLE}


def named(words, known=KINDS):
    """The kind that the next word names, where it is a known one."""
    name = take(words)
    if name not in known:
        raise Trouble(f"unreadable {name}")
    return KINDS[name]


def smallest(values):
    return str(min(values)) if values else "none"


def make(words):
    coverage(take(words))
    return "taken"


def has(words):
    domain = read(named(words), words)
    return "yes" if count(words) in domain else "no"


def least(words):
    return smallest(read(named(words), words))


def gap(words):
    kind = named(words)
    first = read(kind, words)
    return smallest(first - read(kind, words))
