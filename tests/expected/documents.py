"""What a document must be, from its rules: shortest sequences, samples, and the tree along the trail; and what the call answers."""
from compares import ROW_PAIRS, Side
from refusals import refused
from text import Trouble
from trees import number_bytes, tree_bytes

LEVELS = 4160
LONGEST = 65536


class Lacking(Exception):
    """The schemas have no document along the trail."""


def shortest(start, leads, is_wanted):
    """The shortest sequence that leads from the start to a wanted place, of equally short ones the first by symbols.

    All places are found, and how far each is from a wanted one; then the sequence goes, each time by the smallest symbol, to a place that is
    one symbol nearer."""
    ways, waiting = {}, [start]
    while waiting:
        place = waiting.pop()
        if place not in ways:
            ways[place] = leads(place)
            waiting += [to for _, to in ways[place]]
    left, near = {}, {place for place in ways if is_wanted(place)}
    while near:
        left |= {place: len(set(left.values())) for place in near}
        near = {place for place in ways if place not in left and any(to in left for _, to in ways[place])}
    if start not in left:
        raise Lacking
    symbols, place = [], start
    while left[place] > 0:
        symbol, place = min((a, to) for a, to in ways[place] if left.get(to) == left[place] - 1)
        symbols.append(symbol)
    return symbols


def ranks(schema):
    """The rank of each live state: the states that accept a tree of one level have rank 0, those more with one level more the next."""
    found, lower = {}, set()
    while True:
        states = {q for q in range(schema.states) if schema.domains[schema.about(q)[0]] and schema.has_sequence(q, lower)}
        if states == lower:
            return found
        rank = max(found.values(), default=-1) + 1
        found |= {q: rank for q in states - lower}
        lower = states


class Documents:
    """The documents of two sound schemas. A tree is its value and its children; a child is its symbol, its tree, and the tree's length in bytes."""

    def __init__(self, first, second):
        self.first, self.second, self.ranks, self.samples = Side(first), Side(second), ranks(first), {}

    def values_at(self, p):
        if not self.first.values[p]:
            raise Lacking
        return min(self.first.values[p])

    def rows_after(self, p, row, states):
        """The symbols that lead on from a row of p into these states, with the rows."""
        nexts = self.first.nexts[p]
        return [(a, self.first.next_row(p, row, a)) for a in self.first.symbols if nexts[a] in states and self.first.next_row(p, row, a) is not None]

    def sample_sequence(self, p):
        """Into states of lower rank alone."""
        lower = {q for q, rank in self.ranks.items() if rank < self.ranks.get(p, 0)}
        return shortest(0, lambda row: self.rows_after(p, row, lower), lambda row: self.first.may_end(p, row))

    def holding(self, p, symbol):
        """Into live states, with the symbol held."""
        return shortest(
            (0, False),
            lambda place: [(a, (to, place[1] or a == symbol)) for a, to in self.rows_after(p, place[0], self.ranks)],
            lambda place: place[1] and self.first.may_end(p, place[0]),
        )

    def refused(self, p, q):
        """Into live states, and not allowed at q. Where q has no row left, the place is -1."""

        def after(row, a):
            to = None if row == -1 else self.second.next_row(q, row, a)
            return -1 if to is None else to

        return shortest(
            (0, 0),
            lambda place: [(a, (to, after(place[1], a))) for a, to in self.rows_after(p, place[0], self.ranks)],
            lambda place: self.first.may_end(p, place[0]) and (place[1] == -1 or not self.second.may_end(q, place[1])),
        )

    def sized(self, value, children):
        """A node with the length of its bytes."""
        length = len(number_bytes(value)) + len(number_bytes(len(children)))
        return (value, children), length + sum(len(number_bytes(a)) + size for a, (_, size) in children)

    def sample(self, p):
        if p not in self.samples:
            self.samples[p] = self.sized(self.values_at(p), self.sampled(p, self.sample_sequence(p)))
        return self.samples[p]

    def sampled(self, p, symbols):
        """Children that are samples."""
        return [(a, self.sample(self.first.nexts[p][a])) for a in symbols]

    def end(self, kind, p, q):
        """The node at the end, by how the pair is broken."""
        if kind == "content":
            return self.sized(self.values_at(p), self.sampled(p, self.refused(p, q)))
        gap = self.first.values[p] - self.second.values[q]
        if not gap:
            raise Lacking
        return self.sized(min(gap), self.sampled(p, self.sample_sequence(p)))

    def along(self, kind, way):
        """The document along a way: pairs of states, each but the first with the symbol that leads to it."""
        steps = list(zip(way, way[1:]))
        for (_, p, q), (a, *pair) in steps:
            if [self.first.nexts[p][a], self.second.nexts[q][a]] != pair:
                raise Lacking
        tree = self.end(kind, *way[-1][1:])
        for (_, p, _), (a, _, _) in reversed(steps):
            symbols = self.holding(p, a)
            place = symbols.index(a)
            children = [*self.sampled(p, symbols[:place]), (a, tree), *self.sampled(p, symbols[place + 1 :])]
            tree = self.sized(self.values_at(p), children)
        return tree


def plain(sized):
    """The tree without the lengths."""
    (value, children), _ = sized
    return value, [(a, plain(child)) for a, child in children]


def way_of(area):
    """The pairs on the way to the broken pair, each with the symbol that leads to it; the first has none."""
    trail = area.pairs[area.examined - 1][2]
    on_way = [(p, q, before) for p, q, before in area.pairs[: area.examined] if before == trail[: len(before)]]
    return [(before[-1] if before else None, p, q) for p, q, before in sorted(on_way, key=lambda pair: len(pair[2]))]


def document(area, claim, first, second, slots, levels, room):
    """The bytes of the document."""
    area.test(first, second)
    area.hold(claim)
    if area.counts != (first.symbols, first.states, second.states):
        area.refuse(11)
    if area.phase != "apart":
        area.refuse(13)
    if slots < ROW_PAIRS:
        raise Trouble(refused(14, ROW_PAIRS))
    if levels < LEVELS:
        raise Trouble(refused(14, LEVELS))
    try:
        tree = Documents(first, second).along(area.verdict.removeprefix("apart, "), way_of(area))
    except Lacking:
        area.refuse(11)
    length = tree[1]
    if length > LONGEST or length > room:
        raise Trouble(refused(20, min(length, LONGEST + 1)))
    data = tree_bytes(plain(tree))
    assert len(data) == length
    return data
