"""What the cases on trees must come to, from the definitions alone: the tree is read whole, and then asked about."""
import sys

from domains import named
from refusals import refused
from schemas import Schema
from text import Trouble, count, end, joined, table, take
from trims import trimmed_into

# A tree is as deep as the cases make it, and each level of it is a call here.
sys.setrecursionlimit(100000)


class Reading:
    """One input on its way, with the number of symbols that there are."""

    def __init__(self, data, symbols):
        self.data, self.symbols, self.place = data, symbols, 0

    def number(self):
        """The number at the place: its groups, the lowest first, up to the first without the top bit."""
        first, groups = self.place, []
        while True:
            if self.place == len(self.data):
                raise Trouble(refused(15, len(self.data)))
            groups.append(self.data[self.place])
            self.place += 1
            if len(groups) == 5 and groups[-1] > 15:
                raise Trouble(refused(16, first))
            if groups[-1] < 128:
                break
        if len(groups) > 1 and groups[-1] == 0:
            raise Trouble(refused(16, first))
        return sum(group % 128 * 128**index for index, group in enumerate(groups))

    def symbol(self):
        """A number that is one of the symbols."""
        first = self.place
        symbol = self.number()
        if symbol >= self.symbols:
            raise Trouble(refused(17, first))
        return symbol

    def tree(self, levels):
        """The tree at the place, with that many levels for it."""
        if levels == 0:
            raise Trouble(refused(18, self.place))
        value, children = self.number(), []
        for _ in range(self.number()):
            symbol = self.symbol()
            children.append((symbol, self.tree(levels - 1)))
        return value, children

    def whole(self, levels):
        """The tree that is all of the input."""
        tree = self.tree(levels)
        if self.place < len(self.data):
            raise Trouble(refused(19, self.place))
        return tree


def number_bytes(value):
    """A number in groups of seven bits."""
    return [value] if value < 128 else [value % 128 + 128] + number_bytes(value // 128)


def tree_bytes(tree):
    """A tree as bytes."""
    value, children = tree
    written = number_bytes(value) + number_bytes(len(children))
    for symbol, child in children:
        written += number_bytes(symbol) + tree_bytes(child)
    return written


def checked(schema, data, levels):
    """Whether the schema accepts the tree of these bytes."""
    fault = schema.fault()
    if fault:
        raise Trouble(refused(*fault))
    tree = Reading(data, schema.symbols).whole(levels)
    return "yes" if schema.accepts(0, tree) else "no"


def live_states(schema):
    """The schema's live states, in order."""
    fault = schema.fault()
    if fault:
        raise Trouble(refused(*fault))
    return sorted(schema.live())


class Shelf:
    """The schemas defined so far, by name."""

    def __init__(self):
        self.schemas = {}

    def define(self, words):
        name = take(words)
        kind = named(words, ("keywords", "coverage", "book"))
        schema = Schema(kind, words)
        end(words)
        self.schemas[name] = schema
        return "read"

    def find(self, words):
        name = take(words)
        if name not in self.schemas:
            raise Trouble(f"unreadable {name}")
        return self.schemas[name]

    def check(self, words):
        schema = self.find(words)
        data, levels = table(words), count(words)
        end(words)
        return checked(schema, data, levels)

    def live(self, words):
        schema = self.find(words)
        end(words)
        states = live_states(schema)
        return f"states {joined(states)}" if states else "no states"

    def trim(self, words):
        schema = self.find(words)
        permitted, lengths = count(words), [count(words) for _ in range(3)]
        end(words)
        return trimmed_into(schema, permitted, lengths)
