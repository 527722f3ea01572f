"""Schemas in the making: tables laid out from what is meant, and then changed at will, for the cases to come."""
from copy import deepcopy

from schemas import NONE
from text import joined


class Draft:
    """A schema of a kind. A state is its domain number, its next states by symbol, and its rows, each an end mark and next rows by symbol."""

    def __init__(self, kind, symbols, domains, states):
        self.kind, self.symbols, self.domains = kind, symbols, domains
        self.states, self.rows = len(states), sum(len(rows) for _, _, rows in states)
        self.transitions, self.state_table, self.row_table = [], [], []
        first = 0
        for domain, nexts, rows in states:
            self.transitions += self.line(nexts)
            self.state_table += [domain, len(rows), first % 256, first // 256]
            for mark, steps in rows:
                self.row_table += [mark] + self.line(steps)
            first += len(rows)

    def line(self, entries):
        """One byte for each symbol."""
        return [entries.get(symbol, NONE) for symbol in range(self.symbols)]

    def but(self, **changes):
        """The same with other counts or domains, or with a table that has other bytes at some places."""
        other = deepcopy(self)
        for name, change in changes.items():
            if isinstance(change, dict):
                for place, byte in change.items():
                    getattr(other, name)[place] = byte
            else:
                setattr(other, name, change)
        return other

    def shorter(self, name):
        """The same with a byte fewer in a table."""
        return self.but(**{name: getattr(self, name)[:-1]})

    def longer(self, name, byte=NONE):
        """The same with a byte more in a table."""
        return self.but(**{name: getattr(self, name) + [byte]})

    def named(self, name):
        """The case that gives the schema a name."""
        tables = [joined(table) for table in (self.transitions, self.state_table, self.row_table)]
        counts = [self.symbols, self.states, self.rows]
        words = ["schema", name, self.kind, *counts, *tables, len(self.domains), *self.domains]
        return " ".join(str(word) for word in words)


def check(name, data, levels=8):
    """The case that checks a tree's bytes."""
    return f"check {name} {joined(data)} {levels}"


def live(name):
    """The case that asks for a schema's live states."""
    return f"live {name}"


def trim(name, permitted, lengths):
    """The case that trims a schema into outputs of these lengths."""
    return f"trim {name} {permitted} " + " ".join(str(length) for length in lengths)
