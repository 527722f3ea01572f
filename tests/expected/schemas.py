"""Schemas from the definitions: their text, the test of their tables, and what a state says of a node."""
from domains import read as read_domain
from text import count, table

NONE = 255


def cut(numbers, width):
    """A table as its lines of that width."""
    return [numbers[at : at + width] for at in range(0, len(numbers), width)]


class Schema:
    """Counts, tables and domains, whether they fit together or not."""

    def __init__(self, kind, words):
        self.kind = kind
        self.symbols, self.states, self.rows = count(words), count(words), count(words)
        self.transitions, self.state_table, self.row_table = table(words), table(words), table(words)
        self.domains = [read_domain(kind, words) for _ in range(count(words))]

    def fits(self):
        """Whether counts and lengths fit."""
        counts = ((self.symbols, 32), (self.states, 64), (self.rows, 1024), (len(self.domains), 64))
        lengths = (
            (self.transitions, self.states * self.symbols),
            (self.state_table, self.states * 4),
            (self.row_table, self.rows * (self.symbols + 1)),
        )
        return all(1 <= n <= most for n, most in counts) and all(len(t) == n for t, n in lengths)

    def nexts(self, state):
        """The state's bytes of the transition table, one for each symbol."""
        return cut(self.transitions, self.symbols)[state]

    def about(self, state):
        """The state's domain number, row count and first row."""
        domain, number, low, high = cut(self.state_table, 4)[state]
        return domain, number, low + 256 * high

    def own(self, state):
        """The state's rows, as far as the table has them."""
        _, number, first = self.about(state)
        return cut(self.row_table, self.symbols + 1)[first : first + number]

    def wrong_state(self, state):
        return any(to != NONE and to >= self.states for to in self.nexts(state))

    def wrong_row(self, state):
        _, number, _ = self.about(state)
        own = self.own(state)
        if number not in range(1, 17) or len(own) < number:
            return True
        return any(row[0] not in (0, 1) or any(to != NONE and to >= number for to in row[1:]) for row in own)

    def wrong_domain(self, state):
        return self.about(state)[0] >= len(self.domains)

    def fault(self):
        """The number and the place of the first refusal of the tables, or none."""
        if not self.fits():
            return 1, 0
        for number, wrong in ((2, self.wrong_state), (3, self.wrong_row), (4, self.wrong_domain)):
            for state in range(self.states):
                if wrong(state):
                    return number, state
        return None

    def allows(self, state, sequence):
        """Whether the symbols run to a row where they may end, and each has a next state."""
        row, own = 0, self.own(state)
        for symbol in sequence:
            row = own[row][1 + symbol]
            if row == NONE or self.nexts(state)[symbol] == NONE:
                return False
        return own[row][0] == 1

    def accepts(self, state, tree):
        """Whether the state accepts the tree, a value and the list of its children with their symbols."""
        value, children = tree
        if value not in self.domains[self.about(state)[0]]:
            return False
        if not self.allows(state, [symbol for symbol, _ in children]):
            return False
        return all(self.accepts(self.nexts(state)[symbol], child) for symbol, child in children)

    def has_sequence(self, state, below):
        """Whether the state allows a sequence that leads into these states alone: a search through its rows."""
        own, nexts = self.own(state), self.nexts(state)
        symbols = [symbol for symbol in range(self.symbols) if nexts[symbol] in below]
        seen, waiting = {0}, [0]
        while waiting:
            row = waiting.pop()
            if own[row][0] == 1:
                return True
            further = {own[row][1 + symbol] for symbol in symbols} - {NONE} - seen
            seen |= further
            waiting += further
        return False

    def live(self):
        """The states that accept a tree: of no level, of at most one, of at most two, until a level more adds none."""
        lower = set()
        while True:
            states = {q for q in range(self.states) if self.domains[self.about(q)[0]] and self.has_sequence(q, lower)}
            if states == lower:
                return states
            lower = states
