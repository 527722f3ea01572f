"""What trimming must come to, from the definitions alone: which states are kept, and the tables of the schema over the permitted symbols."""
from copy import copy

from refusals import refused
from schemas import NONE, cut
from text import Trouble, joined

# What each output is filled with before a case.
FILLING = 170


def permits(permitted, symbol):
    """Whether the number permits the symbol: its bits are read from the lowest on."""
    return permitted // 2**symbol % 2 == 1


def restricted(schema, permitted):
    """The schema as if the symbols that are not permitted had no next state."""
    other = copy(schema)
    lines = cut(schema.transitions, schema.symbols)
    other.transitions = [to if permits(permitted, a) else NONE for line in lines for a, to in enumerate(line)]
    return other


def is_live_symbol(schema, state, symbol, live):
    """Whether a sequence that the state allows leads into live states alone and holds the symbol: a search through its rows, with and without it."""
    own, nexts = schema.own(state), schema.nexts(state)
    seen, waiting = {(0, False)}, [(0, False)]
    while waiting:
        row, held = waiting.pop()
        if held and own[row][0] == 1:
            return True
        for a in range(schema.symbols):
            step = own[row][1 + a], held or a == symbol
            if nexts[a] in live and step[0] != NONE and step not in seen:
                seen.add(step)
                waiting.append(step)
    return False


def reached(schema, live):
    """State 0 and the states that live symbols lead to from it, in ascending order."""
    found, waiting = {0}, [0]
    while waiting:
        state = waiting.pop()
        for symbol in range(schema.symbols):
            to = schema.nexts(state)[symbol]
            if to in live and to not in found and is_live_symbol(schema, state, symbol, live):
                found.add(to)
                waiting.append(to)
    return sorted(found)


class Trimmed:
    """The trimmed schema's counts and tables, the kept states numbered in their order."""

    def __init__(self, schema, permitted, kept):
        self.symbols, self.states, self.rows = schema.symbols, len(kept), 0
        self.transitions, self.state_table, self.row_table = [], [], []
        numbers = {state: number for number, state in enumerate(kept)}
        for state in kept:
            goes = [to in numbers and permits(permitted, a) for a, to in enumerate(schema.nexts(state))]
            self.transitions += [numbers[to] if stays else NONE for to, stays in zip(schema.nexts(state), goes)]
            self.state_table += [*schema.about(state)[:2], self.rows % 256, self.rows // 256]
            for mark, *steps in schema.own(state):
                self.row_table += [mark] + [to if stays else NONE for to, stays in zip(steps, goes)]
                self.rows += 1

    def tables(self):
        """The three tables."""
        return self.transitions, self.state_table, self.row_table


def trimmed(schema, permitted):
    """The trimmed schema, or the refusal of the tables or `nothing`."""
    fault = schema.fault()
    if fault:
        raise Trouble(refused(*fault))
    narrow = restricted(schema, permitted)
    live = narrow.live()
    if 0 not in live:
        raise Trouble(refused(21, 0))
    return Trimmed(schema, permitted, reached(narrow, live))


def trimmed_into(schema, permitted, lengths):
    """The counts and the outputs, whole, of a trimming into outputs of these lengths; a refusal leaves them as found."""
    try:
        result = trimmed(schema, permitted)
        if any(len(table) > length for table, length in zip(result.tables(), lengths)):
            raise Trouble(refused(20, 0))
    except Trouble as trouble:
        raise Trouble(f"{trouble}; outputs as found") from None
    outputs = [table + [FILLING] * (length - len(table)) for table, length in zip(result.tables(), lengths)]
    return f"{result.states} states, {result.rows} rows; " + "; ".join(joined(output) for output in outputs)
