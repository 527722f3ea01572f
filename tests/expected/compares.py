"""What comparing must come to, from the rules: an area with the list of its pairs, the claims on it, and what each call answers."""
from refusals import refused
from schemas import NONE
from text import Trouble

ROW_PAIRS = 272
MOST_STEPS = 4096
LAST_SERIAL = 2**32 - 1


def either_fault(first, second):
    """The first refusal of the tables of two schemas: each test goes to both before the next begins."""
    if not (first.fits() and second.fits()):
        return 1, 0
    for number, wrong in ((2, "wrong_state"), (3, "wrong_row"), (4, "wrong_domain")):
        for schema in (first, second):
            for state in range(schema.states):
                if getattr(schema, wrong)(state):
                    return number, state
    return None


class Side:
    """A sound schema, state by state: rows, next states and values."""

    def __init__(self, schema):
        states = range(schema.states)
        self.symbols = range(schema.symbols)
        self.own, self.nexts = [schema.own(q) for q in states], [schema.nexts(q) for q in states]
        self.values = [schema.domains[schema.about(q)[0]] for q in states]

    def next_row(self, state, row, symbol):
        """Where a symbol leads from a row of the state, or none where the sequence is not allowed any more."""
        to = self.own[state][row][1 + symbol]
        return None if to == NONE or self.nexts[state][symbol] == NONE else to

    def may_end(self, state, row):
        return row is not None and self.own[state][row][0] == 1

    def live_symbols(self, state, live):
        """The symbols of the sequences that the state allows and that lead into live states alone: between rows that can be reached and can end."""
        own, nexts = self.own[state], self.nexts[state]
        steps = [(r, a, row[1 + a]) for r, row in enumerate(own) for a in self.symbols if nexts[a] in live and row[1 + a] != NONE]
        reached, ending = {0}, {r for r, row in enumerate(own) if row[0] == 1}
        for _ in own:
            reached |= {to for r, _, to in steps if r in reached}
            ending |= {r for r, _, to in steps if to in ending}
        return sorted({a for r, a, to in steps if r in reached and to in ending})


def is_content_broken(first, second, p, q, live):
    """Whether a sequence that is live at p is not allowed at q: a search through the rows of both."""
    symbols = [a for a in first.symbols if first.nexts[p][a] in live]
    seen, waiting = {(0, 0)}, [(0, 0)]
    while waiting:
        r, s = waiting.pop()
        if first.may_end(p, r) and not second.may_end(q, s):
            return True
        for a in symbols:
            to = first.next_row(p, r, a)
            pair = to, None if s is None else second.next_row(q, s, a)
            if to is not None and pair not in seen:
                seen.add(pair)
                waiting.append(pair)
    return False


def kind_of(first, second, p, q, live):
    """How a pair is broken, in value before content, or none where it is not."""
    if first.values[p] - second.values[q]:
        return "value"
    return "content" if is_content_broken(first, second, p, q, live) else None


class Area:
    """A number, a serial and a phase; a ready or apart area has a verdict. The list has each pair with the trail to it."""

    def __init__(self, number):
        self.number, self.serial = number, 0
        self.free()

    def free(self):
        self.phase, self.verdict, self.counts = "free", None, None
        self.pairs, self.listed, self.examined = [], set(), 0

    def refuse(self, number):
        raise Trouble(refused(number, self.serial))

    def test(self, first, second):
        """The tests of a call that is handed two schemas, before its own."""
        fault = either_fault(first, second)
        if fault:
            raise Trouble(refused(*fault))
        if first.symbols != second.symbols:
            self.refuse(6)

    def begin(self, first, second, may_be_held):
        """Takes or ousts the area, and gives the claim."""
        self.test(first, second)
        if self.phase != "free" and not may_be_held:
            self.refuse(7)
        if self.serial == LAST_SERIAL:
            self.refuse(8)
        self.free()
        self.serial += 1
        self.counts = first.symbols, first.states, second.states
        if 0 in first.live():
            self.phase, self.pairs, self.listed = "running", [(0, 0, [])], {(0, 0)}
        else:
            self.phase, self.verdict = "ready", "included"
        return self.number, self.serial

    def hold(self, claim):
        """Refuses a claim that is not the holder's."""
        if claim[0] != self.number:
            self.refuse(9)
        if self.phase == "free" or claim[1] != self.serial:
            self.refuse(10)

    def step(self, claim, first, second, steps, slots):
        """The pairs examined, and 1 where the verdict stands, else 0."""
        self.test(first, second)
        self.hold(claim)
        if self.counts != (first.symbols, first.states, second.states):
            self.refuse(11)
        if not 1 <= steps <= MOST_STEPS:
            self.refuse(12)
        if slots < ROW_PAIRS:
            raise Trouble(refused(14, ROW_PAIRS))
        before, live, sides = self.examined, first.live(), (Side(first), Side(second))
        while self.phase == "running" and self.examined - before < steps:
            self.examine(*sides, live)
        return self.examined - before, int(self.phase != "running")

    def examine(self, first, second, live):
        """Examines the next pair."""
        p, q, trail = self.pairs[self.examined]
        self.examined += 1
        kind = kind_of(first, second, p, q, live)
        if kind:
            self.phase, self.verdict = "ready", f"apart, {kind}"
            return
        for a in first.live_symbols(p, live):
            pair = first.nexts[p][a], second.nexts[q][a]
            if pair not in self.listed:
                self.listed.add(pair)
                self.pairs.append((*pair, trail + [a]))
        if self.examined == len(self.pairs):
            self.phase, self.verdict = "ready", "included"

    def conclude(self, claim):
        """The verdict, as it is printed; whether the claim is an apart claim after it."""
        self.hold(claim)
        if self.phase != "ready":
            self.refuse(13)
        verdict = f"{self.verdict}, pairs {self.examined}"
        apart = self.verdict != "included"
        if apart:
            self.phase = "apart"
        else:
            self.free()
        return verdict, apart

    def trail(self, claim, room):
        """The symbols that lead to the broken pair."""
        self.hold(claim)
        if self.phase != "apart":
            self.refuse(13)
        trail = self.pairs[self.examined - 1][2]
        if room < len(trail):
            raise Trouble(refused(20, len(trail)))
        return trail

    def give_up(self, claim):
        """1 from the holder, and 0 from any other claim of the area."""
        if claim[0] != self.number:
            self.refuse(9)
        held = self.phase != "free" and claim[1] == self.serial
        if held:
            self.free()
        return int(held)


def told(claim):
    """A claim as it is printed."""
    return f"claim ({claim[0]}, {claim[1]})"
