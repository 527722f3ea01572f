"""The cases on comparing as the test program keeps them: areas by name, and claims in their places, each with whether it is an apart claim."""
from compares import Area, told
from documents import LEVELS, document
from text import Trouble, count, end, joined, number, take
from trees import checked
from trims import FILLING

PLACES = 4

# The most bytes of a document's output that are printed one by one.
SHOWN = 512


def shown(output):
    """An output as it is printed: whole, or of a long one how many bytes it has and their hash FNV-1a."""
    if len(output) <= SHOWN:
        return joined(output)
    value = 2166136261
    for byte in output:
        value = (value ^ byte) * 16777619 % 2**32
    return f"{len(output)} bytes, hash {value}"


class Desk:
    """Areas and claims, and the schemas of a shelf."""

    def __init__(self, shelf):
        self.shelf, self.areas, self.places = shelf, {}, [None] * PLACES

    def find(self, words):
        name = take(words)
        if name not in self.areas:
            raise Trouble(f"unreadable {name}")
        return self.areas[name]

    def place(self, words):
        """The place that the next word says, with the word."""
        word = take(words)
        return number(word, word, PLACES), word

    def two(self, words):
        """Two schemas of one kind."""
        first = self.shelf.find(words)
        name = words[0] if words else None
        second = self.shelf.find(words)
        if first.kind != second.kind:
            raise Trouble(f"unreadable {name}")
        return first, second

    def open(self, words):
        name, area = take(words), Area(count(words))
        end(words)
        self.areas[name] = area
        return "opened"

    def begin(self, words, may_be_held):
        area = self.find(words)
        place, _ = self.place(words)
        two = self.two(words)
        end(words)
        claim = area.begin(*two, may_be_held)
        self.places[place] = claim, False
        return told(claim)

    def take(self, words):
        return self.begin(words, False)

    def oust(self, words):
        return self.begin(words, True)

    def step(self, words):
        area = self.find(words)
        claim = count(words), count(words)
        two = self.two(words)
        steps, slots = count(words), count(words)
        end(words)
        examined, mark = area.step(claim, *two, steps, slots)
        return f"({examined}, {mark})"

    def held(self, place, word, kinds):
        """The claim in the place, where it is of one of these kinds."""
        if self.places[place] is None or self.places[place][1] not in kinds:
            raise Trouble(f"unreadable {word}")
        return self.places[place][0]

    def conclude(self, words):
        area = self.find(words)
        place, word = self.place(words)
        end(words)
        claim = self.held(place, word, (False,))
        try:
            verdict, apart = area.conclude(claim)
        except Trouble as trouble:
            raise Trouble(f"{trouble}; {told(claim)}") from None
        self.places[place] = (claim, True) if apart else None
        return f"{verdict}; {told(claim)}" if apart else verdict

    def trail(self, words):
        area = self.find(words)
        place, word = self.place(words)
        room = count(words)
        end(words)
        claim = self.held(place, word, (True,))
        try:
            trail = area.trail(claim, room)
        except Trouble as trouble:
            raise Trouble(f"{trouble}; {told(claim)}; output as found") from None
        return f"length {len(trail)}; {joined(trail + [FILLING] * (room - len(trail)))}; {told(claim)}"

    def document(self, words):
        """The document, and whether each of the two schemas accepts it."""
        area = self.find(words)
        claim = count(words), count(words)
        two = self.two(words)
        slots, levels, room = count(words), count(words), count(words)
        end(words)
        try:
            data = document(area, claim, *two, slots, levels, room)
        except Trouble as trouble:
            raise Trouble(f"{trouble}; output as found") from None
        first, second = (checked(schema, data, LEVELS) for schema in two)
        return f"length {len(data)}; {shown(data + [FILLING] * (room - len(data)))}; first {first}, second {second}"

    def give_up(self, words):
        area = self.find(words)
        place, word = self.place(words)
        end(words)
        claim = self.held(place, word, (False, True))
        try:
            answer = area.give_up(claim)
        except Trouble as trouble:
            raise Trouble(f"{trouble}; {told(claim)}") from None
        self.places[place] = None
        return str(answer)
