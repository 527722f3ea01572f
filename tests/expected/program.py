"""What the program must print on the jobs in a folder.

    python3 tests/expected/program.py crates/mikadofir/data > crates/mikadofir/stdout
"""
import sys
from pathlib import Path

from compares import MOST_STEPS, ROW_PAIRS, Area, told
from documents import LEVELS as DOCUMENT_LEVELS, LONGEST, document
from domains import KINDS, MIDDLE, read
from schemas import Schema
from text import Trouble, aside, end, joined, number, parts, table, take
from trees import checked, live_states
from trims import trimmed

LEVELS = 8


def lacking(kind, words):
    """What the engine lacks: letters are the upper half of a book, and all of a coverage."""
    known = {"letters": "coverage", "keywords": "keywords", "book": "book"}
    if kind not in known:
        raise Trouble(f"unreadable {kind}")
    maker, engine = read(KINDS[known[kind]], words), read(KINDS[known[kind]], words)
    end(words)
    if maker <= engine:
        return "nothing is lacking"
    value = min(maker - engine)
    name = "letter" if kind == "letters" or value >= MIDDLE else "keyword"
    return f"the engine lacks {name} {value % MIDDLE}"


class Trees:
    """The schema in force."""

    def __init__(self):
        self.schema = None

    def line(self, kind, words):
        if kind == "schema":
            self.schema = None
            schema = Schema(KINDS["book"], words)
            end(words)
            self.schema = schema
            return "in force"
        if kind != "tree" or self.schema is None:
            raise Trouble(f"unreadable {kind}")
        data = table(words)
        end(words)
        return checked(self.schema, data, LEVELS)


def split(kind, words):
    """The live and the dead states of a schema."""
    if kind != "schema":
        raise Trouble(f"unreadable {kind}")
    schema = Schema(KINDS["book"], words)
    end(words)
    live = live_states(schema)
    dead = [state for state in range(schema.states) if state not in live]
    return f"live {joined(live)}; dead {joined(dead)}"


def reduced(kind, words):
    """A schema over the symbols that stand before it: its counts before and after, and its text."""
    if kind != "schema":
        raise Trouble(f"unreadable {kind}")
    listed = take(words)
    symbols = {number(part, listed, 32) for part in parts(listed)}
    schema = Schema(KINDS["book"], words)
    end(words)
    result = trimmed(schema, sum(2**symbol for symbol in symbols))
    tables = " ".join(joined(each) for each in result.tables())
    counts = f"{result.symbols} {result.states} {result.rows}"
    return f"states {schema.states} to {result.states}, rows {schema.rows} to {result.rows}: {counts} {tables}"


def book_schema(words):
    """The schema of the words, all of them."""
    schema = Schema(KINDS["book"], words)
    end(words)
    return schema


def answered(call, *arguments):
    """What a call answers, or the refusal."""
    try:
        return call(*arguments)
    except Trouble as trouble:
        return trouble


class Ousting:
    """The one area, the schemas in force, and the calls of a line with their answers."""

    def __init__(self):
        self.area, self.schemas, self.calls = Area(1), {"book": None, "engine": None}, []

    def line(self, kind, words):
        if kind in self.schemas:
            self.schemas[kind] = None
            self.schemas[kind] = book_schema(words)
            return "in force"
        if kind != "oust" or None in self.schemas.values():
            raise Trouble(f"unreadable {kind}")
        self.calls = ["area 1"]
        self.compare(self.schemas["book"], self.schemas["engine"], book_schema(words))
        return "\n  ".join(self.calls)

    def compare(self, book, engine, other):
        first = self.area.begin(book, engine, False)
        self.calls.append(f"take: {told(first)}")
        self.step(first, book, engine, 1)
        try:
            second = self.area.begin(book, other, True)
        except Trouble:
            self.area.give_up(first)
            raise
        self.calls.append(f"oust: {told(second)}")
        self.step(first, book, engine, 1)
        self.conclude(first, book, engine)
        self.step(second, book, other, MOST_STEPS)
        self.conclude(second, book, other)

    def step(self, claim, book, engine, steps):
        self.calls.append(f"step, {told(claim)}: {answered(self.area.step, claim, book, engine, steps, ROW_PAIRS)}")

    def document(self, claim, book, engine):
        """Asks for the document, and checks it against both schemas."""
        data = document(self.area, claim, book, engine, ROW_PAIRS, DOCUMENT_LEVELS, LONGEST)
        self.calls.append(f"document, {told(claim)}: {joined(data)}")
        for name, schema in (("book", book), ("engine", engine)):
            self.calls.append(f"check, {name}: {checked(schema, data, DOCUMENT_LEVELS)}")

    def conclude(self, claim, book, engine):
        """Concludes, asks for the trail and the document where it is apart, and gives up what is left."""
        try:
            verdict, apart = self.area.conclude(claim)
        except Trouble as trouble:
            verdict, apart = trouble, None
        self.calls.append(f"conclude, {told(claim)}: {verdict}")
        if apart:
            self.calls.append(f"trail, {told(claim)}: {joined(self.area.trail(claim, MOST_STEPS))}")
            self.document(claim, book, engine)
        if apart is not False:
            self.calls.append(f"give up, {told(claim)}: {self.area.give_up(claim)}")


def main():
    folder = Path(sys.argv[1])
    tasks = (("domains.txt", lacking), ("trees.txt", Trees().line), ("live.txt", split), ("trim.txt", reduced), ("compare.txt", Ousting().line))
    for file, task in tasks:
        print(file)
        for place, line in enumerate((folder / file).read_text().splitlines(), 1):
            if aside(line):
                continue
            words = line.split()
            try:
                kind, name = take(words), take(words)
                print(f"line {place}: {kind} {name}: {task(kind, words)}")
            except Trouble as trouble:
                print(f"line {place}: {trouble}")


if __name__ == "__main__":
    main()
