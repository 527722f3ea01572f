"""Trees at random: grown along a schema so that it accepts most of them, then damaged in one place; and schemas at random to grow them on."""
from drafts import Draft, check
from schemas import NONE, Schema
from trees import tree_bytes

KINDS = {"keywords": "keywords", "coverage": "coverage", "book": ("keywords", "coverage")}


def made(draft):
    """The schema that a draft says."""
    return Schema(KINDS[draft.kind], draft.named("it").split()[3:])


def sequence(schema, state, chance):
    """Symbols that are allowed at the state, or none where no luck was had."""
    row, own, nexts, symbols = 0, schema.own(state), schema.nexts(state), []
    for _ in range(8):
        if own[row][0] == 1 and chance.random() < 0.5:
            return symbols
        ways = [a for a in range(schema.symbols) if own[row][1 + a] != NONE and nexts[a] != NONE]
        if not ways:
            break
        symbols.append(chance.choice(ways))
        row = own[row][1 + symbols[-1]]
    return symbols if own[row][0] == 1 else None


def grow(schema, state, height, chance):
    """A tree that the state accepts, or none where no luck was had."""
    values = sorted(schema.domains[schema.about(state)[0]])
    symbols = sequence(schema, state, chance)
    if not values or symbols is None or (symbols and height == 0):
        return None
    children = []
    for symbol in symbols:
        child = grow(schema, schema.nexts(state)[symbol], height - 1, chance)
        if child is None:
            return None
        children.append((symbol, child))
    return chance.choice(values), children


def wild(schema, height, chance):
    """A tree over the symbols, whatever the schema says of it."""
    values = sorted(set().union(*schema.domains)) + [chance.choice([1, 64, 127, 128, 70000, 2**32 - 1])]
    children = []
    for _ in range(chance.choice([0, 0, 1, 1, 2, 3]) if height else 0):
        children.append((chance.randrange(schema.symbols), wild(schema, height - 1, chance)))
    return chance.choice(values), children


def depth(tree):
    """How many levels a tree has."""
    return 1 + max((depth(child) for _, child in tree[1]), default=0)


def damaged(data, symbols, chance):
    """The bytes with one thing changed."""
    at = chance.randrange(len(data))
    byte = chance.choice([0, 1, 2, symbols - 1, symbols, 15, 16, 127, 128, 129, 255])
    return chance.choice([data[:at], data[:at] + data[at + 1 :], data[:at] + [byte] + data[at:], data[:at] + [byte] + data[at + 1 :], data + [byte]])


def some_trees(schema, chance):
    """Trees with their levels: grown and wild, whole and damaged."""
    trees = [grow(schema, 0, 5, chance) for _ in range(400)]
    small = [tree for tree in trees if tree and len(tree_bytes(tree)) < 200]
    chosen = sorted(small, key=lambda tree: len(tree_bytes(tree)))[-6:] + [wild(schema, 3, chance) for _ in range(3)]
    for tree in chosen:
        data, levels = tree_bytes(tree), depth(tree)
        yield data, levels + chance.choice([0, 0, 3])
        yield damaged(data, schema.symbols, chance), levels + 2
        if chance.random() < 0.3:
            yield data, levels - 1


def grown_on(name, draft, chance):
    """Trees at random on a schema."""
    yield ""
    yield f"# At random: trees on the schema {name}."
    yield draft.named(name)
    for data, levels in some_trees(made(draft), chance):
        yield check(name, data, levels)


def some_domains(kind, count, chance):
    """Small domains of a kind."""
    keywords = [",".join(str(v) for v in sorted(chance.sample(range(64), chance.choice([1, 2, 3])))) for _ in range(count)]
    letters = [f"{first}-{first + chance.choice([0, 1, 25])}" for first in (chance.choice([0, 65, 97, 8000]) for _ in range(count))]
    if kind == "book":
        return [chance.choice([f"{k} {r}", f"{k} -", f"- {r}"]) for k, r in zip(keywords, letters)]
    return keywords if kind == "keywords" else letters


def some_rows(symbols, most, chance):
    """The rows of a state, of which a few are left open."""
    count = chance.randint(1, most)
    rows = []
    for _ in range(count):
        steps = {a: chance.randrange(count) for a in range(symbols) if chance.random() < 0.6}
        rows.append((int(chance.random() < 0.6), steps))
    return rows


def some_schema(kind, symbols, states, most, count, chance):
    """A schema with sound tables. Later states have fewer ways on, so that trees come to an end."""
    listed = []
    for state in range(states):
        nexts = {a: chance.randrange(states) for a in range(symbols) if chance.random() < 0.7}
        rows = some_rows(symbols, most, chance) if state % 2 == 0 else [(1, {})]
        listed.append((chance.randrange(count), nexts, rows))
    return Draft(kind, symbols, some_domains(kind, count, chance), listed)


def full_size():
    """A schema with every count at its limit and 16 rows for each state. The odd states may end at once, and come below the even ones."""
    states = []
    for state in range(64):
        nexts = {a: (state * 5 + 2 * a + 1) % 64 for a in range(32) if (state + a) % 4}
        rows = [(int(r % 4 == 3 or state % 2 == 1), {a: (r + a) % 10 for a in range(r % 5, 32, 9)}) for r in range(16)]
        states.append((63 - state, nexts, rows))
    return Draft("keywords", 32, [f"{d},{d * 7 % 64}" for d in range(64)], states)


def spoiled(draft, chance):
    """A draft with one to three bytes of its tables changed."""
    for _ in range(chance.randint(1, 3)):
        name = chance.choice(["transitions", "state_table", "row_table"])
        table = getattr(draft, name)
        draft = draft.but(**{name: {chance.randrange(len(table)): chance.choice([0, 1, 2, 3, 5, 17, 254, 255])}})
    return draft


def at_random(chance):
    """Trees on schemas of each kind at random, on spoiled ones, and on one of full size."""
    for kind in KINDS:
        for turn in range(8):
            draft = some_schema(kind, chance.randint(1, 4), chance.randint(1, 5), 3, chance.randint(1, 3), chance)
            yield from grown_on(f"{kind}{turn}", draft, chance)
    yield ""
    yield "# At random: tables with a few bytes changed."
    for turn in range(60):
        draft = some_schema("keywords", chance.randint(1, 3), chance.randint(1, 4), 2, 2, chance)
        yield spoiled(draft, chance).named(f"spoiled{turn}")
        yield check(f"spoiled{turn}", [0, 0])
    yield from grown_on("full", full_size(), chance)
