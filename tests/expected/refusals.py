"""The refusals by number: their words, their layers and how one is printed."""

WORDS = (
    "size state row domain range symbols "
    "busy worn foreign ousted schemas steps early scratch "
    "short number symbol deep rest room nothing"
).split()

AREA = set("busy worn foreign ousted schemas steps early scratch".split())
BYTES = set("short number symbol deep rest room".split())


def word(number):
    """The word of a number, and what is printed where it has none."""
    return WORDS[number - 1] if 1 <= number <= len(WORDS) else "no letters"


def layer(number):
    """The layer that a refusal lies in."""
    name = word(number)
    return "area" if name in AREA else "bytes" if name in BYTES else "tables"


def refused(number, place):
    """A refusal as it is printed."""
    return f"refused {number} {word(number)}, {layer(number)}, place {place}"
