"""Text as the programs read it: words, numbers in them, lists, and what is printed where there is no answer."""
import re


class Trouble(Exception):
    """What is printed in place of an answer."""


def take(words):
    """The next word."""
    if not words:
        raise Trouble("unreadable, a word is missing")
    return words.pop(0)


def end(words):
    """Nothing, where no word is left."""
    if words:
        raise Trouble(f"unreadable {words[0]}")


def number(text, whole, limit=2**32):
    """The number below the limit that a text of digits says; `whole` is the word to complain of."""
    if not re.fullmatch("[0-9]+", text) or int(text) >= limit:
        raise Trouble(f"unreadable {whole}")
    return int(text)


def count(words):
    """The number that the next word says."""
    text = take(words)
    return number(text, text)


def parts(text):
    """The parts of a list."""
    return [] if text == "-" else text.split(",")


def joined(numbers):
    """A list as text."""
    return ",".join(str(number) for number in numbers) or "-"


def table(words):
    """The bytes that the next word says."""
    text = take(words)
    return [number(part, text, 256) for part in parts(text)]


def aside(line):
    """Whether a line is there for its reader alone."""
    return not line.strip() or line.strip().startswith("#")
