"""What the test program must print.

    python3 tests/expected/answers.py < crates/cases/stdin > crates/cases/stdout
"""
import sys

import domains
import refusals
from desks import Desk
from text import Trouble, aside, count, end, take
from trees import Shelf


def main():
    shelf = Shelf()
    desk = Desk(shelf)
    questions = {
        "word": lambda words: refusals.word(count(words)),
        "make": domains.make,
        "has": domains.has,
        "least": domains.least,
        "gap": domains.gap,
        "schema": shelf.define,
        "check": shelf.check,
        "live": shelf.live,
        "trim": shelf.trim,
        "open": desk.open,
        "take": desk.take,
        "oust": desk.oust,
        "step": desk.step,
        "conclude": desk.conclude,
        "trail": desk.trail,
        "document": desk.document,
        "giveup": desk.give_up,
    }

    def answer(line):
        words = line.split()
        question = take(words)
        if question not in questions:
            raise Trouble(f"unreadable {question}")
        result = questions[question](words)
        end(words)
        return result

    for line in sys.stdin.read().splitlines():
        if aside(line):
            print(line)
            continue
        try:
            print(f"{line} -> {answer(line)}")
        except Trouble as trouble:
            print(f"{line} -> {trouble}")


if __name__ == "__main__":
    main()
