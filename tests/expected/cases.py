"""Writes the cases. Those at random come from a fixed seed for each subject.

    python3 tests/expected/cases.py > crates/cases/stdin
"""
import random

import compares_cases
import documents_cases
import domains_cases
import live_cases
import trees_cases
import trim_cases


def main():
    for line in domains_cases.lines(random.Random(64)):
        print(line)
    print()
    for line in trees_cases.lines(random.Random(1024)):
        print(line)
    print()
    for line in live_cases.lines(random.Random(2)):
        print(line)
    print()
    for line in trim_cases.lines(random.Random(33)):
        print(line)
    print()
    for line in compares_cases.lines(random.Random(4096)):
        print(line)
    print()
    for line in documents_cases.lines(random.Random(4160)):
        print(line)


if __name__ == "__main__":
    main()
