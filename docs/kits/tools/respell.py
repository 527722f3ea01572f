#!/usr/bin/env python3
"""Brings the names that this repository defines in specs/ and proofs/ to today's spelling, over all crates, in place.

usage: python3 tools/respell.py      at the top of the repository, once, after the kit's own scripts

A definition, lemma, record, field or constructor whose words are joined by dashes gets snake case, and a type or a fact upper camel case:
`row-count` becomes `row_count`, `Runs-over` becomes `RunsOver`. `getD` inside a name becomes `get_or`, the library's word. Names of goals
and invariants, which the check makes, are left alone, and so are comments and texts in quotes. It says which new names stand for two old
ones in one file.
"""
import os
import re
import sys

WORD = re.compile(r"«?[^\s(){}\[\].;,«»\"λ→×≡∷⊎]+»?")
DEFINED = re.compile(
    r"^\s*(?:abbrev\s+|unfoldable\s+|ruleset\s+)?(?:pub\s+)?(?:record\s+|data\s+)?([^\s(){}\[\].;,«»]+)\s+(?:\([^)]*\)\s*|\{[^}]*\}\s*)*:(?:\s|$)"
)
PARTS = re.compile(r'("(?:[^"\\]|\\.)*")')


def files(top):
    for folder, dirs, names in os.walk(os.path.join(top, "crates")):
        dirs[:] = sorted(d for d in dirs if d != "out")
        for name in sorted(names):
            if name.endswith((".rt", ".antt", ".edit")):
                yield os.path.join(folder, name)


def respelled(name):
    name = name.replace("getD", "get_or")
    parts = name.split("-")
    if parts[0][:1].isupper():
        return "".join(part[:1].upper() + part[1:] for part in parts)
    return "_".join(parts)


def defined(text):
    for line in text.split("\n"):
        found = DEFINED.match(line)
        if found and not line.lstrip().startswith("--") and not re.search(r":\s*goal\.", line):
            yield found.group(1)


def turned(text, mark, names):
    """The text with the names turned, outside comments (which begin with the mark) and quoted texts."""
    lines = []
    for line in text.split("\n"):
        code, comment = line, ""
        at = re.search(r"(?:^|\s)" + re.escape(mark), line)
        if at:
            code, comment = line[: at.start()], line[at.start() :]
        pieces = PARTS.split(code)
        for i in range(0, len(pieces), 2):
            pieces[i] = WORD.sub(lambda m: names.get(m.group(0).strip("«»"), m.group(0)), pieces[i])
        lines.append("".join(pieces) + comment)
    return "\n".join(lines)


def main():
    texts = {path: open(path, encoding="utf-8").read() for path in files(".")}
    names = {}
    for path, text in texts.items():
        if path.endswith(".antt"):
            own = {}
            for name in defined(text):
                new = respelled(name)
                if own.setdefault(new, name) != name:
                    print(f"{path}: {own[new]} and {name} are both {new}")
                if new != name:
                    names[name] = new
    for path, text in texts.items():
        new = turned(text, "--" if path.endswith(".antt") else "//", names)
        if new != text:
            with open(path, "w", encoding="utf-8") as out:
                out.write(new)
    print(f"{len(names)} names")


sys.exit(main())
