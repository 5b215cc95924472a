#!/usr/bin/env python3
"""Spells the definitions and lemmas of the crates in snake case: one old name and one new a line in spelling.txt.

Run once, at the top of a checkout. It turns .antt and .rt files, the texts of must-fail edits, and names between
backticks in README.md and docs/. The names of steps in an answer's record (c, w, l, g) stay, as do strings.
"""

import os
import re

HERE = os.path.dirname(os.path.abspath(__file__))
NAME = re.compile(r"(?<![\w'\-])[A-Za-z_][\w'\-]*")
STRING = re.compile(r'b?"(?:[^"\\\n]|\\.)*"')


def table():
    spelt = {}
    with open(os.path.join(HERE, "spelling.txt"), encoding="utf-8") as lines:
        for line in lines:
            old, new, *kind = line.split()
            spelt[old] = (new, bool(kind))
    return spelt


def turned(text, spelt, dashes):
    def one(match):
        name = match.group(0)
        new, field = spelt.get(name, (name, False))
        if "-" in name:
            before = text[max(0, match.start() - 2) : match.start()]
            step = re.fullmatch(r"[cwlg]\.", before) and not re.match(r"[\w'\-]", text[max(0, match.start() - 3) : match.start() - 2])
            if not dashes or (step and not field):
                return name
        return new

    return NAME.sub(one, text)


def outside_strings(text, turn):
    parts, end = [], 0
    for match in STRING.finditer(text):
        parts += [turn(text[end : match.start()]), match.group(0)]
        end = match.end()
    return "".join(parts) + turn(text[end:])


def ghost_lines(text, spelt):
    return "\n".join(outside_strings(line, lambda t: turned(t, spelt, "ghost" in line or "ensures" in line or "requires" in line)) for line in text.split("\n"))


def files():
    for top in ("crates", "docs", "README.md"):
        if os.path.isfile(top):
            yield top
        for folder, dirs, names in os.walk(top):
            dirs[:] = [d for d in dirs if d != "out"]
            for name in names:
                yield os.path.join(folder, name)


def main():
    spelt = table()
    for path in files():
        if path.endswith(".antt"):
            turn = lambda text: outside_strings(text, lambda t: turned(t, spelt, True))
        elif path.endswith(".rt"):
            turn = lambda text: ghost_lines(text, spelt)
        elif path.endswith(".edit"):
            turn = lambda text: outside_strings(text, lambda t: turned(t, spelt, False))
        elif path.endswith(".md") and not path.endswith("PORT.md"):
            turn = lambda text: re.sub(r"`[^`\n]+`", lambda m: turned(m.group(0), spelt, True), text)
        else:
            continue
        with open(path, encoding="utf-8") as file:
            text = file.read()
        new = turn(text)
        if new != text:
            with open(path, "w", encoding="utf-8") as file:
                file.write(new)


main()
