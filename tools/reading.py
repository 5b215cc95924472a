#!/usr/bin/env python3
"""Reads lines by the rules of docs/READING.md, written anew here.

    tools/reading.py --image FILE [--judge texts|gauge|either]

It answers `readx HEX` as the program does, so that it can stand in the program's place:

    compare/run --lines 100000 --program tools/reading.py
"""
import re
import sys

import tree_image

IDENTIFIER = re.compile(r"[A-Za-z_][A-Za-z0-9_-]*\Z")
GAUGE = re.compile(r"(0|[1-9][0-9]{0,3})(?:\.([0-9]{1,3}))?\Z", re.ASCII)
SINGULAR, PLUS, STAR = 0, 1, 2


class Refused(Exception):
    """number, layer, word, figure, figure"""


# --- the tree ----------------------------------------------------------------------------------

class Parameter:
    def __init__(self, r):
        bits = r.number(2, 0, 0xFFFF)

        def field(bit, read):
            return read() if bits >> bit & 1 else None

        def u32():
            return r.number(4, 0, 0xFFFFFFFF)

        self.default = field(0, lambda: r.text(0))
        self.flag, self.multiple, self.value = (bool(bits >> bit & 1) for bit in (1, 2, 3))
        self.kind = field(4, lambda: r.number(1, 1, 2)) or SINGULAR
        self.long = field(5, lambda: r.text(1).decode())
        self.letter = field(6, lambda: chr(u32()))
        self.min, self.max = field(7, u32), field(8, u32)
        self.pattern = field(9, lambda: r.number(1, 0, 255))

    def is_option(self):
        return self.long is not None or self.letter is not None

    def is_required(self):
        return self.default is None and not self.flag and (self.kind != STAR or bool(self.min))

    def may_be_empty(self):
        return self.default is not None or self.flag or self.kind == STAR


class Tree:
    """A tree from an accepted image."""

    def __init__(self, image):
        r = tree_image.Reader(image)

        def u16():
            return r.number(2, 0, 0xFFFF)

        modules, names, recipes, patterns = u16(), u16(), u16(), u16()
        self.sizes = (modules, names, recipes, patterns)
        self.defaults = [u16() if r.number(1, 0, 1) else None for _ in range(modules)]
        self.names = {}
        for label in range(names):
            leads, module, kind, text = r.number(1, 0, 1), u16(), r.number(1, 0, 6), r.text(1).decode()
            self.names[module, kind, text] = u16() if leads else label
        self.recipes = [[Parameter(r) for _ in range(r.number(1, 1, 16) if r.number(1, 0, 1) else 0)] for _ in range(recipes)]
        self.patterns = [self.pattern(r) for _ in range(patterns)]

    @staticmethod
    def pattern(r):
        bits = r.number(1, 0, 3)
        texts = [r.text(1).decode() for _ in range(r.number(1, 1, 16))] if bits & 1 else []
        gauge = (r.number(4, 0, 0xFFFFFFFF), r.number(4, 0, 0xFFFFFFFF)) if bits & 2 else None
        return texts, gauge

    def find(self, module, text):
        for kind in range(7):
            if (module, kind, text) in self.names:
                return kind, self.names[module, kind, text]
        return None

    def has_recipes(self, module):
        return any(m == module and kind == 2 for m, kind, _ in self.names)


def on_gauge(text, gauge):
    reading = GAUGE.match(text)
    if gauge is None or reading is None:
        return False
    millimetres = int(reading[1]) * 1000 + int((reading[2] or "0").ljust(3, "0"))
    return gauge[0] <= (millimetres + 5) // 10 <= gauge[1]


# --- reading -----------------------------------------------------------------------------------

class Order:
    """One order of a line, from its first word on."""

    def __init__(self, tree, judge, words, first):
        self.tree, self.judge, self.words, self.first = tree, judge, words, first
        self.recipe, self.next = self.path()
        self.parameters = tree.recipes[self.recipe]
        self.groups = [[] for _ in self.parameters]  # texts, each with its word
        self.plain = 0
        self.read_words()
        self.check_groups()

    def path(self):
        """The recipe, and the word behind the path."""
        words, first = self.words, self.first
        colon = first < len(words) and ":" in words[first]
        if colon:
            whole = words[first]
            if first == len(words) - 1:
                whole = whole.removesuffix("::")
            names = [(piece, first) for piece in whole.split("::")]
            if not all(IDENTIFIER.match(piece) for piece, _ in names):
                raise Refused(14, 2, first, 0, 0)
        else:
            names = [(words[i], i) for i in range(first, len(words))]
        module = 0
        for place, (name, word) in enumerate(names):
            inner = colon and place < len(names) - 1
            found = self.tree.find(module, name)
            if found is None:
                raise Refused(15 if inner else 14, 2, word, 0, 0)
            kind, number = found
            if kind > 3:
                raise Refused(13 + kind, 2, word, number, 0)
            if kind > 1:
                if inner:
                    raise Refused(16, 2, word, 0, 0)
                return number, word + 1
            module = number
        return self.default(module), first + 1 if colon else len(words)

    def default(self, module):
        recipe = self.tree.defaults[module]
        if recipe is None:
            raise Refused(21 if self.tree.has_recipes(module) else 20, 2, self.first, 0, 0)
        required = sum(p.is_required() for p in self.tree.recipes[recipe])
        if required:
            raise Refused(22, 2, self.first, required, 0)
        return recipe

    def read_words(self):
        switches = any(p.is_option() for p in self.parameters)
        while self.next < len(self.words):
            word = self.words[self.next]
            if switches and word == "--":
                switches = False
                self.next += 1
            elif switches and word.startswith("-") and word != "-":
                self.read_switches(self.next)
            elif not self.read_plain(self.next):
                return

    def read_plain(self, word):
        """The n-th goes to the n-th that is no option, and the first variadic takes all further ones."""
        takers = [i for i, p in enumerate(self.parameters) if not p.is_option()]
        variadic = next((n for n, i in enumerate(takers) if self.parameters[i].kind != SINGULAR), len(takers))
        place = min(self.plain, variadic)
        if place == len(takers):
            return False
        self.groups[takers[place]].append((self.words[word], word))
        self.plain += 1
        self.next += 1
        return True

    def read_switches(self, word):
        text = self.words[word]
        long = text.startswith("--")
        name, equals, value = text[2 if long else 1:].partition("=")
        if not name:
            raise Refused(23, 3, word, 0, 0)
        self.next = word + 1
        switches = [name] if long else list(name)
        for position, switch in enumerate(switches):
            last = position == len(switches) - 1
            self.read_switch(word, position, long, switch, last, value if equals and last else None)

    def read_switch(self, word, position, long, switch, last, value):
        def refused(number):
            return Refused(number, 3, word, position, 0)

        named = [i for i, p in enumerate(self.parameters) if (p.long if long else p.letter) == switch]
        if not named:
            raise refused(24)
        p, group = self.parameters[named[0]], self.groups[named[0]]
        at = word
        if p.flag or p.value:
            if value is not None:
                raise refused(25)
            value = "true"
        elif not last:
            raise refused(26)
        elif value is None:
            at = word + 1
            if at == len(self.words):
                raise refused(27)
            value = self.words[at]
            self.next = at + 1
        if group and p.kind == SINGULAR and not p.multiple:
            raise refused(28)
        group.append((value, at))

    def check_groups(self):
        pairs = list(enumerate(zip(self.parameters, self.groups)))
        missing = [(i, p) for i, (p, group) in pairs if not group and not p.may_be_empty()]
        for i, p in missing:
            if p.is_option():
                raise Refused(29, 4, self.first, i, 0)
        if missing:
            required = sum(p.is_required() and not p.is_option() for p in self.parameters)
            raise Refused(30, 4, self.first, self.plain, required)
        for i, (p, group) in pairs:
            if group and not p.value:
                self.check_group(i, p, group)

    def check_group(self, i, p, group):
        if p.min is not None and len(group) < p.min:
            raise Refused(31, 4, self.first, i, len(group))
        if p.max is not None and len(group) > p.max:
            raise Refused(32, 4, self.first, i, len(group))
        for text, word in group:
            if p.pattern is not None and not self.accepts(p.pattern, text):
                raise Refused(33, 4, word, i, 0)

    def accepts(self, pattern, text):
        texts, gauge = self.tree.patterns[pattern]
        return self.judge != "gauge" and text in texts or self.judge != "texts" and on_gauge(text, gauge)

    def shown(self):
        groups = "".join(
            " {}:{}".format(i, ",".join(text.encode().hex() or "-" for text, _ in group))
            for i, group in enumerate(self.groups) if group)
        return f" | {self.recipe} {self.first} {self.next - self.first}{groups}"


def cut(line):
    if len(line) > 1024:
        raise Refused(10, 1, 0, 0, 0)
    if line and line[-1]:
        raise Refused(11, 1, 0, 0, 0)
    parts = line.split(b"\0")[:-1]
    if len(parts) > 128:
        raise Refused(12, 1, 0, 0, 0)
    words = []
    for i, part in enumerate(parts):
        try:
            words.append(part.decode())
        except UnicodeDecodeError:
            raise Refused(13, 1, i, 0, 0)
    return words


def read(tree, judge, line):
    try:
        words = cut(line)
        orders = [Order(tree, judge, words, 0)]
        while orders[-1].next < len(words):
            orders.append(Order(tree, judge, words, orders[-1].next))
        return f"reading {len(orders)}" + "".join(order.shown() for order in orders)
    except Refused as e:
        return "refused {} {} {} {} {}".format(*e.args)


def main():
    options = dict(zip(sys.argv[1::2], sys.argv[2::2]))
    image = open(options["--image"], "rb").read()
    judge = options.get("--judge", "either")
    answer = tree_image.check(image)
    print(answer)
    if not answer.startswith("image ok"):
        return
    tree = Tree(image)
    count = 0
    for line in sys.stdin:
        print(read(tree, judge, bytes.fromhex(line.removeprefix("readx").strip())))
        count += 1
    print(f"done: lines {count}")


if __name__ == "__main__":
    main()
