#!/usr/bin/env python3
"""Tree images by rules written anew here: a writer, a checker, and the cases that the gate replays.

    tools/tree_image.py barrier            writes the image of a barrier with patterns to standard output
    tools/tree_image.py example            prints the example tree's image, in hexadecimal digits
    tools/tree_image.py cases IN OUT       writes images (a line each) and the answers that the check must give
    tools/tree_image.py check HEX          prints the answer to one image
"""
import random
import sys


# --- writing -----------------------------------------------------------------------------------

def u16(n):
    return n.to_bytes(2, "little")


def u32(n):
    return n.to_bytes(4, "little")


def text(t):
    t = t.encode() if isinstance(t, str) else t
    return bytes([len(t)]) + t


def parameter(default=None, flag=False, multiple=False, value=False, kind=None, long=None, letter=None, min=None, max=None, pattern=None):
    fields = [(default, text), (flag or None, None), (multiple or None, None), (value or None, None), (kind, lambda k: bytes([k])), (long, text),
              (letter, lambda c: u32(c if isinstance(c, int) else ord(c))), (min, u32), (max, u32), (pattern, lambda p: bytes([p]))]
    bits = sum(1 << i for i, (v, _) in enumerate(fields) if v is not None)
    return u16(bits) + b"".join(w(v) for v, w in fields if v is not None and w)


def module(default=None):
    return b"\0" if default is None else b"\1" + u16(default)


def name(within, kind, t, number=None):
    head = bytes([0 if number is None else 1]) + u16(within) + bytes([kind]) + text(t)
    return head if number is None else head + u16(number)


def recipe(*parameters):
    return b"\1" + bytes([len(parameters)]) + b"".join(parameters) if parameters else b"\0"


def pattern(texts=None, gauge=None):
    out = bytes([(texts is not None) + 2 * (gauge is not None)])
    if texts is not None:
        out += bytes([len(texts)]) + b"".join(map(text, texts))
    if gauge is not None:
        out += u32(gauge[0]) + u32(gauge[1])
    return out


def image(modules, names, recipes, patterns):
    return b"".join(u16(len(x)) for x in (modules, names, recipes, patterns)) + b"".join(modules + names + recipes + patterns)


EXAMPLE = image(
    [module(), module()],
    [name(0, 0, "east", 1), name(0, 1, "e", 1), name(0, 2, "lower", 0), name(1, 2, "raise", 1)],
    [recipe(parameter(), parameter(long="by", letter="b"), parameter(flag=True, letter="q")), recipe(parameter(kind=1))],
    [])


# --- checking ----------------------------------------------------------------------------------

class Refused(Exception):
    pass


class Reader:
    def __init__(self, data):
        self.data, self.at = data, 0

    def take(self, n, field):
        if self.at + n > len(self.data):
            raise Refused(2, field)
        self.at += n
        return self.data[self.at - n:self.at]

    def number(self, width, low, high):
        at = self.at
        n = int.from_bytes(self.take(width, at), "little")
        if not low <= n <= high:
            raise Refused(3, at)
        return n

    def text(self, least, identifier=False):
        at = self.at
        size = self.take(1, at)[0]
        t = self.take(size, at)
        if not least <= size <= 32:
            raise Refused(3, at)
        try:
            s = t.decode("utf-8")
        except UnicodeDecodeError:
            raise Refused(4, at)
        if 0 in t or identifier and not is_identifier(s):
            raise Refused(4, at)
        return t


def is_identifier(s):
    letters = "abcdefghijklmnopqrstuvwxyzABCDEFGHIJKLMNOPQRSTUVWXYZ_"
    return s[:1] in letters and s != "" and all(c in letters + "0123456789-" for c in s)


def read_parameter(r, patterns):
    bits = r.number(2, 0, 0x3FF)
    p = {}
    if bits & 1:
        r.text(0)
    if bits & 16:
        r.number(1, 1, 2)
    if bits & 32:
        p["long"] = r.text(1)
    if bits & 64:
        at = r.at
        c = r.number(4, 0, 0x10FFFF)
        if 0xD800 <= c <= 0xDFFF:
            raise Refused(3, at)
        p["letter"] = c
    for bit in (128, 256):
        if bits & bit:
            r.number(4, 0, 0xFFFFFFFF)
    if bits & 512:
        at = r.at
        n = r.number(1, 0, 255)
        if n >= patterns:
            raise Refused(3, at)
    return p


def check(data):
    """`image ok ..`, or the refusal of the first check that fails."""
    try:
        if len(data) > 32768:
            raise Refused(1, 32768)
        r = Reader(data)
        modules, names, recipes, patterns = r.number(2, 1, 64), r.number(2, 0, 512), r.number(2, 0, 64), r.number(2, 0, 256)
        for _ in range(modules):
            if r.number(1, 0, 1):
                at = r.at
                if r.number(2, 0, 0xFFFF) >= recipes:
                    raise Refused(3, at)
        last, leads = None, []
        for _ in range(names):
            start = r.at
            bits = r.number(1, 0, 1)
            at = r.at
            within = r.number(2, 0, 0xFFFF)
            if within >= modules:
                raise Refused(3, at)
            at = r.at
            kind = r.number(1, 0, 6)
            if (kind < 4) != (bits == 1):
                raise Refused(3, at)
            t = r.text(1, identifier=True)
            if bits:
                at = r.at
                n = r.number(2, 0, 0xFFFF)
                if n >= (modules if kind < 2 else recipes) or kind == 0 and n <= within:
                    raise Refused(3, at)
                if kind == 0:
                    leads.append(n)
            if last is not None and not last < (within, kind, t):
                raise Refused(5, start)
            last = (within, kind, t)
        signatures = []
        for _ in range(recipes):
            count = r.number(1, 1, 16) if r.number(1, 0, 1) else 0
            signatures.append([read_parameter(r, patterns) for _ in range(count)])
        for _ in range(patterns):
            bits = r.number(1, 0, 3)
            if bits & 1:
                for _ in range(r.number(1, 1, 16)):
                    r.text(1)
            if bits & 2:
                low = r.number(4, 0, 0xFFFFFFFF)
                at = r.at
                if r.number(4, 0, 0xFFFFFFFF) < low:
                    raise Refused(3, at)
        if r.at < len(data):
            raise Refused(7, r.at)
        for i, ps in enumerate(signatures):
            for key in ("long", "letter"):
                seen = [p[key] for p in ps if key in p]
                if len(seen) != len(set(seen)):
                    raise Refused(8, i)
        for m in range(1, modules):
            if leads.count(m) != 1:
                raise Refused(6, m)
        return f"image ok {modules} {names} {recipes} {patterns}"
    except Refused as e:
        return "refused {} 0 0 {} 0".format(*e.args)


def known(data):
    """How many modules the register over the tables then has."""
    answer = check(data).split()
    return answer[2] if answer[0] == "image" else "0"


BARRIER = image(
    [module(), module()],
    [name(0, 0, "east", 1), name(0, 1, "e", 1), name(0, 2, "lower", 0), name(0, 4, "drain"), name(0, 6, "west"), name(1, 2, "raise", 1), name(1, 3, "up", 1)],
    [recipe(parameter(), parameter(default="10", long="by", letter="b", pattern=0), parameter(flag=True, letter="q")), recipe(parameter(kind=1, min=1, max=3))],
    [pattern(None, (0, 345)), pattern(["slow", "fast"])])


# --- cases -------------------------------------------------------------------------------------

def full():
    """An image with every table full, as large as an image can be."""
    modules = [module(i % 64) for i in range(64)]
    names = [name(i, 0, "m", i + 1) for i in range(63)]
    names += [name(63, 2 + i % 2, f"r{i:04d}", i % 64) for i in range(449)]
    names.sort(key=lambda n: (int.from_bytes(n[1:3], "little"), n[3], n[5:5 + n[4]]))
    recipes = [recipe(*[parameter(long=f"l{i}", letter=0x100 + i, min=0, max=9, pattern=i) for i in range(16)]) for _ in range(64)]
    patterns = [pattern([f"t{i}"], (i, i)) for i in range(256)]
    size = len(image(modules, names, recipes, patterns))
    for i, p in enumerate(patterns):      # longer texts until the image is full
        room = 32768 - size
        grow = min(room, 20)
        patterns[i] = pattern([f"t{i}" + "x" * grow], (i, i))
        size += grow
    return image(modules, names, recipes, patterns)


def cases():
    one = [module()]
    def names(*ns, modules=one, recipes=(recipe(),)):
        return image(list(modules), list(ns), list(recipes), [])
    def parameters(*ps, patterns=()):
        return image(one, [], [recipe(*ps)], list(patterns))
    def patterns(*ps):
        return image(one, [], [], list(ps))
    raw = lambda *parts: b"".join(parts)
    head = lambda m, n, r, p: u16(m) + u16(n) + u16(r) + u16(p)
    ok = [EXAMPLE, full(), image(one, [], [], []), names(name(0, 2, "a", 0)), names(name(0, 4, "a"), name(0, 5, "a"), name(0, 6, "a"))]
    yield from ok
    # the head: each count at its ends, and cut off
    for i in range(9):
        yield head(1, 0, 0, 0)[:i]
    for m, n, r, p in [(0, 0, 0, 0), (65, 0, 0, 0), (1, 513, 0, 0), (1, 0, 65, 0), (1, 0, 0, 257)]:
        yield head(m, n, r, p) + b"\0" * 9
    yield image([module()] * 2, [name(0, 0, "a", 1)], [], [])
    yield image([module(0)], [], [recipe()], [])
    yield image([module(1)], [], [recipe()], [])
    yield image([module(0)], [], [], [])
    yield raw(head(1, 0, 0, 0), b"\2")
    yield raw(head(1, 0, 1, 0), b"\1\0")
    # name rows
    two = [module()] * 2
    for t in ["a", "_", "Z9-", "a" * 32, "a" * 33, "", "9a", "-a", "a b", "a:", "ä", b"\xff", b"a\0"]:
        yield names(name(0, 2, t, 0))
    for kind in range(8):
        yield names(name(0, kind, "a"))
        yield names(name(0, kind, "a", 0), modules=two)
        yield names(name(0, kind, "a", 1), modules=two)
        yield names(name(0, kind, "a", 2), modules=two)
    yield names(name(1, 2, "a", 0))
    yield names(name(1, 0, "a", 1), modules=two)
    yield names(name(0, 2, "a", 0), name(0, 2, "a", 0))
    yield names(name(0, 2, "b", 0), name(0, 2, "a", 0))
    yield names(name(0, 2, "a", 0), name(0, 2, "ab", 0), name(0, 3, "a", 0))
    yield names(name(0, 3, "a", 0), name(0, 2, "a", 0))
    yield raw(head(1, 1, 1, 0), b"\0", b"\2\0\0\2\1a\0\0", b"\0")
    yield raw(head(1, 1, 1, 0), b"\0", b"\1\0\0\2\5a")
    yield raw(head(1, 1, 1, 0), b"\0", b"\1\0\0\2\1a\0")
    # modules that are named never, once, twice
    yield image(two, [], [], [])
    yield image([module()] * 3, [name(0, 0, "a", 1)], [], [])
    yield image([module()] * 3, [name(0, 0, "a", 1), name(0, 0, "b", 1), name(0, 0, "c", 2)], [], [])
    yield image([module()] * 3, [name(0, 0, "a", 1), name(1, 0, "a", 2)], [], [])
    yield image([module()] * 3, [name(0, 0, "a", 2), name(0, 1, "b", 1)], [], [])
    # recipes and parameters
    yield image(one, [], [recipe(*[parameter()] * 16)], [])
    yield raw(head(1, 0, 1, 0), b"\0", b"\1\0")
    yield raw(head(1, 0, 1, 0), b"\0", b"\1\21")
    yield raw(head(1, 0, 1, 0), b"\0", b"\2")
    yield raw(head(1, 0, 1, 0), b"\0", b"\1\1", b"\0\4")
    yield raw(head(1, 0, 1, 0), b"\0", b"\1\1", b"\0")
    for p in [dict(default=""), dict(default="x" * 32), dict(default="x" * 33), dict(default=b"\xff"), dict(default=b"\0"), dict(kind=0), dict(kind=1), dict(kind=2),
              dict(kind=3), dict(long=""), dict(long="x y"), dict(long="ß" * 16), dict(long="ß" * 17), dict(long=b"\0"), dict(long=b"\xc0\x80"), dict(letter=0),
              dict(letter=0xD7FF), dict(letter=0xD800), dict(letter=0xDFFF), dict(letter=0xE000), dict(letter=0x10FFFF), dict(letter=0x110000),
              dict(min=0xFFFFFFFF, max=0), dict(pattern=0), dict(pattern=1), dict(flag=True, multiple=True, value=True)]:
        yield parameters(parameter(**p), patterns=[pattern()])
    every = parameter(default="d", flag=True, multiple=True, value=True, kind=2, long="long", letter="l", min=1, max=2, pattern=0)
    whole = parameters(every, patterns=[pattern(["t"], (1, 2))])
    for i in range(len(whole)):
        yield whole[:i]
    # shared names
    yield parameters(parameter(long="a"), parameter(long="b", letter="a"))
    yield parameters(parameter(long="a"), parameter(), parameter(long="a"))
    yield parameters(parameter(letter="a"), parameter(letter="a"))
    yield image(one, [], [recipe(parameter(letter="x")), recipe(parameter(letter="y"), parameter(letter="y")), recipe(parameter(long="z"), parameter(long="z"))], [])
    yield image(two, [], [recipe(parameter(letter="x"), parameter(letter="x"))], [])
    # patterns
    for p in [pattern(), pattern(["a"] * 16), pattern(["a"] * 17), pattern([]), pattern([""]), pattern(["a" * 32]), pattern(["a" * 33]), pattern([b"\xff"]),
              pattern(None, (5, 5)), pattern(None, (6, 5)), pattern(["x"], (0, 0xFFFFFFFF)), b"\4"]:
        yield patterns(p)
    # bytes behind, and too many bytes
    yield EXAMPLE + b"\0"
    yield EXAMPLE + b"\0" * (32768 - len(EXAMPLE))
    yield EXAMPLE + b"\0" * (32769 - len(EXAMPLE))
    yield b"\xff" * 32769
    # the example with one byte changed, and cut at every byte
    for i in range(len(EXAMPLE)):
        yield EXAMPLE[:i]
        for change in (0, 1, 2, 0x20, 0x7F, 0xFF):
            yield EXAMPLE[:i] + bytes([change]) + EXAMPLE[i + 1:]
    # many changes at random, always the same ones
    dice = random.Random(1588)
    seeds = [EXAMPLE, whole]
    for _ in range(600):
        data = bytearray(dice.choice(seeds))
        for _ in range(dice.randrange(1, 4)):
            at = dice.randrange(len(data))
            roll = dice.randrange(3)
            if roll == 0:
                data[at] = dice.randrange(256)
            elif roll == 1:
                del data[at]
            else:
                data.insert(at, dice.randrange(4))
        yield bytes(data)


def main():
    if sys.argv[1] == "example":
        print(EXAMPLE.hex())
    elif sys.argv[1] == "barrier":
        sys.stdout.buffer.write(BARRIER)
    elif sys.argv[1] == "check":
        print(check(bytes.fromhex(sys.argv[2])))
    else:
        images = list(dict.fromkeys(cases()))
        open(sys.argv[2], "w").write("".join(i.hex() + "\n" for i in images))
        open(sys.argv[3], "w").write("".join(check(i) + " | " + known(i) + "\n" for i in images))


if __name__ == "__main__":
    main()
