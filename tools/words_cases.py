#!/usr/bin/env python3
"""Writes a script for the program and the answers that it must give, by rules written anew here.

    tools/words_cases.py SCRIPT ANSWERS

UTF-8 is judged by Python's own strict decoder, so the two sides share no code.
"""
import sys

script, answers = [], ["image ok 2 7 2 2"]
tally = {"lines": 0, "words": 0, "refusals": 0}


def cut(line):
    """The answer to the raw bytes of a line."""
    def refused(number, word=0):
        tally["refusals"] += 1
        return f"refused {number} 1 {word} 0 0"

    if len(line) > 1024:
        return refused(10)
    if line and line[-1] != 0:
        return refused(11)
    words = line.split(b"\0")[:-1]
    if len(words) > 128:
        return refused(12)
    for i, word in enumerate(words):
        try:
            word.decode("utf-8")
        except UnicodeDecodeError:
            return refused(13, i)
    tally["lines"] += 1
    tally["words"] += len(words)
    return " ".join([f"words {len(words)}"] + [w.hex() or "-" for w in words])


def note(text):
    script.extend(["", "# " + text])


def typed(*words):
    """A line of words that are typed."""
    script.append(" ".join(["words", *words]))
    answers.append(cut(b"".join(w.encode() + b"\0" for w in words)))


def raw(line):
    """A line of raw bytes."""
    script.append("wordsx " + line.hex() if line else "wordsx")
    answers.append(cut(line))


def said(call, answer):
    script.append(call)
    answers.append(answer)


note("orders as they come from the radio")
typed("lower", "3", "--by", "10")
typed("e", "raise", "1", "2")
typed("east::raise", "-1")
typed("größer", "水位", "🌊")
typed()
note("two spaces make an empty word")
typed("lower", "", "3")
typed("", "")
raw(b"")
raw(b"\0")
raw(b"lower\0003\0")

note("a line's last byte is not zero")
raw(b"lower")
raw(b"lower\0003")

note("1,024 bytes pass, 1,025 do not; this is told before all else")
raw(b"a" * 1023 + b"\0")
raw(b"a" * 1024 + b"\0")
raw(b"\xff" * 1025)
raw(b"a" * 1024)

note("128 words pass, 129 do not; this is told before bytes that are not UTF-8")
typed(*["w"] * 128)
typed(*["w"] * 129)
raw(b"\xff\0" * 129)

note("the first word that is not UTF-8 is told")
raw(b"lower\0\xff\0")
raw(b"\xc3\0\xa4\0")
raw(b"ok\0ok\0\x80\0\xff\0")

note("the first and the last of each range of the grammar, and what stands just outside")
for sequence in [
    "00", "01", "7f", "80", "bf", "c0", "c1bf", "c280", "c2bf", "c27f", "c2c0", "df80", "dfbf", "dfc0",
    "e08080", "e09fbf", "e0a080", "e0bfbf", "e0c080", "e0a07f", "e0a0c0",
    "e18080", "e17f80", "e1c080", "ecbfbf", "ecbfc0", "ed8080", "ed9fbf", "eda080", "edbfbf",
    "ee8080", "efbfbf", "efbfc0", "ef7f80",
    "f0808080", "f08fbfbf", "f0908080", "f0bfbfbf", "f0c08080", "f0907f80", "f09080c0",
    "f1808080", "f17f8080", "f3bfbfbf", "f3bfbfc0", "f3bfc080", "f4808080", "f48fbfbf", "f4908080",
    "f5808080", "ff", "fe", "f8888080", "c2", "e0a0", "e1", "f09080", "f1", "e18041", "f1808041",
]:
    raw(bytes.fromhex(sequence) + b"\0")

note("where names lead: module, kind, name")
said("find 0 0 east", "found 1")
said("find 0 1 e", "found 1")
said("find 0 2 lower", "found 0")
said("find 0 4 drain", "found 3")
said("find 0 6 west", "found 4")
said("find 1 2 raise", "found 1")
said("find 1 3 up", "found 1")
said("find 0 2 raise", "none")
said("find 0 0 eas", "none")
said("find 0 0 eastern", "none")
said("find 2 2 lower", "none")
said("find 65535 0 east", "none")
said("find 65536 0 east", "malformed: find takes a module, a kind from 0 to 6 and a name")
said("find 0 7 east", "malformed: find takes a module, a kind from 0 to 6 and a name")
said("find 0 0", "malformed: find takes a module, a kind from 0 to 6 and a name")

note("what recipes take")
said("recipe 0", "recipe 3 | singular | singular default=3130 long=6279 letter=98 pattern=0 | singular flag letter=113")
said("recipe 1", "recipe 1 | plus min=1 max=3")
said("recipe 2", "recipe 0")
said("recipe", "malformed: recipe takes a number")

note("patterns: a gauge up to 345 centimetres, and two texts")
for text in ["0", "3.45", "3.454", "0.5", "3.445", "2", "0.004"]:
    said("judge 0 " + text, "yes")
for text in ["3.455", "3.46", "4", "03", "00", "1.", ".5", "1.2345", "12345", "-1", "1,5", "", " 1", "slow"]:
    said("judge 0 " + text, "no")
for text, answer in [("slow", "yes"), ("fast", "yes"), ("faster", "no"), ("fas", "no"), ("", "no"), ("1", "no")]:
    said("judge 1 " + text, answer)
said("judge 2 slow", "no")
said("judge 255 1", "no")
said("judge 256 1", "malformed: judge takes a pattern from 0 to 255 and a text")
said("judge 0", "malformed: judge takes a pattern from 0 to 255 and a text")

note("lines that are no calls")
said("lower 3", "unknown call: help lists the calls")
said(" words", "unknown call: help lists the calls")
said("wordsx 6", "malformed: the bytes are pairs of hexadecimal digits")
said("wordsx 6g", "malformed: the bytes are pairs of hexadecimal digits")
said("wordsx  ", "malformed: the bytes are pairs of hexadecimal digits")
said("wordsx 6C6f00", cut(b"lo\0"))
said("wordsx ", cut(b""))

answers.append("done: lines {lines} words {words} refusals {refusals}".format(**tally))
open(sys.argv[1], "w").write("\n".join(script).lstrip("\n") + "\n")
open(sys.argv[2], "w").write("\n".join(answers) + "\n")
