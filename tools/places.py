#!/usr/bin/env python3
"""Lists places of older forms in crates/*/src, of a commit or of the files as they stand.

usage: tools/places.py [COMMIT] [-l]     counts for each form; -l lists the places too

Each count is of what a pattern finds: a reader decides which of them are places.
"""
import collections
import glob
import re
import subprocess
import sys


def sources(commit, folder):
    pattern = re.compile(r"crates/[^/]+/%s/.*\.(rt|antt)$" % folder)
    if commit is None:
        for path in sorted(glob.glob("crates/*/%s/**/*" % folder, recursive=True)):
            if pattern.match(path):
                with open(path, encoding="utf-8") as file:
                    yield path, file.read()
        return
    names = subprocess.check_output(["git", "ls-tree", "-r", "--name-only", commit, "crates"], text=True)
    for path in names.split():
        if pattern.match(path):
            yield path, subprocess.check_output(["git", "show", f"{commit}:{path}"], text=True)


def functions(text):
    """Each function with a body: its name and the lines of its body."""
    lines = text.split("\n")
    for start, line in enumerate(lines):
        found = re.match(r"( *)(?:pub(?:\(crate\))? )?(?:extern \"C\" )?fn (\w+)", line)
        if not found:
            continue
        end = start
        opened = None
        while lines[end] != found.group(1) + "}" and not lines[end].endswith("};"):
            if opened is None and (lines[end].endswith(" {") and end == start or lines[end].strip() in ("{", ") {") or re.match(r" *\) -> .* \{$", lines[end])):
                opened = end
            end += 1
        if opened is not None and lines[end] == found.group(1) + "}":
            yield found.group(2), [x.strip() for x in lines[opened + 1 : end]]


def shape(body):
    text = " ".join(line for line in body if not line.startswith(("//", "ensures", "requires")))
    text = re.sub(r"b?\"[^\"]*\"|b?'[^']*'", "L", text)
    text = re.sub(r"\b[0-9][0-9A-Za-z_]*\b", "N", text)
    kept = {"match", "if", "else", "for", "while", "loop", "return", "let", "mut", "in", "Some", "None", "Ok", "Err", "self", "true", "false"}
    return re.sub(r"\b[A-Za-z_]\w*\b", lambda m: m.group(0) if m.group(0) in kept else "x", text)


def by_pattern(files, pattern):
    return [f"{path}:{text.count(chr(10), 0, m.start()) + 1}: {m.group(0).strip()}" for path, text in files for m in re.finditer(pattern, text, re.M)]


def twins(files):
    groups = collections.defaultdict(list)
    for path, text in files:
        for name, body in functions(text):
            if len(body) >= 2 and sum(map(len, body)) >= 40:
                groups[shape(body)].append(f"{path}: {name}")
    return [" = ".join(group) for group in groups.values() if len(group) > 1]


def together(files):
    """Pairs of parameters that stand in five or more functions, and clauses that stand in three or more."""
    pairs, clauses = collections.defaultdict(set), collections.Counter()
    for path, text in files:
        for found in re.finditer(r"fn (\w+)(?:<[^>]*>+)?\((.*?)\)\s*(?:->|\n|\{|;)", text, re.S):
            given = [re.sub(r"'\w+ ", "", p.strip()) for p in re.split(r",\s*(?![^<(\[]*[>)\]])", found.group(2)) if ":" in p]
            for i, a in enumerate(given):
                for b in given[i + 1 :]:
                    pairs[(a, b)].add(path.split("/")[1] + "::" + found.group(1))
        for found in re.finditer(r"^\s*(requires|ensures)\s+(?:\w+\s+)?\{ (.*) \}$", text, re.M):
            clauses[(path.split("/")[1], found.group(1), found.group(2))] += 1
    listed = [f"{a}, {b}: {len(names)} functions" for (a, b), names in pairs.items() if len(names) >= 5]
    return listed + [f"{crate}: {word} {clause}: {n} times" for (crate, word, clause), n in clauses.items() if n >= 3]


def main():
    arguments = [a for a in sys.argv[1:] if a != "-l"]
    commit = arguments[0] if arguments else None
    files = list(sources(commit, "src"))
    proofs = list(sources(commit, "proofs"))
    found = {
        "1 enums with a value in a case": by_pattern(files, r"^pub enum \w+(<.*>)? \{(?=[^}]*[({])"),
        "1 truth values and numbers of kinds in structs": by_pattern(files, r"^    (pub(\(crate\))? )?\w+: bool,|^    (pub )?(kind|number|layer|mount): (u8|u16|Option<u8>),"),
        "1 kinds, judges and patterns as numbers in heads": by_pattern(files, r"\b(kind|judge|number): (u8|Option<u8>)(?=[,)])"),
        "2 functions of one shape": twins(files),
        "3 loops": by_pattern(files, r"^ +(while |loop \{|for [^{\n]* in )[^{\n]*"),
        "4 comparisons by parts": by_pattern(files, r"^.*\.cmp\(.*$"),
        "4 names compared in a chain": by_pattern(files, r"if (same\(|\w+ == \")[^{\n]*"),
        "4 conversions by hand": by_pattern(files, r"fn (number|from_number|kind_of|choice_of|judge_option|kind_name|letter|same|ordered|compare\w*|copy|copied)\b"),
        "5 parameters together, clauses again": together(files),
        "6 tables of a fixed size in structs": by_pattern(files, r"^    (pub(\(crate\))? )?\w+: \[\w+; \d+\],"),
        "6 ranges cut by hand": by_pattern(files, r"&(mut )?\w+(\.\w+)*\[[^\]]*\.\.[^\]]*\]"),
        "7 a function for each name": by_pattern(files, r"^ +match (call::named|choice|asked|\*self|reading_call::called)\b.*"),
    }
    for name, places in found.items():
        print(f"{len(places):4} {name}")
        if "-l" in sys.argv:
            for place in places:
                print("       " + place)
    answers = sum(len(re.findall(r"^pub [\w-]+ : goal\.", text, re.M)) for _, text in proofs)
    lines = sum(text.count("\n") for _, text in proofs)
    print(f"{answers:4} 8 answers in {len(proofs)} proof files of {lines} lines")


if __name__ == "__main__":
    main()
