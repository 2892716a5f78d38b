#!/usr/bin/env python3
"""Brings the repository's own definitions and lemmas to one spelling: snake case, and types in camel case.

usage: python3 tools/respell.py [--dry]   at the top of the repository

A name is the repository's own if it is declared in a file right in specs/ or proofs/ of a crate, in an answer file under a name that is no
goal's, or brought in under another name. Only whole names are turned, in .antt files and in the contracts of .rt files; a name that a file imports from the
toolchain stays there. With --dry it only prints what it would turn and which names would fall together.
"""
import collections
import os
import re
import sys

TYPES = {"master-alike": "MasterAlike", "pipe-alike": "PipeAlike", "compact-alike": "CompactAlike"}
# an acronym is a word
WORDS = {"pipe-CTS": "pipe_cts", "compact-CTS": "compact_cts", "CPS": "cps"}
# a type whose old name is a plain word elsewhere, by the folder of its crate
THERE = {"crates/foreign/": {"any": "Any"}}
# definitions beside a function of the same name
APART = {name: name.replace("-", "_") + "_lem" for name in ("beside-density", "elastic-falling", "elastic-rising", "half-gap", "near-one", "next-term", "over-density")} | {"in-range": "expansive_lem"}
TOKEN = re.compile(r"[^\s(){}\[\].,;:\"|«»]+")
HEAD = re.compile(r"^\s*(?:(?:pattern|abbrev|unfoldable|pub)\s+)*([^\s:(){}]+)\s*(?:\{[^}]*\}\s*)?:(?!=)")
DATA = re.compile(r"^\s*(?:pub\s+)?(?:record|data)\s+(?:pub\s+)?([^\s:(){}]+)")


def files(*ends):
    for folder, dirs, names in os.walk("crates"):
        dirs[:] = sorted(d for d in dirs if d != "out")
        for name in sorted(names):
            if name.endswith(ends):
                yield os.path.join(folder, name)


def read(path):
    with open(path, encoding="utf-8") as f:
        return f.read()


def own():
    found = collections.defaultdict(set)
    for path in files(".antt"):
        parts = path.split("/")
        answers = parts[2] == "proofs" and len(parts) > 4
        for line in read(path).splitlines():
            if answers and re.search(r":\s*(goal|need)\.", line):
                continue
            for pattern in (HEAD, DATA):
                m = pattern.match(line)
                if m:
                    found[m.group(1)].add(path)
    for path in files(".antt", ".rt"):
        for m in re.finditer(r"use Rattle\.(?!std\.)\w+\.(?:specs|proofs)[^{\n]*\{([^}]*)\}", read(path)):
            for item in m.group(1).split(","):
                if " as " in item:
                    found[item.split(" as ")[1].strip()].add(path)
    return found


def turned(name):
    for known in (TYPES, WORDS, APART):
        if name in known:
            return known[name]
    return name.replace("-", "_").replace("′", "'")


def foreign(text):
    """The names that a file imports from the toolchain."""
    out = set()
    for m in re.finditer(r"use (?:Rattle\.std|borrow|lib|native|mathlib|Prim)\.[^{\n]*\{([^}]*)\}", text):
        out |= {w.split(" as ")[0].strip() for w in m.group(1).split(",")}
    return out


def turn(path, names):
    text = read(path)
    skip = foreign(text)
    for folder, more in THERE.items():
        if path.startswith(folder):
            names = names | more
    lines = []
    for line in text.splitlines(keepends=True):
        if re.match(r"\s*(--|//)", line):
            line = re.sub(r"`([^`]*)`", lambda m: "`" + names.get(m.group(1), m.group(1)) + "`", line)
        elif not (path.endswith(".rt") and '"' in line):
            line = TOKEN.sub(lambda m: m.group(0) if m.group(0) in skip else names.get(m.group(0), m.group(0)), line)
        lines.append(line)
    return text, "".join(lines)


def main():
    names = {}
    found = own()
    for name in found:
        if turned(name) != name:
            names[name] = turned(name)
    # names that fall together
    by = collections.defaultdict(set)
    for name in found:
        by[turned(name)].add(name)
    for new, olds in sorted(by.items()):
        if len(olds) > 1:
            print("together:", new, sorted(olds))
    functions = collections.defaultdict(set)
    for path in files(".rt"):
        for m in re.finditer(r"\bfn (\w+)", read(path)):
            functions[m.group(1)].add(path)
    for path in files(".rt", ".antt"):
        text = read(path)
        words = set(TOKEN.findall(text))
        for w in sorted(words & set(names)):
            if names[w] in words and w not in foreign(text):
                print("beside:", path, w, names[w])
    for old, new in sorted(names.items()):
        if new in functions:
            print("function:", old, new, sorted(functions[new]), sorted(found[old]))
    if "--dry" in sys.argv:
        print(len(names), "names")
        return
    n = 0
    for path in files(".rt", ".antt"):
        old, new = turn(path, names)
        if old != new:
            n += 1
            with open(path, "w", encoding="utf-8") as f:
                f.write(new)
    print(len(names), "names in", n, "files")


main()
