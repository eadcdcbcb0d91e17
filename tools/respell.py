#!/usr/bin/env python3
"""Respells this repository's own definitions, lemmas, fields and constructors: words in snake case, as today's Rattle has them.

usage: tools/respell.py [--check] [FOLDER]

A name with a dash or a capital inside (record-words, nodeAt) gets underscores (record_words, node_at). Types and modules keep their
capitals (All-map becomes All_map). Names of src/, exported C names and strings keep their spelling. --check writes nothing and lists
names that fall together with another.
"""
import collections
import glob
import os
import re
import sys

W = r"[^\s(){}.;,@\"«»\[\]\\`|]+"
TOKEN = re.compile(r"--[^\n]*|\"(?:[^\"\\]|\\.)*\"|" + W)
HEAD = r"(?m)^\s*(?:(?:unfoldable|abbrev|pub|axiom) )*"
# Words of Rattle that a definition may not be called.
TAKEN = {"first_of": "first_true", "first-of": "first_true"}
# Names whose new spelling another name has.
APART = {"tares-used": "used_tares", "buckets-used": "used_buckets", "drop-put": "drop_put_at"}


def own(root):
    files = glob.glob(root + "/crates/*/specs/**/*.antt", recursive=True) + glob.glob(root + "/crates/*/proofs/**/*.antt", recursive=True)
    return sorted(f for f in files if "/out/" not in f)


def declared(text):
    text = re.sub(r"--[^\n]*", "", text)
    for m in re.finditer(HEAD + "(" + W + ")((?: " + W + ")*) :(?= |\n)", text):
        yield m[1]
        for w in m[2].split():
            yield w
    for m in re.finditer(HEAD + "(?:data|record) (" + W + ")", text):
        yield m[1]


def spelled(name):
    if name in TAKEN:
        return TAKEN[name]
    if name in APART:
        return APART[name]
    if not re.fullmatch(r"[A-Za-z0-9_'′₀-₉·-]+", name) or name.startswith("-") or name.endswith("-"):
        return name
    name = name.replace("getD", "get_or")
    if not name[0].isupper():
        name = re.sub(r"([a-z0-9])([A-Z])", lambda m: m[1] + "_" + m[2].lower(), name)
    return name.replace("-", "_").replace("′", "'")


def table(root):
    found = collections.Counter()
    for f in own(root):
        with open(f, encoding="utf-8") as it:
            found.update(declared(it.read()))
    return {n: spelled(n) for n in found if spelled(n) != n}


# Of a .rt file only clauses and ghost items are antt.
CLAUSE = re.compile(r"(?m)^ghost use [^;]*;|\b(?:requires|ensures|ghost|invariant)\*?(?: \w+)?:? \{|\[tactic\([^\]]*\)\]")


def turn_words(text, to):
    return TOKEN.sub(lambda m: to.get(m[0], m[0]), text)


def turn_rt(text, to):
    out, at = [], 0
    for m in CLAUSE.finditer(text):
        if m.start() < at:
            continue
        end = m.end()
        if text[end - 1] == "{" and not text[m.start():end].startswith("ghost use"):
            depth = 1
            while depth:
                depth += {"{": 1, "}": -1}.get(text[end], 0)
                end += 1
        out += [text[at:m.start()], turn_words(text[m.start():end], to)]
        at = end
    return "".join(out) + text[at:]


def main(argv):
    check = "--check" in argv
    root = next((a for a in argv if not a.startswith("--")), ".")
    to = table(root)
    if check:
        words = collections.Counter()
        for f in own(root):
            with open(f, encoding="utf-8") as it:
                words.update(set(TOKEN.findall(it.read())))
        groups = collections.defaultdict(set)
        for a, b in to.items():
            groups[b].add(a)
        for b, a in sorted(groups.items()):
            if len(a) > 1 or (b in words):
                print(b, sorted(a), words.get(b, 0))
        print(len(to), "names")
        return 0
    for f in own(root):
        with open(f, encoding="utf-8") as it:
            text = it.read()
        new = TOKEN.sub(lambda m: m[0] if m[0].startswith("--") else to.get(m[0], m[0]), text)
        # in a comment only names in backquotes
        new = re.sub(r"--[^\n]*", lambda m: re.sub(r"`([^`\n]+)`", lambda q: "`" + turn_words(q[1], to) + "`", m[0]), new)
        if new != text:
            with open(f, "w", encoding="utf-8") as it:
                it.write(new)
    for f in sorted(glob.glob(root + "/crates/*/src/**/*.rt", recursive=True)):
        with open(f, encoding="utf-8") as it:
            text = it.read()
        new = turn_rt(text, to)
        if new != text:
            with open(f, "w", encoding="utf-8") as it:
                it.write(new)
    return 0


if __name__ == "__main__":
    raise SystemExit(main(sys.argv[1:]))
