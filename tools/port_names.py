#!/usr/bin/env python3
"""Brings this repository's own definitions and lemmas to today's spelling: facts and types in upper camel case, all else in snake case.

usage: python3 tools/port_names.py [--list]      at the top, once, on what the kit's own script left

Renames what specs/*.antt and proofs/*.antt of each crate define, wherever it is named in specs/, proofs/, clauses of src/ and must-fail edits.
Functions, types and fields of src/ keep their names. With --list it prints the names, old and new, and changes nothing.
"""
import collections
import glob
import re
import sys

TOKEN = re.compile(r"[A-Za-z_](?:[A-Za-z0-9_\-']*[A-Za-z0-9_'])?")
SIGNATURE = re.compile(r"^(\s*)(?:(?:abbrev|unfoldable) )?(?:pub )?((?:[A-Za-z][A-Za-z0-9_\-']*\s+)+):\s")
TYPE = re.compile(r"^\s*(?:abbrev )?(?:pub )?(?:record|data) ([A-Za-z][A-Za-z0-9_\-']*)")

# names that would fall together with another of their crate
BY_HAND = {
    "folded-once": "folded_once_lem",
    "join-sign": "join_sign",
    "joinSign": "sign_of_join",
    "kind-by-looks": "kind_by_looks_lem",
    "word-door": "word_door_lem",
    "text-of": "text_of_lem",
}


def defined():
    tops, inner = set(), set()
    for path in glob.glob("crates/*/specs/*.antt") + glob.glob("crates/*/proofs/*.antt"):
        for line in open(path, encoding="utf-8"):
            if line.lstrip().startswith(("--", "let ")):
                continue
            found = TYPE.match(line)
            if found:
                tops.add(found.group(1))
                continue
            found = SIGNATURE.match(line)
            if found:
                (inner if found.group(1) else tops).update(found.group(2).split())
    return tops, inner


def snake(part):
    if part == "getD":
        return "get_or"
    return re.sub(r"([a-z0-9])([A-Z])", lambda m: m.group(1) + "_" + m.group(2).lower(), part)


def turned(name):
    if name in BY_HAND:
        return BY_HAND[name]
    parts = name.split("-")
    if name[0].isupper():
        return "".join(p[:1].upper() + p[1:] for p in parts)
    # a dash joins a function's name to what is said of it; plain words are joined by an underscore
    text = snake(parts[0])
    for before, part in zip(parts, parts[1:]):
        named = any(re.search("[a-z][A-Z]", p) for p in (before, part))
        text += ("-" if named else "_") + snake(part)
    return text


def renamed():
    tops, inner = defined()
    names = {n: turned(n) for n in tops | inner if turned(n) != n}
    return names, inner


def turn(text, names, inner):
    def one(m):
        word = m.group(0)
        if word not in names:
            return word
        dotted = m.start() > 0 and text[m.start() - 1] == "."
        if dotted and word not in inner and "-" in word:
            return word  # a step of a proof, named by the source
        return names[word]

    return TOKEN.sub(one, text)


def main():
    names, inner = renamed()
    falls = collections.Counter(names.values())
    for n in sorted(names):
        if falls[names[n]] > 1:
            print("falls together:", n, names[n])
    if "--list" in sys.argv:
        for n in sorted(names):
            print(n, names[n])
        return
    antt = glob.glob("crates/*/specs/*.antt") + glob.glob("crates/*/proofs/**/*.antt", recursive=True)
    code = glob.glob("crates/*/src/*.rt")
    edits = glob.glob("crates/*/must-fail/*.edit")
    for path in antt + code + edits:
        text = open(path, encoding="utf-8").read()
        # in src/ only what its own names cannot be: no plain word with dashes
        use = names if path in antt else {n: w for n, w in names.items() if re.search("[a-z][A-Z]", n) or n[0].isupper()}
        new = turn(text, use, inner)
        if new != text:
            open(path, "w", encoding="utf-8").write(new)


main()
