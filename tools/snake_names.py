#!/usr/bin/env python3
"""Spells this repository's own definitions and lemmas in snake case, once, after the port's own scripts have run.

usage: tools/snake_names.py        at the top of the repository

It takes every name that a file of specs/ or proofs/ declares (a definition, a constructor, a field or a lemma) and that has a dash or
a capital inside, and turns it in every .antt file and in every clause, ghost item and comment of a .rt file.
The labels that Rattle makes stay: what stands first behind c., g., goal., l. or w. in a function's proof files, and what such a
file declares at a type goal.X. Names of types and modules, which begin with a capital, have words in camel case with no dash.
Two of our names that would fall together are listed, and nothing is written.
"""

import os
import re
import sys

WORD = re.compile(r'[^\s(){}.;,@"«»]+')
DECLARED = re.compile(r"(?m)^ *(?:(?:pub|abbrev|unfoldable|opaque|data|record|irreducible|instance) +)*([^\s(){}.;,@\"«»]+)(?= *(?:[({][^\n]*)? :)")
CONSTRUCTED = re.compile(r"\{-.*?-\}|--[^\n]*", re.S)
MADE_AT = re.compile(r"(?m)^ *(?:abbrev +)?(?:pub +)?(\S+) : goal\.")
CLAUSE = re.compile(r"(?:requires|ensures)\s*\*?\s*(?:\w+\s*)?\{|ghost\s*(?:\w+\s*(?::\s*(?:(?:owns|lends)\s*)?|=\s*))?\{")
GHOST_USE = re.compile(r"ghost\s+use\b[^;]*;")
COMMENT = re.compile(r"//[^\n]*")
HEADS = {"c", "g", "goal", "l", "w"}
PROOF = re.compile(r"/proofs/.+/(Answers|Invariants|Choices|Proof)\.antt$")


def files():
    for folder, dirs, names in os.walk("crates"):
        dirs[:] = sorted(d for d in dirs if d != "out")
        for n in sorted(names):
            yield os.path.join(folder, n)


def snake(name):
    if name[0].isupper():
        return "".join(w[:1].upper() + w[1:] for w in name.split("-"))
    name = re.sub(r"(?<=[a-z0-9])[A-Z]", lambda m: "_" + m[0].lower(), name)
    return name.replace("-", "_")


def closing(text, i):
    deep = 1
    for k in range(i, len(text)):
        deep += (text[k] == "{") - (text[k] == "}")
        if not deep:
            return k
    return len(text)


def turned(text, table, proof):
    """The text with the names of the table turned, but for the labels that Rattle makes."""
    made = set(MADE_AT.findall(text)) if proof else set()
    out, at = [], 0
    for m in WORD.finditer(text):
        word, start = m[0], m.start()
        new = table.get(word, word)
        if proof and word != new:
            if word in made:
                new = word
            elif text[start - 1 : start] == ".":
                before = re.search(r'[^\s(){};,@"«»]*$', text[:start])[0]
                steps = before.split(".")[:-1]
                if steps and re.fullmatch(r"(?:c|g|goal|l|w)[0-9']*", steps[0]) and len(steps) == 1:
                    new = word
        out += [text[at:start], new]
        at = m.end()
    return "".join(out + [text[at:]])


def in_rust(text, table):
    out, at = [], 0
    while at < len(text):
        found = [m for m in (p.search(text, at) for p in (COMMENT, GHOST_USE, CLAUSE)) if m]
        if not found:
            break
        m = min(found, key=lambda it: (it.start(), -it.end()))
        end = m.end() if m.re is not CLAUSE else closing(text, m.end())
        out += [text[at : m.start()], turned(text[m.start() : end], table, False)]
        at = end
    return "".join(out + [text[at:]])


def main():
    declared = {}
    texts = {}
    for f in files():
        if f.endswith((".antt", ".rt")):
            with open(f, encoding="utf-8") as it:
                texts[f] = it.read()
        if f.endswith(".antt"):
            code = CONSTRUCTED.sub("", texts[f])
            made = set(MADE_AT.findall(code)) if PROOF.search(f) else set()
            for name in DECLARED.findall(code):
                if name not in made:
                    declared.setdefault(name, []).append(f)
    table = {n: snake(n) for n in declared if snake(n) != n}
    bad = 0
    by_new = {}
    for n in declared:
        by_new.setdefault(snake(n), []).append(n)
    for new, olds in sorted(by_new.items()):
        if len(olds) > 1:
            where = {o: sorted(set(declared[o])) for o in olds}
            shared = [f for f in texts if sum(o in WORD.findall(texts[f]) for o in olds) > 1]
            print(f"fall together: {new}: {where}; in one file: {shared}")
            bad += bool(shared)
    if "--list" in sys.argv:
        for n in sorted(table):
            print(n, table[n])
        return 0
    if bad and "--anyway" not in sys.argv:
        print(f"{bad} names fall together in a file; nothing was written")
        return 1
    for f, text in texts.items():
        new = turned(text, table, bool(PROOF.search(f))) if f.endswith(".antt") else in_rust(text, table)
        if new != text:
            with open(f, "w", encoding="utf-8") as it:
                it.write(new)
    print(f"{len(table)} names turned")
    return 0


if __name__ == "__main__":
    raise SystemExit(main())
