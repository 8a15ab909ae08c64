#!/usr/bin/env python3
"""Counts, in the crates' src/, the places of the older forms that docs/DESIGN-PASS.md speaks of, point by point, and lists them
with -v. What no pattern finds (twins, parallel arrays) is counted by reading; the page says which."""
import collections
import os
import re
import subprocess
import sys

ROOT = os.path.dirname(os.path.dirname(os.path.abspath(__file__)))
CRATES = os.path.join(ROOT, "crates")

# A pattern for each point that a line can show.
LINES = {
    "1 errors and nones handed on by hand": r"Err\((?:e|_)\) => Err|Err\(fault\) => |return Err\(e\);|None => return None",
    "1 numbers for kinds: constants and tests of a byte": r"^const (?:BYTES|FORMULAS|RECORDS|PORT): u8|if byte == \d",
    "3 loops over a range of numbers": r"^\s*for \w+ in [^{]*\.\.",
    "3 loops by while": r"^\s*while\b",
    "3 loops that only look, count or choose": r"^\s*for \w+ in (?:moves|ranks|port\.moves\.iter\(\)) \{",
    "4 functions that compare or convert by hand": r"fn (?:is_before|differs|same|is_absent|pair|kind_of|known_kind|entry_of|digit|both|stays|drops)\b",
    "6 places in a table worked out by hand": r"^(?!.*(?:ensures|requires|ghost)).*\* (?:width|256\b)",
    "6 values at a place, or what stands for none": r"\b\w+ < \w+(?:\.\w+)*\.len\(\) (?:\{|&&)",
}


def sources():
    for crate in sorted(os.listdir(CRATES)):
        folder = os.path.join(CRATES, crate, "src")
        for base, _, names in sorted(os.walk(folder)):
            for name in sorted(names):
                if name.endswith(".rt"):
                    path = os.path.join(base, name)
                    yield crate, os.path.relpath(path, CRATES), open(path, encoding="utf-8").read()


def by_line():
    found = {point: [] for point in LINES}
    for _, path, text in sources():
        for number, line in enumerate(text.splitlines(), 1):
            if line.lstrip().startswith("//"):
                continue
            for point, pattern in LINES.items():
                if re.search(pattern, line):
                    found[point].append(f"{path}:{number}: {line.strip()}")
    return found


def repeated():
    """Clauses that stand in three or more contracts of a crate, word for word but for `self`, and long parameter lists."""
    clauses = collections.defaultdict(list)
    long_lists = []
    for crate, path, text in sources():
        for match in re.finditer(r"\bfn (\w+)(?:<[^(]*>)?\(([^)]*)\)([^{]*(?:\{[^}]*\}[^{}]*?)*?)(?=\n\s*\{\n|;)", text):
            name, parameters, rest = match.groups()
            for fact in re.findall(r"(?:requires|ensures) (?:\w+ )?\{ (.*?) \}\n", rest + "\n"):
                clauses[(crate, re.sub(r"\bself\.|\b(?:now|old)\b", "", fact))].append(f"{path} {name}")
            count = len([p for p in parameters.split(",") if p.strip() and "self" not in p])
            if count > 5:
                long_lists.append(f"{path}: {name} takes {count}")
    facts = [f"{crate}: {fact} ({len(where)})" for (crate, fact), where in sorted(clauses.items()) if len(where) >= 3]
    return facts, long_lists


def answers():
    """The lines of written answers and of lemmas."""
    lines = {"answers": 0, "lemmas": 0}
    for base, _, names in os.walk(CRATES):
        if os.sep + "proofs" not in base or os.sep + "out" in base:
            continue
        for name in names:
            if name.endswith(".antt"):
                count = len(open(os.path.join(base, name), encoding="utf-8").read().splitlines())
                lines["answers" if name in ("Answers.antt", "Proof.antt") else "lemmas"] += count if name != "Invariants.antt" else 0
    return lines


def main():
    verbose = "-v" in sys.argv
    for point, where in by_line().items():
        print(f"{len(where):4}  {point}")
        if verbose:
            print("".join(f"        {line}\n" for line in where), end="")
    facts, long_lists = repeated()
    for point, where in (("5 facts that stand in three contracts or more", facts), ("5 functions of more than five parameters", long_lists)):
        print(f"{len(where):4}  {point}")
        if verbose:
            print("".join(f"        {line}\n" for line in where), end="")
    for kind, count in answers().items():
        print(f"{count:4}  8 lines of {kind}")
    kept = subprocess.run(["grep", "-rn", "// Stays:", CRATES, "--include=*.rt"], capture_output=True, text=True, check=False).stdout
    print(f"{len(kept.splitlines()):4}  places that stay, with their reason beside them")


main()
