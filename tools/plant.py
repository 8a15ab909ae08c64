#!/usr/bin/env python3
"""Plants wrong meanings at random in a crate's src/, one at a time, and tells which of them the prover lets through.

    python3 tools/plant.py CRATE COUNT SEED [PASSED]
    python3 tools/plant.py CRATE --list

Works on a copy of the repository, in which the crate has no must-fail edits but the planted ones; `rt must-fail` tries them there. A
plant changes one line of a function's body, or puts two statements or two values of fields in each other's place; KINDS tells the kinds.
They are taken in turn, so that the few of a rare kind are tried beside the many of a common one; the first PASSED plants are passed over.
So that a line can be changed that stands more than once in its file, each line of a body ends in the copy with a comment that has its
number.

What became of the plants is counted apart: refused at a goal of the source; refused at a written answer of `proofs/` that no longer
fits; refused only because a name went that a written answer uses, which says little; refused only by a limit of the prover, which says
little too; let through; and those that do not compile, which count for nothing. Each that is let through is printed: the contract says
too little, or the change means nothing that a caller can see."""
import os
import random
import re
import shutil
import subprocess
import sys
import tempfile

ROOT = os.path.dirname(os.path.dirname(os.path.abspath(__file__)))

# What is put in the place of what, by kind: a number one more and one less, a test, a sum, a method, a truth.
SWAPS = {
    "test": [
        (r" <= ", " < "), (r" < ", " <= "), (r" >= ", " > "), (r" > ", " >= "), (r" == ", " != "), (r" != ", " == "),
        (r" < ", " > "), (r" <= ", " >= "), (r" >= ", " <= "),
    ],
    "logic": [
        (r" && ", " || "), (r" \|\| ", " && "), (r"\bif (?!let\b|!)((?:(?!=>)[^{])+) \{$", r"if !(\1) {"),
        (r"\bif !((?:(?!=>)[^{])+) \{$", r"if \1 {"),
        (r"\breturn !", "return "), (r"^!", ""), (r" if ([^{]+) =>", r" if !(\1) =>"), (r" if ([^{]+) =>", " =>"),
        (r"\btrue\b", "false"), (r"\bfalse\b", "true"), (r"^&& .*$", ""),
        (r"\bif ([^{]+) \{ ([^{}]+) \} else \{ ([^{}]+) \}", r"if \1 { \3 } else { \2 }"), (r"!matches!", "matches!"),
        (r" && [^|{]+( \{)$", r"\1"), (r"\(!(\w+), ", r"(\1, "),
        (r"&& (?!!|let\b)([^()]+)$", r"&& !(\1)"),
    ],
    "sum": [
        (r" \+ 1\b", " + 2"), (r" \+ 1\b", ""), (r" - 1\b", ""), (r" \+ ", " - "), (r" - ", " + "), (r" \* ", " + "), (r" \+= ", " -= "),
        (r" & ", " | "), (r" \^ ", " & "), (r" \^ ", " | "), (r" << ", " >> "), (r" >> ", " << "),
        (r"\bsaturating_add\b", "saturating_sub"), (r"\bsaturating_sub\b", "saturating_add"), (r" \+ [\w.]+", ""),
        (r"[\w.]+(?: as usize)? \+ ", ""),
    ],
    "number": [
        (r"(?<![\w.])(\d+)\b(?!\.\d)", lambda match: str(int(match.group(1)) + 1)),
        (r"(?<![\w.])([1-9]\d*)\b(?!\.\d)", lambda match: str(int(match.group(1)) - 1)),
        (r"\b0b([01]+)\b", lambda match: f"{int(match.group(1), 2) >> 1:#b}"),
        (r"b'(.)'", lambda match: f"b'{chr(ord(match.group(1)) + (-1 if match.group(1) in '&[' else 1))}'"),
        (r'b"(.)', lambda match: f'b"{chr(ord(match.group(1)) + 1)}'),
    ],
    "method": [
        (r"\.first\(\)", ".last()"), (r"\.last\(\)", ".first()"), (r"\.min\(", ".max("), (r"\.max\(", ".min("), (r"\.max\(\)", ".min()"),
        (r"\.min_by_key\(", ".max_by_key("), (r"\.max_by_key\(", ".min_by_key("), (r"\.is_none\(\)", ".is_some()"),
        (r"\.is_some\(\)", ".is_none()"),
        (r"\.all\(", ".any("), (r"\.any\(", ".all("), (r"\.is_some_and\(", ".is_none_or("), (r"\.is_none_or\(", ".is_some_and("),
        (r"from_be_bytes", "from_le_bytes"), (r"from_le_bytes", "from_be_bytes"), (r"count_ones", "count_zeros"),
        (r"\.checked_rem\(", ".checked_div("), (r"\.iter\(\)", ".iter().rev()"), (r"\.iter\(\)", ".iter().skip(1)"),
        (r"\.is_empty\(\)", ".len() == 1"),
        (r"^(\.iter\(\))$", r"\1.skip(1)"), (r"\.filter\(\|(\w+)\| ", r".filter(|\1| !"),
        (r"^for (.+) in &?(\w+) \{$", r"for \1 in \2.iter().skip(1) {"),
        (r"^for (.+) in &(\w+\.\w+) \{$", r"for \1 in \2.iter().skip(1) {"), (r"\.any\(\|(\w+)\| ", r".any(|\1| !"),
    ],
    "range": [
        (r"\.\.=", ".."), (r"(?<=[\w)\]])\.\.(?=[\w(])", "..="), (r"\[\.\.([\w.()]+)\]", r"[..\1.saturating_sub(1)]"),
        (r"\(0\.\.", "(1.."), (r"\.\.(\w[\w.]*\(\))\)", r"..\1.saturating_sub(1))"),
    ],
    "option": [(r"\bSome\((?!\w+\) =)\w[\w.]*(?:\(\))?\)", "None")],
}

KINDS = (*SWAPS, "arguments", "field", "variant", "parameter", "one off", "left out", "order", "arm")

NUMBERS = ("u8", "u16", "u32", "u64", "usize")


def read(path):
    with open(path, encoding="utf-8") as file:
        return file.read()


def sources():
    """The text of every source file of the repository."""
    for base, _, names in sorted(os.walk(f"{ROOT}/crates")):
        if f"{os.sep}src" in base:
            yield from (read(os.path.join(base, name)) for name in sorted(names) if name.endswith(".rt"))


def declared():
    """The fields of each struct with their types, the variants of each enum with what they hold, and what each function asks for."""
    structs, enums, functions = {}, {}, {}
    for text in sources():
        for name, body in re.findall(r"^(?:pub )?(?:pub\(crate\) )?struct (\w+)[^{;]*\{\n(.*?)^\}", text, re.M | re.S):
            structs[name] = dict(re.findall(r"^    (?:pub )?(?:pub\(crate\) )?(\w+): ([^\n]+),$", body, re.M))
        for name, body in re.findall(r"^(?:pub )?(?:pub\(crate\) )?enum (\w+)[^{;]*\{\n(.*?)^\}", text, re.M | re.S):
            enums[name] = re.findall(r"^    (\w+)(\([^\n]*\)|)(?: = \d+)?,$", body, re.M)
        for name, asked in re.findall(r"\bfn (\w+)(?:<[^()]*>)?\(([^()]*)\)", text):
            functions[name] = [its.strip() for its in re.findall(r"\b\w+: ([^,]+)", asked)]
    return structs, enums, functions


def bodies(lines):
    """The numbers of the lines of each body, with the parameters of its function. A constant stands for a body of one line."""
    at = 0
    while at < len(lines):
        head = re.match(r"( *)(?:pub )?(?:pub\(crate\) )?(?:const )?fn \w+", lines[at])
        if re.match(r"(?:pub )?const \w+: |    \w+ = \d+,$", lines[at]):
            yield {}, [at]
        if not head:
            at += 1
            continue
        begin = at
        while lines[at] != head[1] + "{" and not lines[at].endswith(";"):
            if lines[at].endswith(" {") and not re.match(r" *(requires|ensures)\b", lines[at]):
                break
            at += 1
        signature = re.split(r"\n *(?:requires|ensures) ", "\n".join(lines[begin : at + 1]))[0]
        known = dict(re.findall(r"\b(\w+): ([^,()]+?)(?=[,)]|,?$)", signature, re.M))
        start = at + 1
        if not lines[at].endswith(";"):
            while lines[at] != head[1] + "}":
                at += 1
            yield known, [i for i in range(start, at) if lines[i].strip() and not lines[i].strip().startswith("//")]
        at += 1


def parts(text):
    """What is called, if anything is, and the places of its arguments, for each pair of brackets, outermost first."""
    for start, opening in enumerate(text):
        if opening not in "([":
            continue
        depth, cuts, nested = 0, [start], 0
        for at in range(start, len(text)):
            if text[at] in "([{":
                depth += 1
            elif text[at] in ")]}":
                depth -= 1
                if depth == 0:
                    called = re.search(r"(\w+)(?:::<[^()]*>)?$", text[:start])
                    yield called[1] if called and opening == "(" else None, [(a + 1, b) for a, b in zip(cuts, [*cuts[1:], at])]
                    break
            elif text[at] == "," and depth == 1 and nested == 0:
                cuts.append(at)
            elif text[at] == "|" and depth == 1:
                nested ^= 1


class Planter:
    def __init__(self, structs, enums, functions):
        self.structs, self.enums, self.functions = structs, enums, functions
        self.types = {}
        for fields in structs.values():
            for field, its in fields.items():
                self.types.setdefault(field, set()).add(its)

    def type_of(self, text, known):
        """The type of a name or of a field, where it is plain."""
        text = text.strip().lstrip("&")
        if re.fullmatch(r"\w+", text):
            return known.get(text, "").replace("&", "").strip() or None
        found = re.fullmatch(r"[\w.]+\.(\w+)", text)
        its = self.types.get(found[1], set()) if found else set()
        return next(iter(its)).replace("&", "") if len(its) == 1 else None

    def holder(self, name, known):
        """The name of the type of a parameter, a field or `self`, where it is plain."""
        its = known.get(name) or next(iter(self.types.get(name, {""})))
        found = re.search(r"\b[A-Z]\w*", its)
        return found[0] if found else None

    def beside(self, name, holder, also=()):
        """The fields of the same type in the struct that has this field: in that of the holder, or in any that has the others too where the
        holder is not known."""
        of = [self.structs[holder]] if holder in self.structs else self.structs.values() if holder is None else []
        of = [fields for fields in of if set(also) <= set(fields)]
        return {other for fields in of for other, its in fields.items() if other != name and fields.get(name) == its}

    def of_line(self, line, known):
        """Each kind and changed text of a line by itself."""
        numbered = re.fullmatch(r"(\w+) = (\d+),", line)
        if numbered:
            yield "number", f"{numbered[1]} = {int(numbered[2]) + 100},"
            return
        pattern = line.find(" =>") if " =>" in line else line.find(" = ") if line.startswith(("let ", "if let ", "while let ")) else -1
        for kind, swaps in SWAPS.items():
            for old, new in swaps:
                for match in re.finditer(old, line):
                    if kind != "option" or match.start() > pattern:
                        put = new(match) if callable(new) else match.expand(new)
                        yield kind, line[: match.start()] + put + line[match.end() :]
        for name, places in parts(line):
            asked = self.functions.get(name, [])
            for i, ((a, b), (c, d)) in enumerate(zip(places, places[1:])):
                one, other = line[a:b].strip(), line[c:d].strip()
                types = asked[i : i + 2] if len(asked) == len(places) else [self.type_of(one, known), self.type_of(other, known)]
                if one and other and all(types) and types[0] == types[1]:
                    yield "arguments", line[:a] + line[a:b].replace(one, other) + line[b:c] + line[c:d].replace(other, one) + line[d:]
            for a, b in places:
                if a > pattern and self.type_of(line[a:b], known) in NUMBERS:
                    for change in ("add", "sub"):
                        yield "one off", line[:b] + f".saturating_{change}(1)" + line[b:]
        for match in re.finditer(r"\b(\w+)\.(\w+)\b(?!\()", line):
            for other in self.beside(match[2], self.holder(match[1], known), re.findall(rf"\b{match[1]}\.(\w+)\b(?!\()", line)):
                yield "field", line[: match.start(2)] + other + line[match.end(2) :]
        for match in re.finditer(r"\b(\w+)::(\w+)\b", line):
            variants = self.enums.get(match[1], [])
            held = dict(variants).get(match[2])
            for other, its in variants if match.start() > pattern else ():
                if other != match[2] and its == held:
                    yield "variant", line[: match.start(2)] + other + line[match.end(2) :]
        for match in re.finditer(r"(?<![\w.:|])(?<!let )(\w+)\b(?![(:{!]| \{)", line):
            its = known.get(match[1])
            for other, others in known.items():
                if other != match[1] and its and others == its and match.start() > pattern:
                    put = f"{match[1]}: {other}" if line == f"{match[1]}," else other
                    yield "parameter", line[: match.start()] + put + line[match.end() :]

    def of_file(self, text):
        """Each kind with its pairs of number and new text of the lines that it changes."""
        lines = text.split("\n")
        for known, numbers in bodies(lines):
            heads = map(re.compile(r"impl\b.* for (\w+)|impl(?:<[^>]*>+)? (\w+)").match, reversed(lines[: (numbers or [0])[0]]))
            owner = next((it for it in heads if it), None)
            known = {**known, **({"self": owner[1] or owner[2]} if owner else {})}
            said = [lines[i].strip() for i in numbers]
            for at, line in enumerate(said):
                for kind, changed in self.of_line(line, known):
                    if changed != line:
                        yield kind, ((numbers[at], changed),)
                whole = (at == 0 or said[at - 1].endswith((";", "{", "}"))) and line.endswith(";") and not line.startswith(("}", "return "))
                if whole and not line.startswith("let "):
                    yield "left out", ((numbers[at], ""),)
                if whole and at + 1 < len(said) and said[at + 1].endswith(";") and not said[at + 1].startswith(("}", "return ")):
                    named = re.findall(r"\w+", line.split(" = ")[0]) if line.startswith("let ") else []
                    if not set(named) & set(re.findall(r"\w+", said[at + 1])) - {"let", "mut", "Ok", "Some"}:
                        yield "order", ((numbers[at], said[at + 1]), (numbers[at + 1], line))
                for one, other in ((at, at + 1), (at + 1, at)) if at + 1 < len(said) else ():
                    arms = [re.fullmatch(r"(.+ =>) (.+),", said[it]) for it in (one, other)]
                    if all(arms) and arms[0][2] != arms[1][2] and not bound(arms[1][1]) & bound(arms[1][2]) - bound(arms[0][1]):
                        yield "arm", ((numbers[one], f"{arms[0][1]} {arms[1][2]},"),)
                for further in range(at + 1, min(at + 6, len(said))):
                    written = [re.fullmatch(r"(\w+)(?:: (.+))?,", said[it]) for it in (at, further)]
                    values = [it and (it[2] or it[1]) for it in written]
                    if not all(written):
                        break
                    if values[0] != values[1] and written[1][1] in self.beside(written[0][1], None):
                        changed = f"{written[0][1]}: {values[1]},", f"{written[1][1]}: {values[0]},"
                        yield "field", ((numbers[at], changed[0]), (numbers[further], changed[1]))


def bound(text):
    """The names in a text that may stand for a value."""
    return set(re.findall(r"(?<![\w.:])([a-z]\w*)\b(?![(:])", text))


def files(crate):
    for base, _, names in sorted(os.walk(os.path.join(crate, "src"))):
        yield from (os.path.join(base, name) for name in sorted(names) if name.endswith(".rt"))


def plants(crate):
    """All plants of a crate by their kinds: the file, and the lines with their new texts."""
    planter, found = Planter(*declared()), {}
    for path in files(crate):
        for kind, changes in planter.of_file(read(path)):
            found.setdefault((os.path.relpath(path, crate), changes), kind)
    by_kind = {}
    for plant, kind in sorted(found.items()):
        by_kind.setdefault(kind, []).append(plant)
    return by_kind


def in_turn(by_kind, chance):
    """The plants, one of each kind in turn."""
    for of_kind in by_kind.values():
        chance.shuffle(of_kind)
    most = max(map(len, by_kind.values()), default=0)
    return [(kind, *by_kind[kind][i]) for i in range(most) for kind in KINDS if i < len(by_kind.get(kind, []))]


def mark(number):
    return f" // :{number}:"


def mark_lines(crate):
    """Ends each line of a body with its number."""
    for path in files(crate):
        lines = read(path).split("\n")
        for i in [i for _, numbers in bodies(lines) for i in numbers]:
            lines[i] += mark(i)
        with open(path, "w", encoding="utf-8") as file:
            file.write("\n".join(lines))


def write_edits(crate, chosen, lines_of):
    folder = os.path.join(crate, "must-fail")
    os.makedirs(folder)
    for number, (_, path, changes) in enumerate(chosen):
        with open(os.path.join(folder, f"plant{number:03}.edit"), "w", encoding="utf-8") as file:
            file.write(f"file: {path}\n")
            for i, new in changes:
                file.write(f"old: {lines_of[path][i].strip()}{mark(i)}\nnew: {new}\n")


def copy_of(name, to):
    """The repository, with what is built of it, where of all crates none has edits."""
    shutil.copy(f"{ROOT}/crates.txt", to)
    shutil.copytree(f"{ROOT}/crates", f"{to}/crates", ignore=shutil.ignore_patterns("must-fail"))
    return f"{to}/crates/{name}"


def became(said):
    """What became of a plant, by what `rt must-fail` says."""
    if not said.startswith("refused"):
        return "does not compile" if "BAD EDIT" in said else "let through" if "NOT REFUSED" in said else "not tried"
    if "only because a proof file names" in said:
        return "refused for a name"
    if "only by a limit" in said:
        return "refused by a limit"
    return "refused at an answer" if re.search(r"must be: (note: )?(\./)?proofs/", said) else "refused at a goal"


def main():
    name = sys.argv[1]
    all_plants = plants(f"{ROOT}/crates/{name}")
    if sys.argv[2] == "--list":
        for kind, path, changes in in_turn(all_plants, random.Random(0)):
            print(f"{kind}: {path}", *(f"{i + 1}: {new}" for i, new in changes), sep="\n    ")
        print(name, sum(map(len, all_plants.values())), {kind: len(found) for kind, found in all_plants.items()})
        return
    count, seed, passed = int(sys.argv[2]), int(sys.argv[3]), int((sys.argv[4:] or ["0"])[0])
    chosen = in_turn(all_plants, random.Random(seed))[passed:][:count]
    with tempfile.TemporaryDirectory(prefix="plant-") as copy:
        crate = copy_of(name, copy)
        lines_of = {os.path.relpath(path, crate): read(path).split("\n") for path in files(crate)}
        mark_lines(crate)
        write_edits(crate, chosen, lines_of)
        done = subprocess.run(["rt", "must-fail", name], cwd=copy, stdout=subprocess.PIPE, stderr=subprocess.STDOUT, text=True)
    counts, told = {}, set()
    for line in done.stdout.splitlines():
        match = re.match(rf"rt: must-fail {name}/plant(\d+)\.edit: (.*)", line)
        if not match or match[1] in told:
            continue
        told.add(match[1])
        kind, path, changes = chosen[int(match[1])]
        what = became(match[2])
        counts[what] = counts.get(what, 0) + 1
        if what == "let through" or os.environ.get("PLANT_ALL"):
            print(f"{what} ({kind}): {name}/{path}:{changes[0][0] + 1}: {match[2][:200]}")
            for i, new in changes:
                print(f"    - {lines_of[path][i].strip()}\n    + {new}")
    if len(told) != len(chosen):
        print(done.stdout[-2000:])
    compiled = sum(number for what, number in counts.items() if what not in ("does not compile", "not tried"))
    print(f"{name}, seed {seed}: of {sum(map(len, all_plants.values()))} plants {len(chosen)} tried, {compiled} compile: {counts}")


main()
