#!/usr/bin/env python3
"""Spells the repository's own definitions and lemmas as today's Rattle does.

usage: python3 tools/names.py            at the top of a repository that port.py has just turned
       python3 tools/names.py --list     only prints which name becomes which

Words are in snake case; a dash stays only where it joins two names, as in `decode-encode`. Names of src/, of
modules and types, strings, inputs and outputs stay as they are. Two names that would fall together stop it.
A `Proof.antt` gives no names of its own to others: there only what it cites is spelled anew.
"""

import glob
import re
import sys

WORD = r"[^\s(){}\[\];,.«»`\"]"
SIGNATURE = re.compile(r"^ *(?:unfoldable |abbrev |pub )*((?:data |record |ruleset )?)(" + WORD + r"+)(?: [^\n:=]*?)? (:|=) ", re.M)
ARGUMENTS = re.compile(r"^ *(?:unfoldable |abbrev |pub )*" + WORD + r"+((?: " + WORD + r"+)+) =", re.M)
BOUND = [re.compile(r"\blet (" + WORD + r"+) [:=] "), re.compile(r"[({]((?:" + WORD + r"+ )+): "), re.compile(r"λ ((?:" + WORD + r"+ ?)+)\.")]
# functions of std's library that names of lemmas are made of
LIBRARY = set(
    "add sub mul div mod pow neg zero suc one length append take drop map set get_or reverse cond pos negsuc nat_abs".split()
)


def files(*patterns):
    for pattern in patterns:
        yield from sorted(glob.glob(pattern, recursive=True))


def read(path):
    with open(path, encoding="utf-8") as f:
        return f.read()


def snake(part):
    if not part or part[0].isupper():
        return part
    return re.sub(r"(?<=[a-z0-9])([A-Z])(?=[a-z])", lambda m: "_" + m.group(1).lower(), part)


def defined():
    """The names that specs/ and proofs/ give: definitions, lemmas, and what is bound in them."""
    specs, proofs, bound, kit = set(), set(), set(), set()
    for path in files("crates/*/specs/**/*.antt", "crates/*/proofs/**/*.antt"):
        text = read(path)
        for line in text.split("\n"):
            m = re.match(r"use (?!Rattle\.(?!std\b))(\S+?)\.?\{(.*)\}", line)
            if m:
                kit.update(w.split(".")[-1].split(" as ")[0].strip() for w in m.group(2).split(","))
        if path.endswith("Proof.antt"):
            continue
        into = specs if "/specs/" in path else proofs
        into.update(m.group(2) for m in SIGNATURE.finditer(text) if m.group(1) or m.group(3) == ":")
        for pattern in BOUND:
            for m in pattern.finditer(text):
                bound.update(m.group(1).split())
        for m in ARGUMENTS.finditer(text):
            bound.update(m.group(1).split())
    return specs, proofs, bound - specs - proofs, kit


def spelled(name, known):
    """Each part in snake case; a dash between two names that are known, and `_` elsewhere."""
    parts = [snake(p) for p in name.split("-")]
    groups, i = [], 0
    while i < len(parts):
        j = len(parts)
        while j > i + 1 and "_".join(parts[i:j]) not in known:
            j -= 1
        word = "_".join(parts[i:j])
        groups.append((word, word in known))
        i = j
    out = groups[0][0]
    for before, after in zip(groups, groups[1:]):
        out += ("-" if before[1] and after[1] else "_") + after[0]
    return out


def table():
    specs, proofs, bound, kit = defined()
    known = LIBRARY | {"_".join(snake(p) for p in n.split("-")) for n in specs if n[0].islower()}
    new = {}
    for name in sorted(specs | proofs | bound):
        if name in kit or not re.fullmatch(r"[a-z][\w']*(-[\w'<≤≡]+)*", name):
            continue
        to = "_".join(snake(p) for p in name.split("-")) if name not in proofs else spelled(name, known)
        if to != name:
            new[name] = to
    plain = (specs | proofs | bound | kit) - set(new)
    taken = {}
    for name, to in new.items():
        if to in taken or (to in plain and name not in bound):
            sys.exit(f"names: {name} and {taken.get(to, to)} would both be {to}")
        taken[to] = name
    return new


def main():
    new = table()
    if "--list" in sys.argv:
        for name, to in sorted(new.items()):
            print(name, to)
        return
    one = "(" + "|".join(re.escape(n) for n in sorted(new, key=len, reverse=True)) + r")(?![\w'₀-₉]|-[\w'])"
    free = re.compile(r"(?<![\w'\-.·«])" + one)
    behind = re.compile(r"(?<=[\w)}'₀-₉]\.)" + one)

    def turn(text):
        return behind.sub(lambda m: new[m.group(1)], free.sub(lambda m: new[m.group(1)], text))

    def quoted(text):
        return re.sub(r"`[^`\n]*`", lambda m: turn(m.group(0)), text)

    def line_of(line, mark):
        """A line of antt, or a clause or ghost line of Rattle, whose comments begin with `mark`."""
        code, sep, comment = line.partition(mark)
        return turn(code) + sep + quoted(comment)

    for path in files("crates/*/specs/**/*.antt", "crates/*/proofs/**/*.antt", "crates/*/src/**/*.rt"):
        old = read(path)
        mark = "--" if path.endswith(".antt") else "//"
        pieces = [line_of(l, mark) if '"' not in l.partition(mark)[0] else l for l in old.split("\n")]
        if "\n".join(pieces) != old:
            with open(path, "w", encoding="utf-8") as f:
                f.write("\n".join(pieces))
    for path in files("README.md", "docs/*.md"):
        old = read(path)
        if quoted(old) != old:
            with open(path, "w", encoding="utf-8") as f:
                f.write(quoted(old))


if __name__ == "__main__":
    main()
