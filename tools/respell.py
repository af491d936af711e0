#!/usr/bin/env python3
"""Brings this repository's own antt names to today's spelling, once, after port.py (docs/PORT.md): words in snake case, types in upper camel case.

usage: tools/respell.py [--list]      in the repository, on the commit that docs/PORT.md names first, after port.py
       --list prints the renamings and writes nothing

Renamed: each name with a dash that a file of specs/ or proofs/ declares. Left: what the kit's libraries declare, names that Rattle makes from the code, Rust.
Must-fail edits get the same names.
"""

import collections
import glob
import re
import sys

TOKEN = re.compile(r'[^\s(){}\[\];,."`]+')
OWN = set(l.split(":")[0].split()[0] for l in open("crates.txt", encoding="utf-8") if l.strip() and not l.startswith("#"))
SPECS = sorted(glob.glob("crates/*/specs/*.antt"))
LEMMAS = sorted(glob.glob("crates/*/proofs/*.antt"))
FOLDERS = sorted(set(glob.glob("crates/*/proofs/**/*.antt", recursive=True)) - set(LEMMAS))
SOURCES = sorted(glob.glob("crates/*/src/*.rt"))
EDITS = sorted(glob.glob("crates/*/must-fail/*.edit"))
# Files whose local names come from code, so that only names declared elsewhere are turned in them.
FROM_CODE = {"crates/cursor/proofs/Loan.antt"}
# Constructors that are named as the Rust's variants are.
BY_HAND = {a + b: a + b[1:].upper() for a in ("Anything", "Error", "Var") for b in ("-l", "-r")}


def read(f):
    with open(f, encoding="utf-8", newline="") as it:
        return it.read()


def code(text):
    return re.sub(r"--(?![^\s]).*|-- .*", "", text)


def uses(text):
    """(module, names) of each use line, also of a .rt file."""
    for m in re.finditer(r"(?m)^\s*(?:pub )?(?:ghost )?use ([\w.+'◌-]+)\.\{([^}]*)\}", text):
        yield m.group(1), re.findall(TOKEN, m.group(2))


def foreign(text):
    """Names that a file brings in from the kit's libraries."""
    found = set()
    for module, names in uses(text):
        parts = module.split(".")
        if not (parts[0] == "Rattle" and len(parts) > 1 and parts[1] in OWN):
            found |= set(names)
    return found


def dashed(name):
    return "-" in name.replace("◌", "").strip("-")


def kinds():
    """Which names with a dash are types: declared so, or with a signature that ends in a universe."""
    types, values = set(), set()
    for f in SPECS + LEMMAS:
        text = code(read(f))
        for m in re.finditer(r"(?m)^\s*(?:pub )?(?:record|data) (\S+)", text):
            types.add(m.group(1))
        for m in re.finditer(r"(?m)^( *)(?:unfoldable |abbrev |pub )*((?:[^\s:(){}=|\[\]]+ )+):(?= |$)(?=((?:.*\n)(?:\1 +.*\n)*))", text):
            for name in m.group(2).split():
                (types if re.search(r"Type \S+\s*$", m.group(3)) else values).add(name)
    return types, values


def camel(name):
    return "".join(p[:1].upper() + p[1:] for p in name.split("-"))


def renamings():
    types, values = kinds()
    names = collections.Counter()
    # A name behind a module or a value that no file here declares is a library's.
    theirs_by_path = set()
    for f in SPECS + LEMMAS:
        theirs_by_path |= set(re.findall(r"\.([^\s(){}\[\];,.\"`]+)", code(read(f)))) - types - values
    for f in SPECS + LEMMAS:
        if f in FROM_CODE:
            continue
        text = code(read(f))
        theirs = foreign(text)
        for t in re.findall(TOKEN, text):
            if dashed(t) and t not in theirs and t not in theirs_by_path and re.search(r"[^\W\d_]", t) and "→" not in t:
                names[t] += 1
    turned = {}
    for n in names:
        if n in BY_HAND:
            turned[n] = BY_HAND[n]
        elif n.lstrip("◌")[0].isupper() and (n in types or (n not in values and not re.match(r"[A-Z]{2}-", n))):
            turned[n] = camel(n)
        else:
            turned[n] = n.replace("-", "_")
    return turned


def turn(text, turned, keep=frozenset()):
    return TOKEN.sub(lambda m: turned[m.group(0)] if m.group(0) in turned and m.group(0) not in keep else m.group(0), text)


def turn_file(f, turned):
    text = read(f)
    new = turn(text, turned, foreign(text))
    if new != text:
        with open(f, "w", encoding="utf-8", newline="") as it:
            it.write(new)
    return new != text


def main(argv):
    turned = renamings()
    if argv == ["--list"]:
        for n in sorted(turned):
            print(n, turned[n])
        return 0
    n = sum(turn_file(f, turned) for f in SPECS + LEMMAS + FOLDERS + SOURCES + EDITS)
    print(f"respell: {len(turned)} names, {n} files")
    return 0


if __name__ == "__main__":
    raise SystemExit(main(sys.argv[1:]))
