#!/usr/bin/env python3
"""Respells the definitions and lemmas of this repository: words in snake case (`symbolOf` is `symbol_of`), in specs/,
proofs/, the clauses of src/ and the edits. Types keep their capital, and names of the source keep their spelling.

usage: python3 tools/respell.py            at the top, once, after the port's scripts; --names prints the names alone
"""
import os
import re
import sys

DECLARED = re.compile(r"^\s*(?:abbrev\s+|unfoldable\s+|pub\s+|ruleset\s+)*([^\s:(){}\[\],;.=λ]+)\s*:(?!=)")
TOKEN = re.compile(r"(?<![\w'₀₁₂₃₄₅₆₇₈₉-])[A-Za-z_][A-Za-z0-9_'₀₁₂₃₄₅₆₇₈₉-]*")
HUMP = re.compile(r"(?<=[a-z0-9])(?=[A-Z])")
# names that today's library has under another word
LIBRARY = {"getD": "get_or"}
# names that would fall together with a name beside them
APART = {"tooLarge": "too_large_number"}


def word(w):
    if w in LIBRARY:
        return LIBRARY[w]
    if not w or not w[0].islower():
        return w
    return "_".join(p if p.isupper() and len(p) > 1 else p.lower() for p in HUMP.split(w))


def respelled(name):
    if name in APART:
        return APART[name]
    name = re.sub(r"(?<![a-z0-9])get_d(?![a-z0-9])", "get_or", name)
    return "-".join(word(w) for w in name.split("-"))


def files(top):
    for folder, dirs, names in os.walk(os.path.join(top, "crates")):
        dirs[:] = sorted(d for d in dirs if d not in ("out", "target"))
        for f in sorted(names):
            if f.endswith((".antt", ".rt", ".edit")):
                yield os.path.join(folder, f)


def read(path):
    with open(path, encoding="utf-8") as f:
        return f.read()


def names_of(top):
    """Each name that a file of specs/ or proofs/ declares and that is not in snake case."""
    found = set()
    for path in files(top):
        if path.endswith(".antt"):
            for line in read(path).splitlines():
                m = DECLARED.match(line)
                if m and m.group(1)[0].islower() and respelled(m.group(1)) != m.group(1):
                    found.add(m.group(1))
    return found


def main():
    top = os.getcwd()
    names = names_of(top)
    if "--names" in sys.argv:
        print("\n".join(f"{n}\t{respelled(n)}" for n in sorted(names)))
        return
    table = {n: respelled(n) for n in names}
    news = set(table.values())
    for path in files(top):
        old = read(path)
        tokens = set(TOKEN.findall(old))
        for n in sorted(names & tokens):
            if table[n] in tokens:
                print(f"look: {os.path.relpath(path, top)}: {n} and {table[n]}")
        new = TOKEN.sub(lambda m: table.get(m.group(0), m.group(0)), old)
        if new != old:
            with open(path, "w", encoding="utf-8") as f:
                f.write(new)


if __name__ == "__main__":
    main()
