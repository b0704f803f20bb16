#!/usr/bin/env python3
"""Runs each wrong program of a crate against the recorded answers.

    python3 wrong_programs.py CRATE PROGRAM [EDIT...]      as: numbers operations_replay

The prover refuses each edit of crates/CRATE/must-fail. A refusal alone does not show that the
edited program is wrong: another right program would not fit its proof either. So this applies
each edit of the code, in a copy of the repository, runs PROGRAM on it unproved (`rt try`) and
prints the first recorded answer that the wrong program misses. The status is 1 if one misses
none. Edits of definitions alone have no program, and are left out; so are all but those named, if
some are.
"""

import re
import shutil
import subprocess
import sys
import tempfile
from pathlib import Path

ROOT = Path(__file__).resolve().parent.parent


def read_edit(file):
    """For each edited file of the code its name, and the pairs of an old piece and a new one."""
    parts = []
    for line in file.read_text(encoding="utf-8").splitlines():
        word, colon, rest = line.partition(":")
        rest = rest.removeprefix(" ")
        if not colon or line.startswith("#"):
            continue
        if word == "file":
            parts.append((rest, []))
        elif word == "old":
            parts[-1][1].append([rest])
        elif word == "new":
            parts[-1][1][-1].append(rest)
    return [(name, pairs) for name, pairs in parts if name.startswith("src/")]


def apply(text, pairs):
    for old, new in pairs:
        if text.count(old) != 1:
            sys.exit(f"not unique: {old}")
        text = text.replace(old, new)
    return text


def first_miss(copy, program):
    """The first recorded line whose answer differs in the program, or none."""
    crate = copy / "crates" / program
    with open(crate / "stdin", "rb") as stdin:
        run = subprocess.run(["rt", "try"], cwd=crate, stdin=stdin, capture_output=True)
    said = (run.stdout + run.stderr).decode("utf-8", "replace")
    if "run=" not in said or "run=none" in said:
        sys.exit(f"{program} was not run: {said}")
    found = re.search(r"(?:computed [0-9a-f]+ for|missed) (?:[a-z][0-9a-f ]+|frame [0-9]+)", said)
    if found is None and "run=ended" not in said:
        return "it does not end as it should"
    return found and found.group(0)


def main(crate, program, *named):
    caught = True
    with tempfile.TemporaryDirectory() as folder:
        copy = Path(folder) / "copy"
        shutil.copytree(ROOT, copy, ignore=shutil.ignore_patterns("target", "out", ".git", "oracle"))
        for edit in sorted((copy / "crates" / crate / "must-fail").glob("*.edit")):
            parts = read_edit(edit)
            if not parts or named and edit.stem not in named:
                continue
            right = {}
            for name, pairs in parts:
                source = copy / "crates" / crate / name
                right[source] = source.read_text(encoding="utf-8")
                source.write_text(apply(right[source], pairs), encoding="utf-8")
            miss = first_miss(copy, program)
            for source, text in right.items():
                source.write_text(text, encoding="utf-8")
            caught = caught and miss is not None
            print(f"{edit.stem}: {miss or 'NO RECORDED ANSWER SHOWS IT'}")
    return 0 if caught else 1


if __name__ == "__main__":
    if len(sys.argv) < 3:
        sys.exit(__doc__)
    sys.exit(main(*sys.argv[1:]))
