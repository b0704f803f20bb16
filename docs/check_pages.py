#!/usr/bin/env python3
"""Checks the pages against the repository.

    python3 docs/check_pages.py

Every label that is cited is one of SPECIFICATION.md, and every label of it has a row in PROMISES.md. Each row of
PROMISES.md has at most 300 characters, and what it names is defined where it says: theorems and definitions in the
row's files, functions in the code of its crates, must-fail edits in theirs. Each edit is in a row, and each label
that answers a sentence of the request stands in the last table. The statements of THEOREMS.md are those of the files.
The links of every page lead somewhere, and so do the paths that it names. Prose is wrapped. No file but PROMISES.md
speaks of the request's papers by their numbers. Each old piece of an edit stands once in its file. It prints what is
wrong; the status is then 1. It cannot tell whether a theorem says what its label says.
"""

import re
import subprocess
import sys
from pathlib import Path

ROOT = Path(__file__).resolve().parent.parent
LABEL = re.compile(r"(?<!-)\b([NAETCROQBXLPKFG])([1-9][0-9]?)\b")
# Words that look like labels and are none.
NO_LABELS = {"C32", "Q15", "C99"}
# A folder of the original, which a page may name.
ORIGINAL = "crates/core/sdrk-core/src"
COLUMNS = 121
ROW = 300
COMMENT = {".antt": "--", ".rt": "//", ".rs": "//", ".c": "*", ".h": "*", ".edit": "#", ".py": "#", ".sh": "#"}
# What may not be left in a page.
PLACEHOLDER = re.compile(r"\b[A-Z]+_(?:AFTER|BEFORE|TABLE|HERE)\b|\bTODO\b")

faults = []


def fault(place, text):
    """Notes one fault."""
    faults.append(f"{place}: {text}")


def files():
    """Every file of the repository, as paths from its root."""
    said = subprocess.run(["git", "ls-files", "-co", "--exclude-standard"], cwd=ROOT, capture_output=True, text=True,
                          check=True)
    return [name for name in said.stdout.split("\n") if name and (ROOT / name).is_file()]


def text_of(name):
    """A file's text."""
    return (ROOT / name).read_text(encoding="utf-8", errors="replace")


def cells(row):
    """The cells of a table's row."""
    return [cell.strip() for cell in row.strip().strip("|").split("|")]


def specified():
    """The labels that SPECIFICATION.md defines, each once."""
    labels = re.findall(r"^(?:- |\| )\*\*([A-Z][0-9]+)\.?\*\*", text_of("docs/SPECIFICATION.md"), re.M)
    for label in sorted({label for label in labels if labels.count(label) > 1}):
        fault("docs/SPECIFICATION.md", f"{label} is defined twice")
    return set(labels)


def spread(text):
    """The labels of a cell: 'E1–E6, T3' has seven."""
    found = set()
    for first, last in re.findall(r"([A-Z][0-9]+)(?:(?:–| to )([A-Z][0-9]+))?", text):
        if last:
            found |= {f"{first[0]}{k}" for k in range(int(first[1:]), int(last[1:]) + 1)}
        else:
            found.add(first)
    return found


def path_of(short):
    """The file that a short name stands for: timing/Laws/Run, timing/specs/Run, timing/src/setup."""
    crate, room, *rest = short.split("/")
    folder = ROOT / "crates" / crate
    if room == "Laws":
        return folder / "proofs" / "Laws" / ("/".join(rest) + ".antt")
    if room == "src" and not rest:
        return folder / "src"
    ending = ".rt" if room == "src" else ".antt"
    return folder / room / ("/".join(rest) + ending)


def defines(path, name):
    """Whether a file, or a folder of code, defines this name."""
    word = re.escape(name)
    law = re.compile(rf"^\s*(?:(?:pub|abbrev|unfoldable|record|data) )*{word}(?: [({{].*)? :", re.M)
    code = re.compile(rf"\b(?:fn|struct|enum|const)\s+{word}\b")
    paths = sorted(path.rglob("*.rt")) if path.is_dir() else [path]
    return any((code if one.suffix == ".rt" else law).search(one.read_text(encoding="utf-8")) for one in paths)


def promised(known):
    """The rows of PROMISES.md."""
    rows, edits_named, asked = set(), set(), set()
    for number, line in enumerate(text_of("docs/PROMISES.md").split("\n"), 1):
        place = f"docs/PROMISES.md:{number}"
        if len(line) > ROW:
            fault(place, f"{len(line)} characters")
        row = cells(line)
        if line.startswith("|") and len(row) == 5 and row[0] not in ("Label", "---"):
            rows |= spread(row[0])
            named_in(place, row[1], row[2], row[3])
            edits_named |= edits_of(place, row[3])
            asked |= spread(row[0]) if row[4] != "added" else set()
    for label in sorted(known - rows):
        fault("docs/PROMISES.md", f"no row for {label}")
    for label in sorted(rows - known):
        fault("docs/PROMISES.md", f"{label} is no label")
    for edit in sorted(all_edits() - edits_named):
        fault("docs/PROMISES.md", f"the edit {edit} is in no row")
    last = text_of("docs/PROMISES.md").split("## The request, sentence by sentence")[-1]
    for label in sorted(asked - spread(last)):
        fault("docs/PROMISES.md", f"{label} is not in the last table")


def named_in(place, what, where, edits):
    """The names of a row are defined in its files, or in the code of the crates that it names."""
    paths = [path_of(short) for short in re.findall(r"`([\w/]+)`", where) if "/" in short]
    for path in paths:
        if not path.exists():
            fault(place, f"no file {path.relative_to(ROOT)}")
    crates = {path.relative_to(ROOT).parts[1] for path in paths} | set(re.findall(r"(\w+):", edits))
    crates |= set(re.findall(r"`(\w+)::", what))
    code = [ROOT / "crates" / crate / "src" for crate in crates]
    for name in re.findall(r"`([^`]+)`", what):
        word = name.split("::")[-1].split(" ")[0].replace("&mut", "")
        if not word or "/" in name or (ROOT / "crates" / word).is_dir() or (ROOT / word).is_dir():
            continue
        if paths and not any(path.exists() and defines(path, word) for path in paths + code):
            fault(place, f"`{name}` is not defined in {where}")


def edits_of(place, text):
    """The edits that a cell names, as crate/edit; each must be there."""
    found = set()
    for crates, names in re.findall(r"([\w, ]+?): ((?:`\w+`(?:, )?)+)", text):
        for crate in re.split(r", | and ", crates.strip()):
            for name in re.findall(r"`(\w+)`", names):
                found.add(f"{crate.strip()}/{name}")
    for edit in sorted(found - all_edits()):
        fault(place, f"no edit {edit}")
    return found


def all_edits():
    """Every must-fail edit, as crate/edit."""
    return {f"{path.parent.parent.name}/{path.stem}" for path in (ROOT / "crates").glob("*/must-fail/*.edit")}


def edits_apply():
    """Each old piece of an edit stands once in its file, after the pieces before it were replaced."""
    for path in sorted((ROOT / "crates").glob("*/must-fail/*.edit")):
        texts, name, old = {}, None, None
        for line in path.read_text(encoding="utf-8").splitlines():
            word, _, rest = line.partition(":")
            rest = rest.removeprefix(" ")
            if word == "file":
                name = path.parent.parent / rest
                texts.setdefault(name, name.read_text(encoding="utf-8"))
            elif word == "old":
                old = rest
            elif word == "new":
                if texts[name].count(old) != 1:
                    fault(path.relative_to(ROOT), f"not once in {name.relative_to(ROOT)}: {old.strip()}")
                texts[name] = texts[name].replace(old, rest)


def cited(known):
    """Labels in comments and pages."""
    for name in files():
        path = Path(name)
        mark = COMMENT.get(path.suffix)
        if path.suffix != ".md" and mark is None:
            continue
        for number, line in enumerate(text_of(name).split("\n"), 1):
            if mark and not line.lstrip().startswith(mark) and f" {mark} " not in line:
                continue
            words = line[line.find(mark):] if mark else re.sub(r"`[^`]*`", "", line)
            for letter, count in LABEL.findall(words):
                label = letter + count
                if label not in known and label not in NO_LABELS and f"{label}_" not in words:
                    fault(f"{name}:{number}", f"{label} is no label")


def theorems():
    """THEOREMS.md: each heading's file has the theorem, and the statement stands in it, blanks aside."""
    text = text_of("docs/THEOREMS.md")
    section = re.compile(r"^## (\d+\. `[^`]+`), `([\w/]+)`\n(.*?)(?=^## |\Z)", re.M | re.S)
    for heading, short, rest in section.findall(text):
        path = path_of(short)
        if not path.exists():
            fault("docs/THEOREMS.md", f"{heading}: no file {short}")
            continue
        source = re.sub(r"\s+", " ", path.read_text(encoding="utf-8"))
        blocks = re.findall(r"```\n(.*?)```", rest, re.S)
        if not blocks:
            fault("docs/THEOREMS.md", f"{heading}: no statement")
        name = heading.split("`")[1]
        for block in blocks:
            _, found, after = source.partition(re.sub(r"\s+", " ", block).strip())
            whole = after.startswith((f" {name} ", " unfolding ", " { "))
            if not found or not whole or (path.suffix == ".antt" and name not in block):
                fault("docs/THEOREMS.md", f"{heading}: the statement is not the whole one of {short}")
    if len(section.findall(text)) != len(re.findall(r"^## \d", text, re.M)):
        fault("docs/THEOREMS.md", "a heading has not the form: number, name, file")


def pages():
    """Links, paths and columns of every page."""
    for name in files():
        if not name.endswith(".md"):
            continue
        fenced = False
        for number, line in enumerate(text_of(name).split("\n"), 1):
            place = f"{name}:{number}"
            fenced ^= line.lstrip().startswith("```")
            free = fenced or line.lstrip().startswith("|") or line.startswith("    ")
            if len(line) > (ROW if free else COLUMNS) and not line.lstrip().startswith("|"):
                fault(place, f"{len(line)} columns")
            if PLACEHOLDER.search(line):
                fault(place, "a placeholder")
            for link in re.findall(r"\]\(([^)#]+?)(?:#[^)]*)?\)", line):
                if "://" not in link and not ((ROOT / name).parent / link).exists():
                    fault(place, f"the link {link} leads nowhere")
            for path in re.findall(r"`((?:crates|docs|oracle|bindings)/[\w./-]*\w)`", line):
                if not (ROOT / path).exists() and "NAME" not in path and path != ORIGINAL:
                    fault(place, f"no {path}")


def papers():
    """No file but PROMISES.md names the request's papers."""
    said = re.compile(r"\b(?:document|paper|doc)s? 0[0-9]|0[0-2]-(?:request|scope|change)", re.I)
    for name in files():
        if name in ("docs/PROMISES.md", "docs/check_pages.py") or name.startswith(".git"):
            continue
        for number, line in enumerate(text_of(name).split("\n"), 1):
            if said.search(line):
                fault(f"{name}:{number}", "speaks of the request's papers")


def main():
    known = specified()
    promised(known)
    edits_apply()
    cited(known)
    theorems()
    pages()
    papers()
    for one in faults:
        print(one)
    print(f"{len(known)} labels, {len(all_edits())} edits, {len(faults)} faults")
    return 1 if faults else 0


if __name__ == "__main__":
    sys.exit(main())
