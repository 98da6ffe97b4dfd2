#!/usr/bin/env python3
"""Brings the repository's own definitions and lemmas to the spelling of today's library.

usage: respell.py          at the top of the repository, once, after the toolchain's port.py

Definitions, lemmas and their parts are in snake case; a dash joins two names of definitions (`length-pasted`), and a plain word is added
with `_` (`pasted_more`). Functions, fields, constants, strings and what programs read and print keep their names. The names are turned in
specs/, proofs/, src/, the must-fail edits and, in backticks, in the pages.
"""

import collections
import glob
import re
import sys

WORD = r"[^\s(){}\[\],;.:⌜⌝«»`\"@#/|=<>≡≤∷→λ×+*?!&]+"
SPECS = "crates/*/specs/**/*.antt"
PROOFS = "crates/*/proofs/**/*.antt"
# names of the library that a dash may join
LIBRARY = "length take drop set append map cond not eqb ltb leb get_or zero suc replicate add mul div mod pow and or true false reverse sum".split()
# lemmas that would have the name of the definition which they are about, each with its file
TWINS = {
    "crates/options/proofs/Walk.antt": {"walked_by": "walked_by_lem"},
    "crates/replay/proofs/Parts.antt": {"step_by": "step_by_lem"},
    "crates/promises/proofs/Sound.antt": {"count_fits": "count_fits_lem"},
    "crates/demands/proofs/File.antt": {"step_by": "step_leaves"},
}


def read(path):
    with open(path, encoding="utf-8") as f:
        return f.read()


def write(path, old, new):
    if old != new:
        with open(path, "w", encoding="utf-8") as f:
            f.write(new)


def snake(name):
    return re.sub(r"(?<=[a-z0-9])([A-Z])", lambda m: "_" + m.group(1).lower(), name)


def declared(path):
    """The names that a file declares: of a file that walks a function, no goal's name."""
    lines = read(path).split("\n")
    found = []
    for i, line in enumerate(lines):
        m = re.match(r"^(\s*)(?:(?:abbrev|unfoldable|pub|data|record|ruleset) )*(" + WORD + r")(?: \{[^}]*\}| " + WORD + r")* ?:( |$)", line)
        if not m or m.group(2) in ("use", "let", "module", "where"):
            continue
        indent, name = m.group(1), m.group(2)
        if indent and not any(re.match(re.escape(indent + name) + r"(\s|$)", it) for it in lines[i + 1 : i + 4]):
            continue
        if path.endswith("Proof.antt") and re.search(r": (goal|tie)\.", line):
            continue
        found.append(name)
    return found


def own_names():
    names = collections.OrderedDict()
    for pattern in (SPECS, PROOFS):
        for path in sorted(glob.glob(pattern, recursive=True)):
            for name in declared(path):
                names[name] = True
    return names


def turned(name, words):
    """A name in today's spelling: a dash stays where it stands between two names; the proof of a function is its name and `_spec`."""
    if name.endswith("-spec"):
        return snake(name.replace("-", "_"))
    parts = [snake(it) for it in name.split("-")]
    whole = parts[0]
    for part in parts[1:]:
        last = re.split("-", whole)[-1]
        whole += ("-" if last in words and part in words else "_") + part
    return whole


def renames(names):
    words = set(LIBRARY) | {snake(it) for it in names if "-" not in it and not re.match(r"[A-Z]", it)}
    table = {}
    for name in names:
        if not re.match(r"[a-zμ]", name):
            continue
        new = turned(name, words)
        # a lemma that would have the name of a definition
        if "-" in name and new in words:
            new += "_lem"
        if new != name:
            table[name] = new
    return table


def apply(text, table):
    return re.sub(WORD, lambda m: table.get(m.group(0), m.group(0)), text)


def clauses_only(text, table):
    """In a page, the names in backticks; in prose, only names that no English word looks like."""
    return re.sub(r"`[^`\n]+`", lambda m: apply(m.group(0), table), text)


def tight(line):
    """A projection is written tight, and needs no parentheses."""
    line = re.sub(r"\(([a-z]\w*)((?: \.\w+)+)\)", lambda m: m.group(1) + m.group(2).replace(" ", ""), line)
    while True:
        new = re.sub(r"(?<=[ (])([a-z][\w.]*|\([^()]*\)) (\.[a-z0-9]\w*)", r"\1\2", line)
        if new == line:
            return line
        line = new


def edit_text(text, table):
    specs = False
    lines = []
    for line in text.split("\n"):
        if line.startswith("file: "):
            specs = line.startswith("file: specs/")
        if re.match(r"(old|new|#)", line):
            line = apply(line, table)
            if specs and not line.startswith("#"):
                line = tight(line)
        lines.append(line)
    return "\n".join(lines)


def main():
    for path, table in TWINS.items():
        text = read(path)
        write(path, text, apply(text, table))
    names = own_names()
    table = renames(names)
    # what port.py had turned already, for pages and edits, which it does not read
    older = {}
    for name in list(names) + list(table.values()):
        for old in {re.sub(r"_([a-z0-9])", lambda m: m.group(1).upper(), name), name.replace("_", "-")}:
            if old != name and old not in table and old not in names:
                older[old] = table.get(name, name)
    together = collections.defaultdict(set)
    for name in names:
        together[table.get(name, name)].add(name)
    for new, old in together.items():
        if len(old) > 1:
            print(f"fall together: {sorted(old)} as {new}", file=sys.stderr)
    for pattern in (SPECS, PROOFS):
        for path in sorted(glob.glob(pattern, recursive=True)):
            text = read(path)
            write(path, text, apply(text, table))
    code = {old: new for old, new in table.items() if "-" not in old}
    for path in sorted(glob.glob("crates/*/src/*.rt")):
        text = read(path)
        write(path, text, apply(text, code))
    whole = dict(older)
    whole.update(table)
    for path in sorted(glob.glob("crates/*/must-fail/*.edit")):
        text = read(path)
        write(path, text, edit_text(text, whole))
    for path in ["README.md"] + sorted(glob.glob("docs/*.md")):
        if path == "docs/PORT.md":
            continue
        text = read(path)
        write(path, text, clauses_only(text, whole))


if __name__ == "__main__":
    main()
