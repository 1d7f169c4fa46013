#!/usr/bin/env python3
"""Brings the repository's own definitions and lemmas to snake case, after Rattle's own port.py has run.

usage: python3 tools/respell.py        at the top of the repository, once; files are rewritten in place

A word is in snake case. A dash stays where it joins the names of two functions, as in `length-entries`; elsewhere it is a `_`.
Types, facts and modules keep their camel case. Functions of src/, strings and the names that Rattle makes are left alone.
It prints each name that it turned, and stops before it writes anything if two names would fall together. Names that port.py
has made one already it cannot tell apart.
"""
import collections
import glob
import os
import re
import sys

GENERATED = ("Answers.antt", "Invariants.antt", "Proof.antt")
# Functions of the library whose names the lemmas' names begin or end with.
LIBRARY = {"length", "take", "drop", "set", "append", "sum", "map", "decimal"}
DECLARED = re.compile(
    r"^\s*((?:(?:abbrev|unfoldable|pub|data|record)\s+)*)([^\s:({.]+)\s*(?:\([^)]*\)\s*|\{[^}]*\}\s*)*:\s"
)
# Names that would fall together with another, or have an acronym.
CHOSEN = {
    "line-of": "joined_line",
    "sameFlag": "flag_eq",
    "sameMode": "mode_eq",
    "sameReading": "reading_eq",
    "oneTurned": "reads_one_turned",
    "oneTurned-test": "reads_one_turned_test",
    "oneDetected": "finds_one_turned",
    "oneDetected-test": "finds_one_turned_test",
    "twoTurned": "finds_two_turned",
    "twoTurned-test": "finds_two_turned_test",
}
# What port.py turned already: for the pages, which it leaves alone.
PORTED = (
    "allBelow bytes-of bytesOf cellAt cells-same cellsIn count-next count-small each-below entryOf fieldsOf first-of firstOf in-all "
    "kept-full kept-more kept-next later-more line-taken lineAt lineOf linkOf markOf nameOf namedBy number-short numberOf ofAll "
    "one-answer one-more reads-so same-flag same-place secondOf slotsOf some-below stays-open storedAt textOf turned-none was-free "
    "written-none written-twice"
).split()
WORDS = {"let", "use", "mod", "unfolding", "elim", "λ", "where", "--"}
TOKEN = re.compile(r'"[^"\n]*"|[^\s(){}\[\];,.:|"`]+')


def sources():
    for pattern in ("specs/**/*.antt", "proofs/**/*.antt"):
        yield from sorted(glob.glob("crates/*/" + pattern, recursive=True))


def declared():
    """The names of definitions and of lemmas, each with the files that declare it."""
    functions, all_names = set(LIBRARY), collections.defaultdict(set)
    for path in sources():
        if os.path.basename(path) in GENERATED:
            continue
        with open(path, encoding="utf-8") as file:
            for line in file:
                found = DECLARED.match(line)
                if not found or found.group(2) in WORDS:
                    continue
                all_names[found.group(2)].add(path)
                if "abbrev" in found.group(1) or "unfoldable" in found.group(1):
                    functions.add(snake(found.group(2)))
    return functions, all_names


def snake(name):
    if name[:1].isupper():
        return name
    return re.sub(r"(?<=[a-z])[A-Z]", lambda m: "_" + m.group(0), name).lower()


def spelled(name, functions):
    if name in CHOSEN:
        return CHOSEN[name]
    parts = [snake(part) for part in name.split("-")]
    new = parts[0]
    for part, after in zip(parts, parts[1:]):
        new += ("-" if part in functions and after in functions else "_") + after
    return new


def renamings():
    functions, names = declared()
    turned = {name: spelled(name, functions) for name in names}
    return {old: new for old, new in turned.items() if old != new and not old[0].isupper()}, names


def clashes(turned, names):
    """Names that fall together: two that become one, or one that a file which uses it has for something else."""
    said = []
    made = collections.defaultdict(set)
    for name in names:
        made[turned.get(name, name)].add(name)
    said += [f"{', '.join(sorted(olds))} become {new}" for new, olds in made.items() if len(olds) > 1]
    for path in list(sources()):
        with open(path, encoding="utf-8") as file:
            tokens = set(TOKEN.findall(re.sub(r"^use .*\.", "", file.read(), flags=re.M)))
        said += [f"{path} has {new} beside {old}" for old, new in turned.items() if old in tokens and new in tokens]
    return said


def rewrite(path, turned):
    with open(path, encoding="utf-8") as file:
        text = file.read()
    if path.endswith(".md"):
        new = re.sub(r"`[^`\n]*`", lambda code: TOKEN.sub(lambda m: turned.get(m.group(0), m.group(0)), code.group(0)), text)
    else:
        new = TOKEN.sub(lambda m: turned.get(m.group(0), m.group(0)), text)
    if new != text:
        with open(path, "w", encoding="utf-8") as file:
            file.write(new)


def main():
    turned, names = renamings()
    pages = {**turned, **{name: snake(name).replace("-", "_") for name in PORTED}}
    for old, new in sorted(turned.items()):
        print(f"{old} -> {new}")
    fallen = clashes(turned, names)
    if fallen:
        print("\n".join(fallen), file=sys.stderr)
        return 1
    for path in [*sources(), *sorted(glob.glob("crates/*/src/*.rt"))]:
        rewrite(path, turned)
    for path in ["README.md", *sorted(glob.glob("docs/**/*.md", recursive=True))]:
        rewrite(path, pages)
    return 0


if __name__ == "__main__":
    sys.exit(main())
