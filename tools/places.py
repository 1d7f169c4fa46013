#!/usr/bin/env python3
"""Lists, in the src folders of a commit or of the work tree, the lines where an older form may stand.

Usage: python3 tools/places.py [COMMIT] [--list]

It finds candidates and no more: docs/DESIGN-PASS.md says of each which of them are places, and what became of it.
"""
import difflib
import itertools
import re
import subprocess
import sys
from collections import Counter

PATTERNS = {
    1: [r"\benum [A-Z]", r"\bbool\b", r"\bfn number", r"\bnumber: u16"],
    3: [r"\bwhile\b", r"\bloop\b", r"\bfor \w+ in .*\.\.", r"\+= 1\b", r"wrapping_add\(1\)", r"/= 2\b"],
    4: [
        r"\bfn (name|number|numbered|read|bytes|letter|mark|mark_word|validity_word|hex_digit|push_digits|line|summary|refusal_line)\(",
        r"impl .*(PartialEq|Ord|Clone|Default|Display|From<)",
        r"fault\.number\(\)",
    ],
    6: [r"\[[a-z0-9]+; [\w:]+\]", r"\bVec<", r"\b(len|count|used|filled|taken|waiting|unused|place|number): (usize|u32|u8)\b", r"let mut (filled|number|place|n) ="],
    7: [r"\bfn\(", r"\bdyn\b", r"script % 2|rest % 2|script >>", r"impl Fn|: Fn"],
}


def git(*args):
    return subprocess.check_output(["git", *args], text=True)


def sources(commit):
    if commit:
        names = git("ls-tree", "-r", "--name-only", commit, "crates").split()
    else:
        names = git("ls-files", "crates").split()
    for name in names:
        if re.search(r"/src/.*\.rt$", name):
            yield name, git("show", f"{commit}:{name}") if commit else open(name).read()


def functions(text):
    """Each function: its name, its parameters and its body."""
    for m in re.finditer(r"\bfn (\w+)[^(]*\(", text):
        depth, i = 1, m.end()
        while depth:
            depth += {"(": 1, ")": -1}.get(text[i], 0)
            i += 1
        params = text[m.end() : i - 1]
        start = re.compile(r"^ *\{$|\{$", re.M).search(text, i)
        if not start:
            continue
        j, depth = start.end(), 1
        while depth and j < len(text):
            depth += {"{": 1, "}": -1}.get(text[j], 0)
            j += 1
        yield m.group(1), params, text[start.end() : j - 1]


def shape(body):
    """The body with its names and literals taken out."""
    return re.findall(r"\b(?:for|in|if|else|match|return|let|mut|Ok|Err|Some|None)\b|\w+|[^\w\s]", re.sub(r"//.*", "", body))


def main():
    args = [a for a in sys.argv[1:] if a != "--list"]
    show = "--list" in sys.argv
    files = list(sources(args[0] if args else None))
    for point, patterns in PATTERNS.items():
        found = [
            (name, n, line.strip())
            for name, text in files
            for n, line in enumerate(text.split("\n"), 1)
            if any(re.search(p, line) for p in patterns) and not line.strip().startswith(("//", "ghost use"))
        ]
        print(f"point {point}: {len(found)} lines")
        if show:
            for name, n, line in found:
                print(f"    {name}:{n}: {line}")
    every = [(name, fn, params, body) for name, text in files for fn, params, body in functions(text)]
    words = [(f"{name}:{fn}", [w if not re.match(r"[a-z_]\w*$|\d", w) or w in KEEP else "x" for w in shape(body)]) for name, fn, _, body in every]
    twins = [
        (a, b)
        for (a, s), (b, t) in itertools.combinations(words, 2)
        if min(len(s), len(t)) >= 25 and difflib.SequenceMatcher(None, s, t, autojunk=False).ratio() >= 0.85
    ]
    print(f"point 2: {len(twins)} pairs of functions with bodies of one shape")
    if show:
        for a, b in twins:
            print(f"    {a} / {b}")
    pairs = Counter()
    for _, _, params, _ in every:
        names = sorted({re.sub(r"\s", "", p.split(":")[0]).replace("mut", "") for p in re.split(r",(?![^<]*>)", params) if ":" in p})
        pairs.update(itertools.combinations(names, 2))
    often = [(pair, n) for pair, n in pairs.items() if n >= 3]
    clauses = Counter(
        re.sub(r"\s+", " ", c).strip()
        for _, text in files
        for c in re.findall(r"\b(?:ensures|requires)\b[^{]*\{(.*)\}", text)
    )
    repeated = [(c, n) for c, n in clauses.items() if n >= 3]
    print(f"point 5: {len(often)} pairs of parameters in three or more functions, {len(repeated)} facts in three or more clauses")
    if show:
        for pair, n in often:
            print(f"    {n} functions take {pair[0]} and {pair[1]}")
        for c, n in repeated:
            print(f"    {n} clauses: {c}")


KEEP = {"for", "in", "if", "else", "match", "return", "let", "mut"}

if __name__ == "__main__":
    main()
