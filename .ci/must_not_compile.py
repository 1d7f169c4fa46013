#!/usr/bin/env python3
"""Tries the edits crates/NAME/must-not-compile/*.edit: each must be refused by the compiler, with the error that it names.

An edit has four lines: `file: F`, `old: TEXT` (standing once in F), `new: TEXT` and `error: TEXT`. The edits in must-fail/,
which rt tries, are those that only the prover can refuse.
"""
import pathlib
import shutil
import subprocess
import sys
import tempfile

ROOT = pathlib.Path(__file__).resolve().parent.parent


def copy_repository(to):
    """The crates, but not what a check would go on from."""
    shutil.copy(ROOT / "crates.txt", to)
    shutil.copytree(ROOT / "crates", to / "crates", ignore=shutil.ignore_patterns("out"))


def read_edit(path):
    return dict(line.split(": ", 1) for line in path.read_text().splitlines())


def wrong(copy, edit):
    """What is wrong with an edit, or None. The file is then as it was."""
    crate = edit.parent.parent.name
    parts = read_edit(edit)
    source = copy / "crates" / crate / parts["file"]
    text = source.read_text()
    if text.count(parts["old"]) != 1:
        return f"its old text is {text.count(parts['old'])} times in {parts['file']}"
    source.write_text(text.replace(parts["old"], parts["new"]))
    # A check reads the sources before it proves anything, and stops there if they do not compile.
    run = subprocess.run(["rt", "check"], cwd=copy / "crates" / crate, capture_output=True, text=True)
    source.write_text(text)
    if run.returncode == 0:
        return "it compiles"
    return None if parts["error"] in run.stderr + run.stdout else f"it is refused for another reason: {run.stderr[-1000:]}"


def main():
    edits = sorted(ROOT.glob("crates/*/must-not-compile/*.edit"))
    failed = 0
    with tempfile.TemporaryDirectory() as folder:
        copy = pathlib.Path(folder)
        copy_repository(copy)
        for edit in edits:
            what = wrong(copy, edit)
            failed += what is not None
            print(f"must not compile: {edit.relative_to(ROOT)}: {what or 'refused, as it must be'}")
    return 1 if failed else 0


if __name__ == "__main__":
    sys.exit(main())
