#!/usr/bin/env python3
"""What contracts say, at a commit and in the working tree, old beside new, as Markdown for docs/DESIGN-PASS.md.

    tools/side_by_side.py COMMIT     public signatures, clauses of public functions, ghost members, and definitions of specs/

It asks the toolchain's own comparison of contracts, and leaves out functions that are private to a crate.
"""
import json
import pathlib
import re
import subprocess
import sys
import tempfile

COMPARE = "/opt/rattle/port/contracts.py"


def compared(commit, old):
    """The toolchain's comparison of a commit, checked out in the folder `old`, with the working tree."""
    subprocess.run(["git", "clone", "-q", ".", old], check=True)
    subprocess.run(["git", "checkout", "-q", commit], cwd=old, check=True)
    told = subprocess.run([sys.executable, COMPARE, old, ".", "--json"], capture_output=True, text=True, check=False)
    return json.loads(told.stdout)


def public(old, name):
    """Whether the function `CRATE FILE [TYPE] NAME` could be called from other crates."""
    crate, path, *rest = name.split(" ")
    text = (pathlib.Path(old) / "crates" / crate / path).read_text(encoding="utf-8")
    return re.search(rf"\bpub (?:final |const |extern \"C\" )*fn {re.escape(rest[-1])}\b", text) is not None


def short(name):
    crate, _, *rest = name.split(" ")
    return f"`{crate} {' '.join(rest)}`"


def clause(kind, name, text):
    return f"{kind} {name} {{ {text} }}" if name else f"{kind} {{ {text} }}"


def clauses(requires, ensures):
    return [clause("requires", *c) for c in requires] + [clause("ensures", *c) for c in ensures]


def show(title, old, new):
    print(f"{title}\n")
    for line in old:
        print(f"    old  {line}")
    for line in new:
        print(f"    new  {line}")
    print()


def main():
    commit = sys.argv[1]
    with tempfile.TemporaryDirectory() as old:
        told = compared(commit, old)
        print("### Public signatures\n\n| function | old | new |\n| --- | --- | --- |")
        for name, before, after in told["signatures changed"]:
            if public(old, name):
                print(f"| {short(name)} | `{before}` | `{after}` |")
        print("\n### Clauses of public functions\n\nOnly the clauses that are not word for word the same.\n")
        for name, requires, ensures, requires_now, ensures_now in told["contracts changed"]:
            before, after = clauses(requires, ensures), clauses(requires_now, ensures_now)
            only = [c for c in before if c not in after], [c for c in after if c not in before]
            if public(old, name) and any(only):
                show(short(name), *only)
        for title, key in [("Ghost members and constants", "ghost items and constants"), ("Definitions of specs/", "definitions")]:
            print(f"### {title}\n")
            for *name, before, after in told[key]["changed"]:
                show(f"`{' '.join(name)}`", before, after)
            print("Gone: " + ", ".join(f"`{' '.join(gone)}`" for gone in told[key]["gone"]) + ".\n")


main()
