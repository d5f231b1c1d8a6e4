#!/usr/bin/env python3
"""Places in the source that could be written in a newer form, counted for docs/DESIGN-PASS.md.

    tools/places.py [COMMIT]     of the working tree, or of a commit; one block for each point

It goes by text, so it finds candidates; docs/DESIGN-PASS.md says what became of each.
"""
import collections
import re
import subprocess
import sys


def sources(commit):
    """(path, text) of each source file."""
    if commit:
        names = subprocess.run(["git", "ls-tree", "-r", "--name-only", commit, "crates"], capture_output=True, text=True, check=True)
        for path in names.stdout.split():
            if path.endswith(".rt"):
                yield path, subprocess.run(["git", "show", f"{commit}:{path}"], capture_output=True, text=True, check=True).stdout
    else:
        names = subprocess.run(["git", "ls-files", "crates"], capture_output=True, text=True, check=True)
        for path in names.stdout.split():
            if path.endswith(".rt"):
                with open(path, encoding="utf-8") as file:
                    yield path, file.read()


FUNCTION = re.compile(r"^( *)(?:pub(?:\([a-z]+\))? )?(?:extern \"C\" )?fn (\w+)", re.M)


def functions(text):
    """(line, name, head, body) of each function: its head ends where the body's brace opens at the function's own indent."""
    for match in FUNCTION.finditer(text):
        indent, name = match.groups()
        rest = text[match.start():]
        opened = re.search(rf"(?:^{indent}\{{$| \{{$)", rest, re.M)
        if not opened or ";\n" in rest[:opened.start()] and re.search(r"\}?;\n", rest[:opened.start()]):
            continue
        closed = re.search(rf"^{indent}\}}", rest[opened.end():], re.M)
        if closed:
            line = text.count("\n", 0, match.start()) + 1
            yield line, name, rest[:opened.start()], rest[opened.end():opened.end() + closed.start()]


def shape(body):
    """The body with each name and number replaced by a sign, so that twins look alike."""
    body = re.sub(r"//.*", "", body)
    body = re.sub(r'"(?:[^"\\]|\\.)*"', '"', body)
    words = {"let", "mut", "for", "in", "if", "else", "match", "return", "while", "self", "Self", "Some", "None", "Ok", "Err", "as"}
    tokens = re.findall(r"\w+|[^\w\s]", body)
    return tuple(t if t in words or not re.match(r"\w", t) else "_" for t in tokens)


def lines(pattern, files):
    found = []
    for path, text in files:
        for number, line in enumerate(text.split("\n"), 1):
            if re.search(pattern, line) and not line.lstrip().startswith("//"):
                found.append(f"{path}:{number}: {line.strip()}")
    return found


def many_lines(pattern, files):
    found = []
    for path, text in files:
        for match in re.finditer(pattern, text, re.M):
            number = text.count("\n", 0, match.start()) + 1
            found.append(f"{path}:{number}: {' '.join(match.group(0).split())[:100]}")
    return found


def show(title, found):
    print(f"\n## {title}: {len(found)}")
    for place in found:
        print(f"  {place}")


def parameters(head):
    inside = re.search(r"\((.*?)\)\s*(?:->|$|\n|requires|ensures)", head, re.S)
    if not inside:
        return []
    return [p.strip() for p in re.split(r",(?![^<\[(]*[>\])])", inside.group(1)) if p.strip()]


def main():
    files = list(sources(sys.argv[1] if len(sys.argv) > 1 else None))
    every = [(path, *f) for path, text in files for f in functions(text)]
    show("1a enums", lines(r"^\s*(pub(\(crate\))? )?enum ", files))
    show("1b a success as a bool, with a write", [f"{p}:{l}: {n}" for p, l, n, h, b in every if "&mut" in h and re.search(r"-> bool\b", h)])
    show("1c an answer taken apart and put together again", many_lines(
        r"Some\((\w+)\) => Some\([^\n]*\n\s*None => None|None => None,\n\s*\w*:*\w*\(\w+\) =>|Ok\(\w*\(?\)?\)? => Ok\([^\n]*\n\s*Err\((\w+)\) => Err\(\2\)"
        r"|Err\((\w+)\) => (?:return )?Err\(\3\)|Ok\(\(\)\) => Ok\(\(\)\)", files))
    show("1d numbers for kinds or refusals", lines(r"fn (number|numbered|layer|field|sheet|inverse_kind)\b|\bkind: u64|=> \d+,$", files))
    twins = collections.defaultdict(list)
    for path, line, name, head, body in every:
        form = shape(body)
        if len(form) >= 12:
            twins[form].append(f"{path}:{line} {name}")
    show("2 functions of one shape", [", ".join(group) for group in twins.values() if len(group) > 1])
    show("3 loops", lines(r"^\s*('\w+: )?(while|for|loop)\b.*\{$", files))
    show("3 of them by a count or a condition", lines(r"^\s*('\w+: )?(while\b|for \w+ in [^{]*\.\.)", files))
    show("4 equality, conversion and printing", lines(r"fn (same|equal|of|of_\w+|number_of|numbered|write_\w+)\b|impl.* (From|TryFrom|PartialEq)\b|Display for", files))
    show("4 fields compared one by one", lines(r"if (self|other)[.\w\[\]]* != (self|other)", files))
    groups = collections.Counter()
    for path, line, name, head, body in every:
        given = parameters(head)
        for width in (3, 4, 5):
            for start in range(len(given) - width + 1):
                groups[tuple(given[start:start + width])] += 1
    show("5a three or more parameters together, in three or more functions",
         [f"{count} times ({', '.join(group)})" for group, count in groups.most_common() if count > 2 and not any("self" in g for g in group)])
    clauses = collections.defaultdict(list)
    for path, line, name, head, body in every:
        for clause in re.findall(r"(?:requires|ensures\*?)(?: \w+)? \{(.*?)\}\s*(?=requires|ensures|$)", head, re.S):
            clauses[" ".join(clause.split())].append(f"{path}:{line} {name}")
    show("5b a clause in three or more functions", [f"{len(at)} times {clause}" for clause, at in clauses.items() if len(at) > 2])
    show("6 arrays of a fixed length", lines(r"\[\w+; \w+\]", files))
    show("7 a step or a function chosen by a value", lines(r"match (\w+\.)?(mode|ring|kind|verb)\b", files))


main()
