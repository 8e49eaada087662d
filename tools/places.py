#!/usr/bin/env python3
"""Counts places of older forms, as docs/DESIGN-PASS.md does.

    python3 tools/places.py [FOLDER]

reads crates/*/src/*.rt below FOLDER (here, if none is given), without comments and clauses, and prints each
place, then how many of each kind there are. Twins are what tools/shapes.py lists. Exports (crates whose
names end in _c) are left out: they repeat what C asks for.
"""
import re
import sys
from pathlib import Path

LINES = {
    "1a own enums": r"\s*(pub(\(crate\))? )?enum ",
    "1b failures handed on by hand": r".*((Fault|NoNumber)\(\w+\) =>|if number != 0 \{|if (flush::)?succeeded\()",
    "1c flags and numbers for kinds": r".*\b((flush|whole|back): bool|(kind|call|number|own|direction): (u32|usize))\b",
    "3a loops": r"\s*(while|loop|let \w+ = loop)\b",
    "3b an index or a count moved by one": r".*[+-]= 1;|\s*(\w+) = \1 [+-] 1;",
}
HEAD = re.compile(r"^\s*(?:pub(?:\(crate\))?\s+)?fn\s+(\w+)")
LENT = {"storage", "script", "medium", "stock", "state"}


def code(line):
    """A line without its comment; nothing of a clause or an attribute."""
    return "" if re.match(r"\s*(ghost|requires|ensures|#)", line) else re.sub(r"//.*", "", line)


def deep(line):
    return len(line) - len(line.lstrip())


def parameters(text):
    """The names of a function's parameters."""
    depth = 0
    start = text.index("(")
    for place in range(start, len(text)):
        depth += {"(": 1, ")": -1}.get(text[place], 0)
        if depth == 0:
            return set(re.findall(r"(\w+):", text[start:place]))
    return set()


def functions(lines):
    """The name, the parameters' names and the body of each function."""
    for at, line in enumerate(lines):
        head = HEAD.match(line)
        if not head:
            continue
        body, inside = [], line.rstrip().endswith("{")
        for later in lines[at + 1:]:
            edge = deep(later) == deep(line) and later.strip()
            if inside and edge:
                break
            if inside:
                body.append(code(later))
            elif edge == "{":
                inside = True
            elif edge and edge.endswith(";"):
                break
        yield head.group(1), parameters("\n".join(lines[at:])), [row for row in body if row.strip()]


def is_conversion(name, body):
    """Whether a body is one match, and the function no method of a library's trait."""
    edges = [row for row in body if deep(row) == deep(body[0])] if body else []
    return (
        name not in ("from", "fmt")
        and len(edges) == 2
        and edges[0].strip().startswith("match ")
        and all(deep(row) > deep(body[0]) + 4 or "=>" in row or row.strip() == "}" for row in body[1:-1])
    )


def kinds(name, names, body):
    """The kinds of place that a function is."""
    if is_conversion(name, body):
        yield "4a a function that is one match"
    if re.search(r"copy|paste|shift_|same_|put_byte|wide$|block", name):
        yield "4b copies and comparisons of its own"
    if len(names & LENT) > 2:
        yield "5a storage, script, medium or stock, and state as parameters"
    if {"output", "at"} <= names:
        yield "5b a page as bytes and a place"
    if {"session", "kind"} <= names or {"trace", "total"} <= names:
        yield "6a a place in a session or a trace, and what was before it"
    if {"capacity", "flush"} <= names or "set" in names or "next" in names and "low" in names:
        yield "6b a set as an array, and its sizes"


def main():
    top = Path(sys.argv[1] if len(sys.argv) > 1 else ".")
    found = {}
    for path in sorted(top.glob("crates/*/src/**/*.rt")):
        crate = path.relative_to(top).parts[1]
        if crate.endswith("_c"):
            continue
        lines = path.read_text().split("\n")
        for number, line in enumerate(lines, 1):
            for kind, pattern in LINES.items():
                if re.match(pattern, code(line)):
                    found.setdefault(kind, []).append(f"{crate}/{path.name}:{number}: {line.strip()}")
        for name, names, body in functions(lines):
            for kind in kinds(name, names, body):
                found.setdefault(kind, []).append(f"{crate}/{path.name}: {name}")
    for kind in sorted(found):
        for place in found[kind]:
            print(f"{kind}: {place}")
    for kind in sorted(found):
        print(f"{len(found[kind]):4} {kind}")


main()
