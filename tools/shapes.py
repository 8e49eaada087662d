#!/usr/bin/env python3
"""Lists functions of one shape: alike but for names, types and numbers.

    python3 tools/shapes.py [FOLDER]

reads crates/*/src/*.rt below FOLDER (here, if none is given). Comments and clauses are left out, a name
becomes `x` and a number `0`; functions whose bodies are then the same, and longer than two lines, are one
group. Exports (crates whose names end in _c) are left out: they repeat what C asks for.
"""
import re
import sys
from pathlib import Path

WORDS = {
    "fn", "let", "mut", "if", "else", "match", "while", "loop", "for", "in", "return", "break",
    "continue", "as", "true", "false", "self", "Some", "None", "Ok", "Err",
}
HEAD = re.compile(r"^\s*(?:pub(?:\(crate\))?\s+)?(?:extern \"C\"\s+)?fn\s+(\w+)")


def functions(text):
    """Pairs of a name and a body."""
    lines = text.split("\n")
    at = 0
    while at < len(lines):
        head = HEAD.match(lines[at])
        if not head:
            at += 1
            continue
        indent = len(lines[at]) - len(lines[at].lstrip())
        body, inside, end = [], lines[at].rstrip().endswith("{"), at + 1
        while end < len(lines):
            line = lines[end]
            deep = len(line) - len(line.lstrip())
            if not inside and line.strip() == "{" and deep == indent:
                inside = True
            elif inside and line.strip() == "}" and deep == indent:
                break
            elif inside:
                body.append(line)
            elif line.strip().endswith(";") and deep == indent:
                break
            end += 1
        yield head.group(1), body
        at = end + 1


def shape(body):
    """What is left of a body without names and numbers."""
    kept = []
    for line in body:
        line = re.sub(r"//.*", "", line).strip()
        if line:
            line = re.sub(r'b?"[^"]*"', '""', line)
            line = re.sub(r"\b[A-Za-z_]\w*\b", lambda m: m.group() if m.group() in WORDS else "x", line)
            kept.append(re.sub(r"\b\d\w*\b", "0", line))
    return "\n".join(kept), len(kept)


def main():
    top = Path(sys.argv[1] if len(sys.argv) > 1 else ".")
    groups = {}
    for path in sorted(top.glob("crates/*/src/**/*.rt")):
        crate = path.relative_to(top).parts[1]
        if crate.endswith("_c"):
            continue
        for name, body in functions(path.read_text()):
            text, long = shape(body)
            if long > 2:
                groups.setdefault(text, []).append(f"{crate}/{path.name}:{name}")
    found = [group for group in groups.values() if len(group) > 1]
    for group in sorted(found):
        print("  ".join(group))
    print(f"{len(found)} groups, {sum(map(len, found))} functions")


main()
