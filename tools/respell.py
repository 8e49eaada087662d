#!/usr/bin/env python3
"""Respells the repository's own definitions, lemmas, fields and constructors: words in snake case.

usage: python3 tools/respell.py     at the top, once, after the kit's port.py

A name is respelled where a file of specs/ or proofs/ declares it. camelCase and dashes become snake case;
a dash stays where it joins two words of lists (`length-put`). Goals' names, and names that come from src/,
keep their spelling. It prints the names that fall together, and the whole table.
"""
import os
import re
import sys
from collections import defaultdict

JOINED = {"length", "take", "drop", "put", "get_or", "set", "append", "hex_digits"}
# Where a respelled name would be another's: of a fact and a number, or of a lemma and its function.
OTHERWISE = {
    "capacity-most": "capacity_within",
    "script-most": "script_within",
    "refusal-of": "refusal_of_lem",
    "replies-in": "replies_in_lem",
    "session-most": "session_most_lem",
}
TOP = re.compile(r"^(?:(?:unfoldable|abbrev|pub)\s+)*([^\s:{}()]+)(?:\s+\{[^}]*\})?\s+:\s")
INNER = re.compile(r"^\s+(?:(?:unfoldable|abbrev|pub)\s+)*([^\s:{}()λ]+)\s+:\s")
TOKEN = re.compile(r"[^\s(){}\[\].;,\"`:|]+")
USE = re.compile(r"^\s*(?:ghost )?use ([^\s{;]+)\.\{([^}]*)\}", re.M)


def snake(word):
    return re.sub(r"([a-z0-9])([A-Z])", lambda m: m.group(1) + "_" + m.group(2).lower(), word)


def respelled(name):
    if name in OTHERWISE:
        return OTHERWISE[name]
    parts = [snake(p) for p in name.split("-")]
    text = parts[0]
    for before, part in zip(parts, parts[1:]):
        text += ("-" if before in JOINED and part in JOINED else "_") + part
    return text


def wants(name):
    if not name[0].islower():
        return False
    return bool(re.search(r"[a-z0-9][A-Z]", name)) or "-" in name


def files():
    for folder, dirs, names in os.walk("crates"):
        dirs[:] = sorted(d for d in dirs if d != "out")
        for name in sorted(names):
            if name.endswith((".antt", ".rt", ".edit")):
                yield os.path.join(folder, name)


def proof_of_function(path):
    parts = path.split(os.sep)
    return "proofs" in parts and len(parts) - parts.index("proofs") > 2


def declared(path, text):
    kind = None
    for line in text.split("\n"):
        if line and not line[0].isspace():
            kind = None
            if re.match(r"(pub\s+)?(record|data)\b", line):
                kind = "inner"
            found = TOP.match(line)
            if found:
                yield found.group(1)
        else:
            found = INNER.match(line)
            if found:
                yield found.group(1)


def main():
    texts = {p: open(p, encoding="utf-8").read() for p in files()}
    sources = set()
    for p, t in texts.items():
        if p.endswith(".rt"):
            sources.update(m.replace("_", "-") for m in re.findall(r"\bfn (\w+)", t))
    names = set()
    for p, t in texts.items():
        if p.endswith(".antt") and not proof_of_function(p):
            names.update(n for n in declared(p, t) if wants(n))
        elif p.endswith("Proof.antt"):
            # of a function's proof: its own lemmas, and no goal
            for n in declared(p, t):
                goal = re.search(r"^(?:pub )?" + re.escape(n) + r" : (tie\.|\{M : Type 1\})", t, re.M)
                if wants(n) and not goal and not re.search(r"^(?:pub )?" + re.escape(n) + r" : ", t, re.M) is None:
                    names.add(n)
    imported = set()
    for p, t in texts.items():
        if p.endswith((".antt", ".rt")):
            for path, inside in USE.findall(t):
                if not path.startswith("Rattle.") or path.startswith("Rattle.std."):
                    imported.update(x.strip() for x in inside.split(","))
    both = names & imported
    if both:
        print("of the library too, kept:", " ".join(sorted(both)))
    names -= both
    table = {n: respelled(n) for n in names}
    fallen = defaultdict(list)
    for n, r in table.items():
        fallen[r].append(n)
    for r, ns in sorted(fallen.items()):
        if len(ns) > 1:
            print("fall together:", r, sorted(ns))
    for p, t in texts.items():
        tokens = set(TOKEN.findall(t))
        for n in names & tokens:
            if table[n] in tokens:
                print("already there:", p, n, table[n])
    for p, t in texts.items():
        inner = proof_of_function(p)

        def turn(m):
            word = m.group(0)
            tail = ""
            while word.endswith("'"):
                word, tail = word[:-1], tail + "'"
            if word in table and not (inner and word in sources):
                return table[word] + tail
            return m.group(0)

        if p.endswith(".rt"):
            new = re.sub(r"(?m)^.*$", lambda l: TOKEN.sub(turn, l.group(0)) if ghost(l.group(0)) else l.group(0), t)
        elif p.endswith(".edit"):
            new = t
            if "file: specs/" in t or "file: proofs/" in t:
                new = TOKEN.sub(turn, t)
        else:
            new = TOKEN.sub(turn, t)
        if new != t:
            open(p, "w", encoding="utf-8").write(new)
    for n in sorted(table):
        print(n, table[n])
    print(len(table), "names respelled")


def ghost(line):
    return bool(re.match(r"\s*(ghost use|requires|ensures|pub ghost|ghost)\b", line)) or "≡" in line


if __name__ == "__main__":
    sys.exit(main())
