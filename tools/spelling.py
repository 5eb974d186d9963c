#!/usr/bin/env python3
"""Respells the names of definitions and lemmas as Rattle does: words in snake case, types and modules in camel case.

usage: tools/spelling.py [--check] [TOP]     TOP: the top of the repository; without it the folder that is current

A word in camel case that begins small, and is declared in a .antt file of crates/, is respelled wherever it stands in .antt, .rt and .edit files of crates/
and in the documents: of `isName-joined`, which is a lemma's name, each part between dashes alone. A word that is declared nowhere keeps its spelling, as do
strings in code. Run it once, with everything committed: a second run changes nothing.
It lists names that fall together: with another declaration of the same module, with a name that a file imports from elsewhere, with a parameter that a clause
would take for the definition. --check only lists.
"""
import os
import re
import sys

WORD = re.compile(r"[^\s(){}\[\],;.«»`\"'|/<>:]+")
DECLARED = re.compile(r"^\s*(?:(?:pub|abbrev|unfoldable|opaque)\s+)*([^\s:(){}.,]+)\s+:(?:\s|$)")
NAMED = re.compile(r"^\s*(?:pub\s+)?(?:record|data|ruleset)\s+(?:pub\s+)?([^\s:(){}]+)")
BINDERS = re.compile(r"[({]([^\s(){}:][^(){}:]*) :")
IMPORT = re.compile(r"use\s+(\S+?)\.\{([^}]*)\}")
CAMEL = re.compile(r"^[a-z][a-z0-9]*[A-Z]")


def snake(part):
    if not CAMEL.match(part):
        return part
    part = re.sub(r"([A-Z]+)([A-Z][a-z])", r"\1_\2", part)
    return re.sub(r"([a-z0-9])([A-Z])", r"\1_\2", part).lower()


def respelled(name):
    return "-".join(snake(p) for p in name.split("-"))


def files(top, *endings):
    for folder, folders, names in os.walk(top):
        folders[:] = sorted(f for f in folders if f not in ("out", "target", ".git"))
        for name in sorted(names):
            if name.endswith(endings):
                yield os.path.join(folder, name)


def declared(text):
    names = set()
    for line in text.split("\n"):
        line = line.split("-- ")[0]
        for found in (DECLARED.match(line), NAMED.match(line)):
            if found:
                names.add(found[1])
    return names


def main():
    words = [w for w in sys.argv[1:] if w != "--check"]
    top, check = (words or ["."])[0], "--check" in sys.argv
    crates = os.path.join(top, "crates")
    texts = {p: open(p, encoding="utf-8").read() for p in files(crates, ".antt", ".rt", ".edit")}
    by_file = {p: declared(t) for p, t in texts.items() if p.endswith(".antt")}
    every = set().union(*by_file.values())
    table = {n: respelled(n) for n in every if respelled(n) != n}
    together = []
    for p, names in by_file.items():
        for n in names:
            if n in table and table[n] in names:
                together.append(f"{p}: {n} and {table[n]}")
    for p, t in texts.items():
        brought = {w: m for m, ws in IMPORT.findall(t) for w in re.split(r"[,\s]+", ws) if w}
        for w in brought:
            if w in table and brought.get(table[w], brought[w]) != brought[w]:
                together.append(f"{p}: {w} of {brought[w]} and {table[w]} of {brought[table[w]]}")
        if p.endswith(".rt"):
            for n in {table[w] for w in brought if w in table}:
                if re.search(r"\b" + re.escape(n) + r"\s*:\s*(&|u\d|usize|bool|[A-Z])", t):
                    together.append(f"{p}: a parameter or field {n} beside the definition")
        else:
            bound = {w for ws in BINDERS.findall(t) for w in ws.split()}
            for n in {table[w] for w in set(brought) | by_file.get(p, set()) if w in table}:
                if n in bound:
                    together.append(f"{p}: {n} is also bound")
    for line in sorted(set(together)):
        print("together: " + line)
    docs = [p for p in files(top, ".md") if not p.startswith(os.path.join(top, "reference"))]
    texts.update({p: open(p, encoding="utf-8").read() for p in docs})
    for p, t in texts.items():
        new = WORD.sub(lambda m: table.get(m[0], m[0]), t)
        if new != t:
            print(p)
            if not check:
                open(p, "w", encoding="utf-8").write(new)


main()
