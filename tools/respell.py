#!/usr/bin/env python3
"""Brings this repository's own definitions and lemmas to the spelling of today's Rattle: words in snake case, types in camel case.

usage: python3 tools/respell.py [--dry]     at the top of the repository, once, right after the kit's port.py

Renamed are names that a file of specs/ or proofs/ declares. Names that Rattle makes (goals), names of src/, strings and inputs keep
their spelling. A name that the library also has is renamed only in files that declare it or import it from this repository.
"""

import os
import re
import subprocess
import sys

KIT = os.path.dirname(subprocess.run(["rt", "doc"], stdout=subprocess.PIPE, text=True, check=True).stdout.strip())
NAME = r"[A-Za-z_][A-Za-z0-9_'\u2032\u2080-\u2089-]*"
TOKEN = re.compile(r"(?<![A-Za-z0-9_'\u2032\u2080-\u2089-])" + NAME)
DECLARED = re.compile(r"^\s*(?:(?:pub|abbrev|unfoldable|private)\s+)*(" + NAME + r"(?:\s+" + NAME + r")*)\s+:\s+(.*)$")
SHAPED = re.compile(r"^\s*(?:pub\s+)?(?:record|data)\s+(" + NAME + ")")
IMPORT = re.compile(r"^\s*(?:pub\s+|ghost\s+)*use\s+([^{;\s]+)\.\{([^}]*)\}")
WORDS = {"let", "in", "use", "module", "record", "data", "where", "elim", "rw", "simp", "omega", "grind", "search", "cc", "pub", "abbrev", "unfoldable"}


# Lemmas whose plain spelling a definition beside them has.
APART = {"known-orders": "known_orders_stand", "is-highest": "highest_is_highest", "is-source": "source_is_source"}


def files(root, ends):
    for folder, dirs, names in os.walk(root):
        dirs[:] = sorted(d for d in dirs if d not in ("out", ".git"))
        for n in sorted(names):
            if n.endswith(ends):
                yield os.path.join(folder, n)


def declared(path):
    """The names that a file declares, without those that answer a goal of Rattle's."""
    found = set()
    answers = os.path.basename(path) in ("Answers.antt", "Invariants.antt", "Choices.antt")
    for line in open(path, encoding="utf-8"):
        if line.lstrip().startswith("--"):
            continue
        m = SHAPED.match(line)
        if m:
            found.add(m.group(1))
            continue
        m = DECLARED.match(line)
        if m and not m.group(2).startswith("goal."):
            names = m.group(1).split()
            if not set(names) & WORDS:
                found.update(names)
    return found


def spelled(name):
    if name in APART:
        return APART[name]
    if name[0].isupper():
        parts = name.split("-")
        return "".join(p[:1].upper() + p[1:] for p in parts)
    name = name.replace("-", "_")
    return re.sub(r"(?<=[A-Za-z0-9])([A-Z])", lambda m: "_" + m.group(1).lower(), name)


def turned(text, names, fields, comment):
    """The text with each name respelled, outside strings and comments, and behind a dot only a field's."""

    def word(t):
        name = t.group(0)
        behind = t.start() and t.string[t.start() - 1] == "."
        return name if behind and name not in fields else names.get(name, name)

    out = []
    pos = 0
    skip = re.compile(r'"(?:[^"\\]|\\.)*"|' + comment + r"[^\n]*")
    for m in list(skip.finditer(text)) + [None]:
        stop = m.start() if m else len(text)
        out.append(TOKEN.sub(word, text[pos:stop]))
        if m:
            out.append(m.group(0))
            pos = m.end()
    return "".join(out)


def main():
    dry = "--dry" in sys.argv
    own = {}
    for p in files("crates", ".antt"):
        for n in declared(p):
            own.setdefault(n, set()).add(p)
    fields = set()
    for p in files("crates", ".antt"):
        for line in open(p, encoding="utf-8"):
            m = DECLARED.match(line)
            if m and line[0] == " ":
                fields.update(m.group(1).split())
    crates = set(os.listdir("crates"))
    library = set()
    for top in ("rattle/std", "rattle/core", "rattle/std_alloc", "rattle/std_collections", "rattle/antt/lib", "rattle/logic"):
        for p in files(os.path.join(KIT, top), ".antt"):
            try:
                library |= declared(p)
            except UnicodeDecodeError:
                pass
    change = {n: spelled(n) for n in own if spelled(n) != n}
    both = {n for n in change if n in library}
    told = {}
    for n in own:
        told.setdefault(spelled(n), set()).add(n)
    for new, olds in sorted(told.items()):
        if len(olds) > 1:
            print("fall together:", new, sorted(olds))
    taken = {n: spelled(n) for n in change if spelled(n) in library}
    for n in sorted(taken):
        print("library has:", n, "->", taken[n])
    for n in sorted(both):
        print("in both:", n, "->", change[n])
    count = 0
    for p in list(files("crates", (".antt", ".rt"))) + list(files("crates", ".edit")):
        text = open(p, encoding="utf-8").read()
        names = {n: change[n] for n in change if n not in both}
        if p.endswith(".antt"):
            imports = {}
            for line in text.split("\n"):
                m = IMPORT.match(line)
                if m:
                    for item in m.group(2).split(","):
                        imports[item.strip().split(" as ")[0].strip()] = m.group(1)
            for n in both:
                where = imports.get(n, "")
                crate = where.split(".")[1] if where.startswith("Rattle.") else ""
                if p in own[n] or crate in crates:
                    names[n] = change[n]
        new = turned(text, names, fields, "//" if p.endswith(".rt") else "--" if p.endswith(".antt") else "\0")
        if new != text:
            count += 1
            if not dry:
                open(p, "w", encoding="utf-8").write(new)
    print("respelled:", len(change), "names in", count, "files")


main()
