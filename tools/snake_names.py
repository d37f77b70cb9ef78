#!/usr/bin/env python3
"""Spells this repository's own definitions and lemmas in snake case, in every crate.

usage: tools/snake_names.py [--check]      at the top of a repository that port.py has turned

A name that a .antt file of a crate declares and that has a dash or, after a small first letter, a capital becomes one in
snake case, where it is declared, cited and spoken of in a comment: `cellsAsked` becomes `cells_asked`, `row-end` `row_end`.
Types, modules, the names of src/ and the names that Rattle makes keep their spelling. Where two names would fall together,
the lemma gets `_lem`. --check writes nothing and prints the table.
"""

import os
import re
import sys

NAME = r"[^\s(){}\[\];,.:·\"`'|]+'*"
DECLARED = re.compile(r"^\s*(?:abbrev |pub |unfoldable |ruleset )*((?:" + NAME + r" )*" + NAME + r") :(?= |$)")
# A name that an import gives to another one.
RENAMED = re.compile(r"[{ .]" + NAME + r" as ([a-z]" + NAME + r")")
# Rattle makes these for each loop.
MADE = re.compile(r"^(invariant|decreases)-")


def files(root):
    for folder, dirs, names in os.walk(os.path.join(root, "crates")):
        dirs[:] = sorted(d for d in dirs if d not in ("out", "target"))
        for name in sorted(names):
            if name.endswith((".antt", ".rt")):
                yield os.path.join(folder, name)


def snake(name):
    name = re.sub(r"(?<=[a-z0-9])([A-Z])(?![a-z]*Z)", lambda m: "_" + m.group(1).lower(), name)
    return name.replace("-", "_")


def own(root):
    """The names that .antt files declare."""
    found = set()
    for path in files(root):
        if not path.endswith(".antt"):
            continue
        with open(path, encoding="utf-8") as f:
            for line in f:
                if line.lstrip().startswith("--"):
                    continue
                m = DECLARED.match(line)
                if m:
                    found.update(m.group(1).split())
                found.update(it for it in RENAMED.findall(line) if snake(it) != it)
    return found


def sources(root):
    """The names of functions and modules in src/, which keep their spelling."""
    found = set()
    for path in files(root):
        if path.endswith(".rt"):
            with open(path, encoding="utf-8") as f:
                found.update(re.findall(r"\b(?:fn|mod) (\w+)", f.read()))
    return found


def table(names, kept):
    turned = {}
    for name in sorted(names):
        dashed = re.search(r"\w-\w", name)
        camel = re.match(r"[a-z]", name) and re.search(r"[a-z0-9][A-Z]", name)
        if (dashed or camel) and not MADE.match(name) and re.match(r"[a-zA-Z]", name):
            turned[name] = snake(name)
    taken = {}
    for name in sorted(names | set(turned)):
        taken.setdefault(turned.get(name, name), []).append(name)
    for to, froms in sorted(taken.items()):
        if len(froms) > 1:
            word = next((n for n in froms if re.search("[A-Z]", n)), froms[0])
            for name in froms:
                if name not in kept:
                    turned[name] = to if name == word else to + "_lem"
            print("together:", to, froms, [turned.get(n, n) for n in froms])
    return turned


IMPORT = re.compile(r"use ([^ ;{]+)\.\{([^}]*)\}")
TOKEN = re.compile(r"[^\s(){}\[\];,.:·\"`'|]+")


def turn(text, turned, crates, source):
    def is_own(path):
        return path.startswith("Rattle.") and path.split(".")[1] in crates

    # A bare name that a file takes from a library of the kit is not this repository's there.
    kept = set()
    for path, names in IMPORT.findall(text):
        if not is_own(path):
            kept.update(it.strip() for it in names.split(",") if " as " not in it)

    def words(part):
        def word(m):
            name = m.group(0)
            # After a dot stands the step of a call, which has the name of its function.
            if m.start() and part[m.start() - 1] == "." and snake(name) in source:
                return snake(name)
            return name if name in kept else turned.get(name, name)

        return TOKEN.sub(word, part)

    def line(m):
        if is_own(m.group(1)):
            return words(m.group(0))
        return re.sub(r"(?<= as )" + NAME, lambda it: turned.get(it.group(0), it.group(0)), m.group(0))

    new, end = [], 0
    for m in IMPORT.finditer(text):
        new += [words(text[end : m.start()]), line(m)]
        end = m.end()
    return "".join(new) + words(text[end:])


def main(argv):
    root = "."
    source = sources(root)
    turned = table(own(root), source)
    if "--check" in argv:
        for a, b in sorted(turned.items()):
            print(a, b)
        return 0
    crates = set(os.listdir(os.path.join(root, "crates")))
    changed = 0
    for path in files(root):
        with open(path, encoding="utf-8") as f:
            text = f.read()
        new = turn(text, turned, crates, source)
        if new != text:
            with open(path, "w", encoding="utf-8") as f:
                f.write(new)
            changed += 1
    print(f"names: {len(turned)}, files: {changed}")
    return 0


if __name__ == "__main__":
    raise SystemExit(main(sys.argv[1:]))
