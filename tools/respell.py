#!/usr/bin/env python3
"""Brings the repository's own definitions, lemmas and fields to the spelling of today's Rattle, once, after the kit's port.py.

usage: tools/respell.py          at the top of the repository; tools/respell.py --list prints each name, old and new

Functions and fields in mixed case become snake case; a lemma's words are joined by `_`, and by `-` only where each part is itself a definition's name. Names of
functions of src/, of modules, types and records, and of the library stay. A lemma that would get its function's name is that name with `_lem`; `first_of`, now a tactic's name, is `first_nonzero`. In the pages, names in backquotes follow.
It stops where two names would fall together.
"""
import glob
import os
import re
import sys

FILES = "crates/*/specs/*.antt", "crates/*/proofs/*.antt"
NAME = r"[^\s:(){}\[\];,.=\u2237\"`]+"
HEAD = re.compile(r"(?:(?:abbrev|unfoldable|pub|data|record|ruleset)\s+)*(" + NAME + r")(?:\s+[({].*)?\s*:(?=\s|$)")
FIELD = re.compile(r"\s{2,}(?:pub\s+)?(" + NAME + r")\s*:\s")
WORDS = re.compile(r"[A-Za-z_\u0391-\u03c9][\w'\u2032-]*", re.UNICODE)


def snake(name):
    return re.sub(r"(?<=[a-z0-9])[A-Z]", lambda m: "_" + m.group(0).lower(), name)


def found():
    """The names that are defined: words that start in lower case, and the fields of records."""
    words, fields = set(), set()
    for pattern in FILES:
        for path in sorted(glob.glob(pattern)):
            inside = False
            for line in open(path, encoding="utf-8"):
                head = HEAD.match(line)
                if head and not line.startswith(("use", "--", " ")):
                    words.add((head.group(1), "/specs/" in path))
                    inside = re.match(r"(pub )?(record|data) ", line)
                elif (inside or line.startswith("  pub ")) and FIELD.match(line):
                    fields.add(FIELD.match(line).group(1))
                elif line.strip() and not line.startswith(" "):
                    inside = False
    return words, fields


def renamed():
    words, fields = found()
    specs = {snake(w) for w, of_specs in words if of_specs and "-" not in w} - {"one", "at"} | {"length", "drop", "take", "set"}
    known = {w for w, _ in words} | fields
    new = {}
    for name in sorted(known):
        if not name[0].islower():
            continue
        parts = [snake(p) for p in name.split("-")]
        new[name] = ("-" if all(p in specs for p in parts) else "_").join(parts)
    # a lemma with a function's name gets _lem, also where port.py turned it already
    functions = {b for a, b in new.items() if "-" not in a and (a != b or (a, True) in words)}
    for name in new:
        turned = new[name] == name and (name, True) not in words
        if new[name] in functions and ("-" in name or turned):
            new[name] += "_lem"
    new["first_of"] = "first_nonzero"
    return {a: b for a, b in new.items() if a != b}, known


def texts():
    for folder, _, files in os.walk("crates"):
        if "/out" not in folder:
            for name in sorted(files):
                if name.endswith((".antt", ".rt")):
                    yield os.path.join(folder, name)


def main():
    new, known = renamed()
    if "--list" in sys.argv:
        for a in sorted(new):
            print(a, new[a])
    bad = [a for a in new if new[a] in known and new[a] not in new] + [a for a in new if list(new.values()).count(new[a]) > 1]
    if bad:
        sys.exit("respell: these would fall together: " + ", ".join(f"{a} -> {new[a]}" for a in bad))
    if "--list" in sys.argv:
        return
    for path in texts():
        with open(path, encoding="utf-8") as f:
            old = f.read()
        text = WORDS.sub(lambda m: m.group(0) if path.endswith(".rt") and m.group(0) == snake(m.group(0)) else new.get(m.group(0), m.group(0)), old)
        if text != old:
            with open(path, "w", encoding="utf-8") as f:
                f.write(text)
    known = {new.get(w, w) for w in known}

    def turn(m):
        name = m.group(0)
        if name == snake(name) and "-" not in name:
            return name
        alone = new.get(name, snake(name) if name[0].islower() else name)
        return alone if alone in known else name

    for path in ["README.md"] + sorted(glob.glob("docs/*.md") + glob.glob("docs/landings/*.md")):
        with open(path, encoding="utf-8") as f:
            old = f.read()
        text = re.sub(r"`[^`\n]*`", lambda m: WORDS.sub(turn, m.group(0)), old)
        if text != old:
            with open(path, "w", encoding="utf-8") as f:
                f.write(text)


main()
