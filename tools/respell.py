#!/usr/bin/env python3
"""Brings the names of the repository's own definitions and lemmas to Rattle's spelling.

usage: python3 tools/respell.py [--list]        at the top of the repository, once, right after the kit's port.py

A word is in snake case: killAt becomes kill_at. A dash stays where it joins two names (bind-depth, of the definitions bind and depth); a plain word is added with
an underscore (losing-start becomes losing_start). Types, modules, functions of src/, C names and strings keep their names. The script takes the names from the
files as they stand, stops where two names would fall together, and rewrites .antt, .rt and .edit files, README.md and docs/. --list prints the names and writes
nothing.
"""

import os
import re
import sys

WORD = r"[A-Za-z_Α-Ωα-ωμ][\w'′₀-₉]*"
NAME = re.compile(rf"{WORD}(?:-[\w'′₀-₉]+)*")
DEFINED = re.compile(rf"(?m)^[ \t]*(?:abbrev |unfoldable |rec )*(?:pub )?([a-z_][\w'′₀-₉\-]*)\s*:(?=\s)")
TYPE = re.compile(r"(?m)^[ \t]*(?:abbrev |unfoldable )*(?:pub )?(?:record |data )?([A-Z][\w'₀-₉]*)\b")
HUMP = re.compile(r"(?<=[a-z0-9])(?=[A-Z])")
IMPORTS = re.compile(r"use Rattle\.std[\w.]*\.\{([^}]*)\}")


def files(*ends):
    for folder, dirs, names in os.walk("crates"):
        dirs[:] = sorted(d for d in dirs if d != "out")
        for n in sorted(names):
            if n.endswith(ends):
                yield os.path.join(folder, n)


def read(path):
    with open(path, encoding="utf-8") as f:
        return f.read()


def lemma_files():
    return [p for p in files(".antt") if not p.endswith(("Proof.antt", "Invariants.antt", "Answers.antt"))]


def crate(path):
    return path.split(os.sep)[1]


def humps(part):
    """killAt: kill_at; a part that begins with a capital, or has one behind an underscore (mut_Tells), is a type's and stays."""
    if not re.match(r"[a-z]", part) or not HUMP.search(part):
        return part
    return HUMP.sub("_", part).lower()


def constructors_and_words(text):
    """The names that a file of specs/ defines: its words, types and constructors, but not the fields of its records."""
    inside, names = None, set()
    for line in text.split("\n"):
        m = re.match(r"(?:abbrev |unfoldable |pub |rec )*(data|record)?\s*([\w'′₀-₉\-]+)", line)
        if m and not line.startswith((" ", "use", "pub use", "pub mod", "--")):
            inside = m.group(1)
            names.add(m.group(2))
        elif inside == "data":
            names.update(re.findall(r"^\s+([\w'′₀-₉\-]+)\s*:", line))
    return names


def gathered():
    """The names of the repository's own definitions and lemmas, and the names that a dash may join: those that specs/ define and those of std."""
    own, known, functions = set(), set(), set()
    lemmas = set(lemma_files())
    for p in files(".antt"):
        t = read(p)
        for group in IMPORTS.findall(t):
            known.update(w.strip() for w in group.split(","))
        if "/specs/" in p:
            known |= constructors_and_words(t)
        if p in lemmas:
            own |= set(DEFINED.findall(t))
    for p in files(".rt"):
        functions.update(re.findall(r"\bfn (\w+)", read(p)))
    return own, known, functions


def spelled(name, known):
    parts = name.split("-")
    out = humps(parts[0])
    for i in range(1, len(parts)):
        joins = parts[i - 1] in known and parts[i] in known
        out += ("-" if joins else "_") + humps(parts[i])
    return out


def table():
    """Old name to new. A lemma whose new name a definition has, or another name of the same file, gets _lem."""
    own, known, functions = gathered()
    # names that Rattle makes of a function's
    made = {f.replace("_", "-") for f in functions}
    new, lemmas = {}, set()
    for n in sorted(own):
        if not (n in made and "-" in n):
            s = spelled(n, known)
            if s != n:
                new[n] = s
                if "-" in n:
                    lemmas.add(n)
    words = [(p, set(NAME.findall(read(p)))) for p in lemma_files()]
    nearby = {}
    came = {}
    for n, s in new.items():
        came.setdefault(s, []).append(n)
    for s, ns in sorted(came.items()):
        there = [p for p, w in words if s in w and any(n in w for n in ns)] if s in own and s not in new else []
        plain = [n for n in ns if n not in lemmas]
        if len(plain) > 1 or len(ns) - len(plain) > 1:
            raise SystemExit(f"fall together: {' '.join(ns)}")
        if plain and there:
            nearby[s] = {crate(p) for p in there}
        if len(ns) > 1 or (there and not plain):
            new.update({n: s + "_lem" for n in ns if n in lemmas})
    taken = [s for s in new.values()]
    for s in sorted({s for s in taken if taken.count(s) > 1}):
        raise SystemExit(f"fall together: {s}")
    return new, nearby


def quoted(text, new):
    """A page's text, with the names between backquotes turned."""
    return re.sub(r"`[^`\n]*`", lambda q: NAME.sub(lambda m: new.get(m.group(0), m.group(0)), q.group(0)), text)


def rewrite(path, turn):
    t = read(path)
    u = turn(t)
    if u != t:
        with open(path, "w", encoding="utf-8") as f:
            f.write(u)


def main(argv):
    new, nearby = table()
    if "--list" in argv:
        for n, s in sorted(new.items()):
            print(n, s)
        for n, s in sorted(nearby.items()):
            print(n, n + "_lem", "in", *sorted(s))
        return 0
    for p in files(".antt", ".rt", ".edit"):
        here = new | {n: n + "_lem" for n, s in nearby.items() if crate(p) in s}
        rewrite(p, lambda t: NAME.sub(lambda m: here.get(m.group(0), m.group(0)), t))
    for folder in ("docs", os.path.join("docs", "changes")):
        for n in sorted(os.listdir(folder)):
            if n.endswith(".md"):
                rewrite(os.path.join(folder, n), lambda t: quoted(t, new))
    rewrite("README.md", lambda t: quoted(t, new))
    print(f"{len(new)} names")
    return 0


if __name__ == "__main__":
    raise SystemExit(main(sys.argv[1:]))
