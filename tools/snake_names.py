#!/usr/bin/env python3
"""Spells the repository's own definitions and lemmas in snake case: `seller-at` becomes `seller_at`.

usage: python3 tools/snake_names.py, at the top of the repository, once, after the kit's port.py

A name is the repository's own where a file of specs/, or a file of lemmas in proofs/, uses it and does not bring it in from
another library. In those files each such name is respelled. In the proofs of functions, in sources, in must-fail edits and between
backticks in the documents only names that such a file declares are (in edits and documents also where the kit's script respelled them there). Comments, strings and names of other libraries stay.
It stops, and writes nothing, where a new name already stands in a file that declares or uses the old one.
"""

import os
import re
import sys

NAME = re.compile(r"[^\W\d][\w']*(?:-[\w'ℕ≤]+)+")
SNAKE = re.compile(r"^\s*(?:(?:abbrev|unfoldable|pub|record|data) )*([^\W\d]\w*_[\w']*)\s*(?:\{[^}]*\}|\([^)]*\))*\s*:", re.M)
DECLARED = re.compile(r"^\s*(?:(?:abbrev|unfoldable|pub|record|data) )*([^\W\d][\w']*(?:-[\w'ℕ≤]+)+)\s*(?:\{[^}]*\}|\([^)]*\))*\s*:", re.M)
IMPORT = re.compile(r"^(?:pub )?use ([\w.]+)\.\{([^}]*)\}", re.M)


def files(ending):
    for folder, dirs, names in os.walk("crates"):
        dirs[:] = sorted(d for d in dirs if d != "out")
        yield from (os.path.join(folder, n) for n in sorted(names) if n.endswith(ending))


def read(path):
    with open(path, encoding="utf-8") as f:
        return f.read()


def is_shared(path):
    """A file of definitions or of lemmas, and not the proof of one function."""
    return path.count("/") == 3


def parts(text, comment):
    """The text cut into code (even) and comments or strings (odd)."""
    return re.split(r'(%s[^\n]*|"(?:\\.|[^"\\\n])*")' % comment, text)


def code(text, comment):
    return "".join(parts(text, comment)[::2])


def respelled(text, comment, names, snake=frozenset()):
    """The text with each of the names in snake case, and each whose snake case is one of the others."""
    cut = parts(text, comment)
    cut[::2] = [NAME.sub(lambda m: m[0].replace("-", "_") if m[0] in names or m[0].replace("-", "_") in snake else m[0], c) for c in cut[::2]]
    return "".join(cut)


ANTT = r"(?m:(?<!\S)--(?=\s|$))"
RUST = "//"


def main():
    crates = "|".join(sorted(os.listdir("crates")))
    shared = {p: read(p) for p in files(".antt") if is_shared(p)}
    foreign, used, declared, snake = set(), {}, set(), set()
    for p, t in shared.items():
        c = code(t, ANTT)
        for m in IMPORT.finditer(c):
            if not re.match(rf"Rattle\.({crates})\.", m[1]):
                foreign |= {w for part in m[2].split(",") for w in part.strip().split(" as ")}
        used[p] = set(NAME.findall(c))
        declared |= set(DECLARED.findall(c))
        snake |= set(SNAKE.findall(c))
    own = set().union(*used.values()) - foreign
    wrong = []
    for p, t in shared.items():
        there = set(re.findall(r"[^\W\d][\w']*", re.sub(r"(?m)^(?:pub )?use .*$", "", code(t, ANTT))))
        wrong += [f"{p}: {n}" for n in sorted(used[p] & own) if n.replace("-", "_") in there]
    if wrong:
        sys.exit("names that fall together:\n" + "\n".join(wrong))
    out = {p: respelled(t, ANTT, own) for p, t in shared.items()}
    for p in files(".antt"):
        if not is_shared(p):
            out[p] = respelled(read(p), ANTT, declared)
    for p in files(".rt"):
        out[p] = respelled(read(p), RUST, declared)
    for p in files(".edit"):
        out[p] = "".join(respelled(line, RUST, declared, snake) for line in read(p).splitlines(keepends=True))
    pages = ["README.md"] + sorted("docs/" + n for n in os.listdir("docs") if n.endswith(".md"))
    for p in pages:
        out[p] = re.sub(r"`[^`\n]*`", lambda m: respelled(m[0], "\0", declared, snake), read(p))
    for p, t in out.items():
        if t != read(p):
            with open(p, "w", encoding="utf-8") as f:
                f.write(t)
    print(f"{len(own)} names respelled, {len(declared)} of them declared")


if __name__ == "__main__":
    main()
