#!/usr/bin/env python3
"""Lists the places where the sources may read like an older language, for docs/DESIGN-PASS.md.

usage: python3 tools/places.py [COMMIT], at the top of the repository

It reads every file of crates/*/src, of the working tree or of a commit, and prints candidates under seven headings, each with
its count. A heading is a pattern, not a verdict: docs/DESIGN-PASS.md says which of the candidates are places, and what became of each.
"""

import collections
import difflib
import glob
import itertools
import re
import subprocess
import sys

SOURCE = re.compile(r"^crates/[^/]+/src/.*\.rt$")

LINES = [
    ("1 own enums, flags, numbers for kinds and refusals, and Options and Results taken apart by hand", [
        r"^\s*(pub(\(\w+\))? )?enum \w",
        r"-> bool|: bool\b|<bool>",
        r"\bround: (u8|usize)\b|-> u8\b",
        r"^\s*(None|Err\([^)]*\)) =>|=> (None|Err\()",
        r"\bif let (Some|Ok|Err)\(|\blet (Some|Ok|Err)\([^=]*= .* else\b",
    ]),
    ("3 loops over a range, and loops that count", [
        r"^\s*for \w+ in [^{]*\.\.",
        r"^\s*(while|loop)\b",
    ]),
    ("4 equality, order, copies, conversions and printing by hand", [
        r"fn (eq|cmp|before|clone|number|from|try_from|fmt)\b",
        r"\bas (u8|u16|u32|u64|u128|usize|i64)\b",
        r"matches!\(",
        r"\bformat!\(|\be?println!\(",
    ]),
    ("6 buffers with a length beside them, and arrays in fields", [
        r"^\s*(pub(\(\w+\))? )?(count|len|long|at): (u8|usize)",
        r"^\s*(pub(\(\w+\))? )?\w+: (&'a mut )?\[.*\],$",
        r"&mut \[u8\]",
    ]),
    ("7 switches on which step to run, and tables of functions", [
        r"\bmatch (figure|kind|item|self|request|.*read_request.*) \{",
        r"\bdyn\b|\bfn\(",
    ]),
]


def sources(commit):
    if commit is None:
        paths = sorted(glob.glob("crates/*/src/**/*.rt", recursive=True))
        return [(p, open(p, encoding="utf-8").read()) for p in paths]
    named = subprocess.run(["git", "ls-tree", "-r", "--name-only", commit], check=True, capture_output=True, text=True)
    paths = [p for p in named.stdout.splitlines() if SOURCE.match(p)]
    show = lambda p: subprocess.run(["git", "show", f"{commit}:{p}"], check=True, capture_output=True, text=True).stdout
    return [(p, show(p)) for p in paths]


def by_lines(files, patterns):
    one = re.compile("|".join(f"(?:{p})" for p in patterns))
    found = []
    for path, text in files:
        for n, line in enumerate(text.splitlines(), 1):
            code = line.split("//")[0]
            if one.search(code) and not code.lstrip().startswith("ghost"):
                found.append(f"{path}:{n}: {line.strip()}")
    return found


HEAD = re.compile(r"^\s*(?:pub(?:\(\w+\))? )?fn (\w+)", re.M)


def functions(files):
    """(path, name, head, clauses, body) of each function; the text is laid out, so a body ends at its own indent's brace."""
    for path, text in files:
        lines = text.splitlines()
        for n, line in enumerate(lines):
            named = HEAD.match(line)
            if not named:
                continue
            indent = line[: len(line) - len(line.lstrip())]
            opens = n
            while opens < len(lines) and lines[opens] != indent + "{" and not lines[opens].endswith((" {", ";")):
                opens += 1
            end = opens
            while not lines[opens].endswith(";") and lines[end] != indent + "}":
                end += 1
            whole = lines[n : end + 1]
            start = opens - n
            clauses = [l.strip() for l in whole[: start + 1] if re.match(r"\s*(requires|ensures)\b", l)]
            head = " ".join(l.strip() for l in whole[: start + 1] if not re.match(r"\s*(requires|ensures)\b", l))
            yield path, named.group(1), head, clauses, "\n".join(whole[start + 1 :])


WORD = re.compile(r"[A-Za-z_]\w*|\d+|\S")
KEPT = {"for", "in", "if", "else", "match", "let", "mut", "return", "while", "loop", "Some", "None", "Ok", "Err", "self", "as"}


def shape(body):
    return [w if w in KEPT or not re.match(r"\w", w) else "x" for w in WORD.findall(body)]


def twins(files):
    shapes = [(f"{p}: {name}", shape(body)) for p, name, _, _, body in functions(files)]
    shapes = [(name, s) for name, s in shapes if len(s) >= 20]
    found = []
    for (a, s), (b, t) in itertools.combinations(shapes, 2):
        if min(len(s), len(t)) < 0.75 * max(len(s), len(t)):
            continue
        same = difflib.SequenceMatcher(None, s, t, autojunk=False)
        if same.quick_ratio() >= 0.85 and same.ratio() >= 0.85:
            found.append(f"{a} ~ {b}")
    return found


def facts(files):
    """Facts required by three functions or more, each with its number's name left out, and groups of parameters."""
    stated = collections.defaultdict(list)
    pairs = collections.defaultdict(list)
    for path, name, head, clauses, _ in functions(files):
        for clause in clauses:
            if clause.startswith("requires"):
                for part in clause[clause.index("{") + 1 : clause.rindex("}")].split("×"):
                    stated[part.strip(" ()")].append(f"{path}: {name}")
        taken = re.findall(r"(\w+): ([^,)]+)", head)
        if "&self" in head or "&mut self" in head:
            taken = [("self", "Self")] + taken
        for pair in itertools.combinations(taken, 2):
            pairs[" + ".join(f"{n}: {t}" for n, t in pair)].append(f"{path}: {name}")
    said = [f"{fact} ({len(where)}): {', '.join(where)}" for fact, where in sorted(stated.items()) if len(where) >= 3]
    kept = [f"{pair} ({len(where)}): {', '.join(where)}" for pair, where in sorted(pairs.items()) if len(where) >= 3]
    return said + kept


def main():
    files = sources(sys.argv[1] if len(sys.argv) > 1 else None)
    headed = [(title, by_lines(files, patterns)) for title, patterns in LINES]
    headed.append(("2 functions of one shape", twins(files)))
    headed.append(("5 facts that three functions require, and parameters that three functions take together", facts(files)))
    for title, found in sorted(headed):
        print(f"{title}: {len(found)}")
        for place in found:
            print(f"    {place}")


main()
