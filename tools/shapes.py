#!/usr/bin/env python3
"""Functions of src/ whose bodies have the same shape: equal but for names, types and numbers.

Run it at the top of the repository: python3 tools/shapes.py
Each line is a group, with the places of its functions. Short bodies, of fewer than a dozen words and signs, are left out.
"""

import collections
import glob
import re

# Words that stand as they are; every other word counts as a name.
KEPT = set("if else match for in let mut return Some None Ok Err self Self true false while loop as".split())

FUNCTION = re.compile(r"^ *(?:pub(?:\([a-z]+\))? )?fn (\w+)", re.M)


def closing(text, at, pair):
    """The place behind the bracket that closes the one at `at`."""
    depth = 0
    for place in range(at, len(text)):
        depth += (text[place] == pair[0]) - (text[place] == pair[1])
        if depth == 0:
            return place + 1
    return len(text)


def bodies(text):
    for found in FUNCTION.finditer(text):
        signature_end = closing(text, text.index("(", found.end()), "()")
        # A body begins at a brace that ends a line; the braces of clauses are closed on their own line.
        opening = re.compile(r"\{\n").search(text, signature_end)
        declared = text.find(";\n", signature_end)
        if opening is None or 0 <= declared < opening.start():
            continue
        yield found.group(1), text[opening.start() : closing(text, opening.start(), "{}")]


def shape(body):
    words = re.findall(r"\w+|[^\s\w]", re.sub(r"//.*", "", body))
    return " ".join(w if w in KEPT or not w[0].isalnum() else "0" if w[0].isdigit() else "x" for w in words)


groups = collections.defaultdict(list)
for path in sorted(glob.glob("crates/*/src/**/*.rt", recursive=True)):
    for name, body in bodies(open(path).read()):
        if len(shape(body).split()) >= 14:
            groups[shape(body)].append(f"{path.removeprefix('crates/')}:{name}")
for places in groups.values():
    if len(places) > 1:
        print(len(places), *places)
