#!/usr/bin/env python3
"""Spells the repository's own definitions, fields and lemmas as today's Rattle does: words in snake case.

usage: python3 tools/respell.py    at the top of a tree that the toolchain's own script has turned

tools/respell.tsv has a line for each name: as it was, as it is, and what it is. Functions of src/, strings, inputs and
outputs keep their names. It also lines up the lists of words that open a file of specs/. Run it once: a lemma of the day
book takes the name of a definition with _lem, and a second run would rename that definition too.
"""

import glob
import os
import re

HERE = os.path.dirname(os.path.realpath(__file__))
# lemmas of the day book that would fall together with a definition that they speak of; only there
DAYBOOK_ONLY = ("found_as", "out_of_range", "first_out")
TOKEN = re.compile(r"[\w◌'-]+")
WORD = re.compile(r"^--   (\S.*?)  +(\S.*)$")


def table():
    with open(os.path.join(HERE, "respell.tsv"), encoding="utf-8") as f:
        return {old: new for old, new, _kind in (l.rstrip("\n").split("\t") for l in f)}


def turned(text, names):
    return TOKEN.sub(lambda m: names.get(m.group(0), m.group(0)), text)


def in_antt(line, names):
    if not line.lstrip().startswith("--"):
        code, dash, comment = line.partition(" -- ")
        return turned(code, names) + dash + comment
    word = WORD.match(line.rstrip("\n"))
    if word:
        return f"--   {turned(word.group(1), names)}  {turned(word.group(2), {k: v for k, v in names.items() if '-' not in k})}\n"
    return turned(line, {k: v for k, v in names.items() if "-" not in k})


def lined_up(lines):
    """Lists of words with their second column in one place."""
    out, i = [], 0
    while i < len(lines):
        n = i
        while n < len(lines) and WORD.match(lines[n].rstrip("\n")):
            n += 1
        if n == i:
            out.append(lines[i])
            i += 1
            continue
        rows = [WORD.match(l.rstrip("\n")).groups() for l in lines[i:n]]
        width = max(len(a) for a, _ in rows)
        out += [f"--   {a.ljust(width)}   {b}\n" for a, b in rows]
        i = n
    return out


def in_source(line, names):
    code, slashes, comment = line.partition("//")
    parts = code.split('"')
    parts[::2] = [turned(p, names) for p in parts[::2]]
    return '"'.join(parts) + slashes + comment


def main():
    names = table()
    elsewhere = {k: v for k, v in names.items() if k not in DAYBOOK_ONLY}
    for path in sorted(glob.glob("crates/*/s*/**/*", recursive=True) + glob.glob("crates/*/proofs/**/*", recursive=True)):
        if not path.endswith((".rt", ".antt")):
            continue
        mine = names if path.startswith("crates/daybook/proofs") else elsewhere
        with open(path, encoding="utf-8") as f:
            lines = f.readlines()
        if path.endswith(".rt"):
            new = [in_source(l, mine) for l in lines]
        else:
            new = lined_up([in_antt(l, mine) for l in lines])
        if new != lines:
            with open(path, "w", encoding="utf-8") as f:
                f.writelines(new)


if __name__ == "__main__":
    main()
