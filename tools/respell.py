#!/usr/bin/env python3
"""Brings the repository's own definitions and lemmas to Rattle's spelling: words in snake case.

usage: python3 tools/respell.py [--dry]     at the top, once, after the scripts of the toolchain

A name in camel case that begins with a small letter, as heldSet, becomes held_set. A dash in a lemma's name becomes an underscore, but
for one behind the name of a function of the library (LIBRARY below), which joins two names, as in length-take. A lemma that would then have
the name of a definition gets _lem behind it. Names that a file imports from the library, paths, fields and goals of proof files are left.
Names that fall together within a file are printed, and are mended by hand.
"""

import collections
import os
import re
import sys

CRATES = {line.split(":")[0].split()[0] for line in open("crates.txt") if re.match(r"[a-z0-9_]+\s*:", line)}
LIBRARY = {"length", "take", "drop", "get_or", "set", "map", "append", "replicate", "sum", "cond", "ltb", "leb", "eqb", "reverse", "of_bits", "to_bits"}
CAMEL = re.compile(r"[a-z][a-z0-9]*(?:[A-Z][a-z0-9]*)+")
WORD = re.compile(r"(?<![\w'·◌≢≤-])(?:[a-z][A-Za-z0-9_]*)(?:-[A-Za-z0-9_≢≤]+)*(?:'[0-9]*)?(?![\w'·◌-])")
FIXED = {"getD": "get_or"}


def snake(word):
    for old, new in FIXED.items():
        word = word.replace(old, new)
    return re.sub(r"(?<=[a-z0-9])([A-Z])", lambda m: "_" + m.group(1).lower(), word) if CAMEL.search(word) else word


DECLARED = re.compile(r"^(?:abbrev |unfoldable |data |record )*(?:pub )?(?:record |data )?([a-z][^\s(){}:]*)\s*[({:]", re.M)


WITHIN = re.compile(r"^ +(?:abbrev|unfoldable) (?:pub )?([a-z][^\s(){}:]*)\s*[({:]", re.M)
INNER = re.compile(r"^ +(?:pub )?([a-z][\w]*(?:-[\w]+)+) :", re.M)
FUNCTION = re.compile(r"\bfn ([a-z]\w*)")
# lemmas that have a definition's name once both are respelled
LEMMAS = {"alike": {"position_at", "flag_at", "landed_at"}, "both_clocks": {"held_in"}, "inside": {"minus_one"}, "whole_energy": {"from_zero"}}


def declared():
    """What files declare: definitions, respelled; the names with a dash of lemmas, fields and sections; the functions of the code."""
    found, dashed, functions = set(), set(), set()
    for folder, dirs, files in os.walk("crates"):
        dirs[:] = [d for d in dirs if d not in ("out", "data")]
        for f in (f for f in files if f.endswith((".rt", ".antt"))):
            text = open(os.path.join(folder, f), encoding="utf-8").read()
            if f.endswith(".rt"):
                functions |= {n.replace("_", "-") for n in FUNCTION.findall(text)}
            if f.endswith(".antt") and f != "Proof.antt":
                names = DECLARED.findall(text) + WITHIN.findall(text)
                found |= {snake(n) for n in names if "-" not in n and ("/specs" in folder or CAMEL.search(n))}
                dashed |= {n for n in names if "-" in n} | set(INNER.findall(text))
    return found, dashed - functions


def spelled(name):
    if "-" not in name:
        return snake(name)
    parts = [snake(p) for p in name.split("-")]
    for i in range(1, len(parts)):
        if "_".join(parts[:i]) in LIBRARY:
            return "_".join(parts[:i]) + "-" + "_".join(parts[i:])
    new = "_".join(parts)
    return new + "_lem" if new in DEFINED else new


def imports(text):
    """The names that a file takes from the library: the names in braces of each use line that isn't of a crate of this repository."""
    found = set()
    for m in re.finditer(r"^(?:ghost |pub )?use ([^\s{;]+?)\.\{([^}]*)\}", text, re.M):
        path = m.group(1).split(".")
        if path[0] == "Rattle" and path[1] in CRATES and path[1] != "std":
            # what Rattle makes of a type or a function keeps its name
            found |= {n.split(" as ")[0].strip() for n in m.group(2).split(",") if n.strip().startswith(("the_", "the-"))}
            continue
        for n in m.group(2).split(","):
            found.add(n.split(" as ")[-1].strip())
            found.add(n.split(" as ")[0].strip())
    return found


def bare(text, path):
    """The text without its comments; of a .rt file the clauses and parameters alone."""
    if path.endswith(".antt"):
        return re.sub(r"--.*", "", text)
    return ""


def turned(text, path):
    """The text with its names respelled, and for each new name its old ones."""
    dashes = path.endswith(".antt")
    kept = imports(text)
    lemmas = LEMMAS.get(path.split("/")[1], ())
    names = collections.defaultdict(set)

    def turn(m):
        word, at = m.group(0), m.start()
        before = text[max(0, at - 1):at]
        base = word
        field = before == "."
        if "-" in base and (not dashes or field and base not in DASHED):
            return word
        if base in kept and not field:
            return word
        new = base + "_lem" if dashes and base in lemmas and not field else spelled(base)
        if not field:
            names[new].add(base)
        return new

    return WORD.sub(turn, text), names


DEFINED, DASHED = declared()


def main():
    dry = "--dry" in sys.argv
    camel = set()
    clashes = 0
    for folder, dirs, files in os.walk("crates"):
        dirs[:] = sorted(d for d in dirs if d not in ("out", "data"))
        for f in sorted(files):
            path = os.path.join(folder, f)
            if f.endswith((".antt", ".rt")):
                text = open(path, encoding="utf-8").read()
                new, names = turned(text, path)
                camel |= {n for olds in names.values() for n in olds if CAMEL.fullmatch(n)}
                names = turned(bare(text, path), path)[1]
                for n, olds in sorted(names.items()):
                    if len(olds) > 1:
                        clashes += 1
                        print(f"{path}: {' '.join(sorted(olds))} fall together as {n}")
                if new != text and not dry:
                    open(path, "w", encoding="utf-8").write(new)
    for folder in (".", "docs", "bench"):
        for f in sorted(os.listdir(folder)):
            path = os.path.join(folder, f)
            if f.endswith(".md") and f != "PORT.md":
                text = open(path, encoding="utf-8").read()
                new = re.sub(r"(?<![\w-])[a-z][a-z0-9]*(?:[A-Z][a-z0-9]*)+(?![\w-])", lambda m: snake(m.group(0)) if m.group(0) in camel else m.group(0), text)
                if new != text and not dry:
                    open(path, "w", encoding="utf-8").write(new)
    print(f"{len(camel)} names in camel case, {clashes} that fall together")


main()
