#!/usr/bin/env python3
"""Respells this repository's own names of antt: words in snake case, a dash only between two names of definitions.

usage: tools/respell.py            at the top of the repository, once, right after the port's script
       tools/respell.py --names    prints the names, old and new, and writes nothing

It reads the definitions, fields, constructors, lemmas and binders below crates/, makes the new spelling of each, and writes it wherever
the name stands as a whole word: in .antt files, in the clauses of .rt files and in must-fail edits. Names that fall together get `_lem`.
"""

import collections
import os
import re
import sys

WORD = r"[^\W\d][\w'′₀-₉]*(?:-[\w'′₀-₉]+)*"
DEFINED = re.compile(r"^(\s*)((?:abbrev |unfoldable )?(?:pub )?)(" + WORD + r"(?: " + WORD + r")*) :(?= |$)")
# std's words that a lemma's name joins by a dash
STD = set("length take drop map append get_or set replicate add mul sub suc zero nil cons pow div mod leb eqb ltb le lt eq take_all reverse concat min max".split())
# names that Rattle makes, and forms of its own
MADE = re.compile(r"^(invariant|decreases)-loop")


def files(root, *ends):
    for folder, dirs, names in os.walk(os.path.join(root, "crates")):
        dirs[:] = sorted(d for d in dirs if d != "out")
        for name in sorted(names):
            if name.endswith(ends):
                yield os.path.join(folder, name)


def read(path):
    with open(path, encoding="utf-8") as f:
        return f.read()


def snake(word):
    word = re.sub(r"(?<=[a-z0-9'])([A-Z])(?=[a-z])", lambda m: "_" + m.group(1).lower(), word)
    return re.sub(r"([a-z])(FF|LE|BE)\b", lambda m: m.group(1) + "_" + m.group(2).lower(), word)


def names_of(root):
    """Every name that a file below crates/ declares, with where it stands: 'spec', 'lemma', 'field', 'local'."""
    found = collections.defaultdict(set)
    for path in files(root, ".antt"):
        kind = "spec" if "/specs/" in path else "lemma"
        own = os.path.basename(path) == "Proof.antt"
        inside = False
        for line in read(path).split("\n"):
            if re.match(r"\S", line):
                inside = bool(re.match(r"(pub )?(record|data) ", line))
            m = DEFINED.match(line)
            if m:
                for name in m.group(3).split():
                    found[name].add("field" if inside and m.group(1) else "local" if own or m.group(1) else kind)
            for m in re.finditer(r"\blet (" + WORD + r") (?=[:=])", line):
                found[m.group(1)].add("local")
            for m in re.finditer(r"[({](" + WORD + r"(?: " + WORD + r")*) : ", line):
                for name in m.group(1).split():
                    found[name].add("local")
            for m in re.finditer(r"λ ((?:" + WORD + r" ?)+)\.", line):
                for name in m.group(1).split():
                    found[name].add("local")
    return found


def table(root):
    found = names_of(root)
    words = STD | {snake(n) for n, kinds in found.items() if "-" not in n and n[0].islower() and kinds & {"spec"}}
    new = {}
    for name, kinds in found.items():
        if MADE.match(name) or not ("-" in name or re.search(r"[a-z0-9][A-Z]", name) or "getD" in name or "′" in name):
            continue
        if not name[0].islower() and "-" not in name:
            continue
        parts = [snake(p.replace("getD", "get_or").replace("′", "'")) for p in name.split("-")]
        out = parts[0]
        for left, right in zip(parts, parts[1:]):
            joins = left in words and right in words and "field" not in kinds
            joins = joins or (left[0].isupper() or right[0].isupper()) and "field" not in kinds
            out += ("-" if joins else "_") + right
        if out != name:
            new[name] = out
    return found, new


# names that would fall together with a definition's
CHOSEN = {
    "no-masks": "without_masks",
    "subset-cells": "subset_cells_call",
    "guest-read": "guest_read_call",
    "guest-edit": "guest_edit_call",
    "setting-masks": "masks_of_setting",
    "given-up": "gave_up",
}


def settle(found, new):
    """Names that fall together: a definition keeps the plain one, then a field, and a lemma gets `_lem`."""
    rank = lambda n: (0 if found[n] & {"spec"} else 1 if found[n] & {"field"} else 2 if found[n] & {"lemma"} else 3, "-" in n, n)
    by = collections.defaultdict(set)
    for old, name in new.items():
        by[name].add(old)
        if name in found:
            by[name].add(name)
    return [(old, name) for name, olds in by.items() for old in sorted(olds, key=rank)[1:]]


def main(argv):
    root = os.getcwd()
    found, new = table(root)
    for old, name in CHOSEN.items():
        if old in found:
            new[old] = name
    together = settle(found, new)
    for old, name in together:
        new[old] = name + "_lem"
    if "--names" in argv:
        for old in sorted(new):
            print(old, new[old], ",".join(sorted(found[old])))
        for row in together:
            print("together:", *row, sorted(found[row[0]]), sorted(found.get(row[1], [])))
        return 0
    word = re.compile(r"(?<![\w'′-])" + WORD)
    turn = lambda text: word.sub(lambda m: new.get(m.group(0), m.group(0)), text)
    for path in files(root, ".antt", ".rt", ".edit"):
        text = read(path)
        if path.endswith(".rt"):
            lines = text.split("\n")
            out = "\n".join(l if l.lstrip().startswith("//") else turn(l) for l in lines)
        else:
            out = turn(text)
        if out != text:
            with open(path, "w", encoding="utf-8") as f:
                f.write(out)
    return 0


if __name__ == "__main__":
    raise SystemExit(main(sys.argv[1:]) or 0)
