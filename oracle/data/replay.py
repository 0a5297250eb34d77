#!/usr/bin/env python3
"""Turns recorded lines (README.md beside this file) into what the program crates/replay reads and must print.

    replay.py FILE..    writes crates/replay/stdin and crates/replay/stdout

Each request lends outputs one longer than its result, so that what lies beyond is seen to stay. Where a request is refused, the outputs
have eight places each."""
import os
import sys

LETTERS = {1: "e", 2: "d", 3: "i", 4: "x", 5: "m", 6: "p", 7: "r", 8: "s", 9: "o"}
LONG_RUN = 5


class Words:
    def __init__(self, line):
        self.words = line.split()
        self.at = 0

    def word(self):
        self.at += 1
        return self.words[self.at - 1]

    def number(self):
        return int(self.word())

    def numbers(self):
        return [self.number() for _ in range(self.number())]

    def bytes(self):
        n = self.number()
        return list(bytes.fromhex(self.word())) if n else []


def shown(items, glyph, join):
    """A list as the program shows it: from five equal ones on a run."""
    if not items:
        return "-"
    parts, i, plain = [], 0, False
    while i < len(items):
        n = 1
        while i + n < len(items) and items[i + n] == items[i]:
            n += 1
        n = n if n >= LONG_RUN else 1
        if n == 1 and plain:
            parts[-1] += join + glyph(items[i])
        else:
            parts.append(glyph(items[i]) if n == 1 else f"{n}*{glyph(items[i])}")
        plain = n == 1
        i += n
    return "+".join(parts)


def hexes(b):
    return shown(b, lambda x: f"{x:02X}", "")


def decimals(ns):
    return shown(ns, str, ",")


def request(w):
    """The request in the program's words, its results, and the kinds of them."""
    call = w.number()
    fields = []
    if call in (1, 2, 4, 5, 9):
        depth, form, size, order, mask = (w.number() for _ in range(5))
        if mask:
            return None
        fields.append(f"{depth},{form},{size},{order}")
    if call == 3:
        fields.append(str(w.number()))
    if call == 6:
        width, place = w.number(), w.number()
        fields.append(f"{width},{place}")
    if call == 7:
        fields.append(str(w.number()))
    if call not in (3, 7):
        fields.append(decimals(w.numbers()))
    if call in (4, 5, 6, 8):
        fields.append(decimals(w.numbers()))
    if call in (1, 4, 5, 9):
        fields += [hexes(w.bytes()), hexes(w.bytes()), decimals(w.numbers())]
    if call in (2, 3, 6, 7):
        fields.append(hexes(w.bytes()))
    answer = w.number()
    kinds = {1: "b", 2: "bbn", 3: "bn", 4: "bbn", 5: "bbn", 6: "bn", 7: "b", 8: "n", 9: "b"}[call]
    if answer:
        lengths, lists = [8] * len(kinds), None
    elif call == 7:
        named, after = w.number(), w.bytes()
        lengths, lists = [named], [hexes(after[:named])]
    else:
        results = [w.bytes() if k == "b" else w.numbers() for k in kinds]
        lengths = [len(r) for r in results]
        lists = [hexes(r) if k == "b" else decimals(r) for k, r in zip(kinds, results)]
    if call != 7:
        rooms = lengths if answer else [n + 1 for n in lengths]
        fields.append(",".join(map(str, rooms)))
    line = " ".join([LETTERS[call]] + fields)
    if answer:
        return line, f"refused {answer}"
    return line, "ok " + ",".join(map(str, lengths)) + ": " + " ".join(lists)


def main():
    here = os.path.dirname(os.path.abspath(__file__))
    out = os.path.join(here, "..", "..", "crates", "replay")
    asked, given = [], []
    for name in sys.argv[1:]:
        for line in open(name):
            line = line.strip()
            if not line:
                continue
            if line.startswith("#"):
                asked.append(line)
                given.append(line)
                continue
            pair = request(Words(line))
            if pair:
                asked.append(pair[0])
                given.append(pair[1])
    open(os.path.join(out, "stdin"), "w").write("\n".join(asked) + "\n")
    open(os.path.join(out, "stdout"), "w").write("\n".join(given) + "\n")
    print(len(asked), "lines,", sum(len(a) + 1 for a in asked), "bytes")


main()
