#!/usr/bin/env python3
"""Makes the tables that the program crates/whole_way reads, and says by the rules of docs/SPEC.md what it
must print of them.

    whole_way.py    writes crates/whole_way/stdin and crates/whole_way/stdout

Here a table is a list of cells, each with its mask bytes and its value. Expected are the rest form of these cells, and of the cells of a
subset, laid out; nothing is written to a stored form, read from one or merged, and no answer of the program is looked at. The draws
have a fixed seed, so the files come out the same each time."""
import itertools
import math
import os
import random

SIZES = (1, 2, 3, 4, 8, 16, 64)
SHAPES = {
    1: [[1], [2], [5], [7], [12], [24]],
    2: [[1, 1], [2, 2], [3, 3], [1, 6], [4, 3], [5, 4], [4, 6]],
    3: [[1, 1, 2], [2, 2, 2], [1, 3, 2], [3, 1, 4], [3, 3, 2], [2, 3, 4]],
    4: [[1, 1, 1, 1], [2, 1, 2, 1], [2, 2, 2, 1], [1, 2, 3, 2], [2, 2, 2, 2], [3, 2, 1, 4]],
}
LONG_RUN = 5

rng = random.Random(20)


# ---- kinds: depth, form (0 fixed, 1 ragged), size or width, order (0 little, 1 big) or place (0 start, 1 end); 1 behind them: packed masks


def kinds():
    for depth in range(5):
        for size in SIZES:
            for order in (0, 1):
                yield depth, 0, size, order
        for width in (4, 8):
            for place in (0, 1):
                yield depth, 1, width, place


def packed_kinds():
    """Every second kind: of a size or width one order or place, by turns."""
    for i, kind in enumerate(kinds()):
        if kind[3] == i // 2 % 2:
            yield (*kind, 1)


def is_packed(kind):
    return len(kind) == 5


def in_words(kind):
    depth, form, size, order = kind[:4]
    packed = ", packed masks" if is_packed(kind) else ""
    if form:
        return f"depth {depth}, ragged, width {size}, index at the {('start', 'end')[order]}{packed}"
    return f"depth {depth}, fixed, size {size}, {('little', 'big')[order]} order{packed}"


# ---- the rest form, cell by cell; the cells of a subset; content


def empty_value(kind):
    return b"" if kind[1] else bytes(kind[2])


def rest(kind, cell):
    masks, value = cell
    kept, live = [], True
    for byte in masks:
        kept.append(byte if live else 0)
        live = live and byte == 1
    if live:
        return kept, value
    return kept, empty_value(kind)


def cut(shape, cells, subset):
    """The cells whose coordinates lie in the subset, in row order."""
    starts, lengths = subset[: len(shape)], subset[len(shape) :]
    places = itertools.product(*map(range, shape))
    return [c for c, at in zip(cells, places) if all(s <= x < s + n for x, s, n in zip(at, starts, lengths))]


def content(kind, cells):
    """Mask planes, outermost first; values; offsets, of a ragged kind."""
    planes = [[masks[level] for masks, _ in cells] for level in range(kind[0])]
    offsets = [0]
    for _, value in cells:
        offsets.append(offsets[-1] + len(value))
    return planes, b"".join(value for _, value in cells), offsets if kind[1] else []


# ---- lists that cover a shape


def one(shape):
    return [[0] * len(shape) + shape]


def each(shape):
    """One for each cell, in row order or in any."""
    subsets = [list(at) + [1] * len(shape) for at in itertools.product(*map(range, shape))]
    return rng.choice((subsets, rng.sample(subsets, len(subsets))))


def strips(shape):
    """Along one side, of length 1 or 2."""
    side = max(range(len(shape)), key=lambda i: (shape[i], rng.random()))
    subsets, at = [], 0
    while at < shape[side]:
        starts, lengths = [0] * len(shape), list(shape)
        starts[side] = at
        lengths[side] = min(rng.choice((1, 1, 2)), shape[side] - at)
        at += lengths[side]
        subsets.append(starts + lengths)
    return subsets


def inside(starts, lengths):
    return set(itertools.product(*(range(s, s + n) for s, n in zip(starts, lengths))))


def grown(shape, pick):
    """Uneven subsets: from a free cell on, each side is made longer as long as all is free and a coin allows it."""
    free = inside([0] * len(shape), shape)
    subsets = []
    while free:
        starts = list(pick(sorted(free)))
        lengths = [1] * len(shape)
        for side in rng.sample(range(len(shape)), len(shape)):
            while rng.random() < 0.6:
                longer = list(lengths)
                longer[side] += 1
                if not inside(starts, longer) <= free:
                    break
                lengths = longer
        free -= inside(starts, lengths)
        subsets.append(starts + lengths)
    return subsets


def uneven(shape):
    return grown(shape, lambda free: free[0])


def shuffled(shape):
    subsets = grown(shape, rng.choice)
    rng.shuffle(subsets)
    return subsets


COVERS = (one, each, strips, uneven, shuffled)


def covering(cover, shape, least):
    """So many subsets or more."""
    while True:
        subsets = cover(shape)
        if len(subsets) >= least:
            return subsets


# ---- subsets to cut from the outcome: all, one cell, some, none


def some(shape):
    lengths = [rng.randint(1, side) for side in shape]
    return [rng.randint(0, side - n) for side, n in zip(shape, lengths)] + lengths


def cell(shape):
    return [rng.randrange(side) for side in shape] + [1] * len(shape)


def none(shape):
    lengths = [rng.randint(0, side) for side in shape]
    lengths[rng.randrange(len(shape))] = 0
    return [rng.randint(0, side - n) for side, n in zip(shape, lengths)] + lengths


# ---- cells: what nulls hide is not zero, and a null and an empty value lie side by side


def draw_value(kind):
    form, size = kind[1:3]
    if form:
        n = rng.choice((0, 1, 1, 2, 3, 5, 5, 260))
        return bytes([rng.randint(1, 255)]) * n if n > 5 else bytes(rng.randint(1, 255) for _ in range(n))
    if size < 64:
        return bytes(rng.randint(1, 255) for _ in range(size))
    ends = [rng.randint(1, 255) for _ in range(5)]
    return bytes(ends[:2] + [ends[2]] * (size - 4) + ends[3:])


def draw_cells(kind, count, style):
    depth = kind[0]
    whole = {"mixed": 0.5, "few": 0.8, "set": 1.0, "null": 0.5}[style]
    nulls = 1 - whole ** (1 / max(depth, 1))
    cells = []
    for _ in range(count):
        masks = [int(rng.random() >= nulls) for _ in range(depth)]
        if style == "null" and depth:
            masks[rng.randrange(depth)] = 0
        cells.append((masks, draw_value(kind)))
    if count > 1:
        at = rng.randrange(count - 1)
        pair = [at, at + 1]
        rng.shuffle(pair)
        if style in ("mixed", "few") and depth:
            level = rng.randrange(depth)
            masks = [int(i != level) for i in range(depth)]
            hidden = draw_value(kind)
            cells[pair[0]] = masks, hidden or b"\xEE"
        if style != "null":
            cells[pair[1]] = [1] * depth, empty_value(kind)
    return cells


STYLES = ("mixed", "few", "null", "mixed", "set")


# ---- lists as text


def shown(items, glyph, join):
    """From five equal ones on a run."""
    parts, alone = [], False
    for item, group in itertools.groupby(items):
        n = len(list(group))
        for run in [n] if n >= LONG_RUN else [1] * n:
            if run == 1 and alone:
                parts[-1] += join + glyph(item)
            else:
                parts.append(glyph(item) if run == 1 else f"{run}*{glyph(item)}")
            alone = run == 1
    return "+".join(parts) or "-"


def hexes(items):
    return shown(items, lambda x: f"{x:02X}", "")


def decimals(items):
    return shown(items, str, ",")


def plain(numbers):
    return ",".join(map(str, numbers))


def joined(parts):
    return "+".join(p for p in parts if p != "-") or "-"


def told(kind, cells):
    planes, values, offsets = content(kind, cells)
    return f"{hexes(sum(planes, []))} {hexes(values)} {decimals(offsets)}"


# ---- the tables


def request(kind, shape, subsets, cells, cuts):
    planes, _, offsets = content(kind, cells)
    lists = [
        plain(kind),
        plain(shape),
        joined(map(plain, subsets)),
        joined(map(hexes, planes)),
        joined(hexes(value) for _, value in cells),
        decimals(offsets),
    ]
    return "w " + " ".join(lists) + "; " + joined(map(plain, cuts))


def answer(number, kind, shape, cells, cuts):
    lines = [f"{number}: kind {plain(kind)}", "outcome: " + told(kind, [rest(kind, c) for c in cells])]
    for subset in cuts:
        lines.append(f"cut {decimals(subset)}: " + told(kind, [rest(kind, c) for c in cut(shape, cells, subset)]))
    return lines


# Lists that do not cover, subsets outside the shape, content that breaks the rules: no part of the demand, and refused.
REFUSED = [
    ("a cell is missed", "1,0,2,0 2,2 0,0,1,2+1,0,1,1 01000100 0A0B+0C0D+0E0F+1011 -", 12),
    ("a cell is held twice", "1,0,2,0 2,2 0,0,2,2+1,0,1,1 01000100 0A0B+0C0D+0E0F+1011 -", 12),
    ("no subset", "0,1,4,0 1 - - 41 0,1", 12),
    ("a subset past the shape", "1,0,2,0 2,2 0,0,2,2+1,1,1,2 01000100 0A0B+0C0D+0E0F+1011 -", 3),
    ("an empty subset: its lengths are no shape to write", "1,0,2,0 2,2 0,0,2,2+1,1,0,1 01000100 0A0B+0C0D+0E0F+1011 -", 2),
    ("offsets fall", "0,1,8,1 2 0,2 - 4142 0,3,2", 4),
    ("a first offset above 0", "1,1,4,0 2 0,1+1,1 0101 414243 1,2,3", 4),
    ("a first offset above 0 with all cells empty", "0,1,8,0 2 0,2 - 41 1,1,1", 4),
    ("a mask too few", "2,0,1,0 2 0,2 010101 0102 -", 4),
    ("a mask byte over 01", "2,0,1,0 2 0,1+1,1 01020101 0102 -", 4),
    ("a mask byte over 01 below a null, packed masks", "2,0,1,0,1 2 0,1+1,1 00010201 0102 -", 4),
]


HEAD = [
    "# Tables of every kind, five of each: cut into one subset, one for each cell, strips, uneven ones, uneven ones in any order.",
    "# A table a line. Printed are its outcome, and what is cut from that: all, one cell, some cells, none.",
    "# Lists are masks before values before offsets.",
    "#",
]


PACKED = [
    "# Packed masks: every second kind, one table of each.",
    "#",
]


class Tables:
    """What is asked and what must be given, line by line."""

    def __init__(self):
        self.asked, self.given, self.number, self.differ = [], [], 0, 0

    def say(self, *lines):
        self.asked += lines
        self.given += lines

    def refused(self, why, lists, refusal):
        self.say("# refused: " + why)
        self.number += 1
        self.asked.append("w " + lists + "; -")
        self.given += [f"{self.number}: kind {lists.split()[0]}", f"outcome: refused {refusal}"]

    def add(self, kind, cover, sides, style, fewest):
        """A table of so many sides, and of so many cells or more where there is one."""
        most = 24 if kind[1] or kind[2] <= 4 else 12 if kind[2] <= 16 else 6
        least = 1 if cover is one else 2
        shapes = [s for s in SHAPES[sides] if least <= math.prod(s) <= most]
        shape = rng.choice([s for s in shapes if math.prod(s) >= fewest] or shapes)
        cells = draw_cells(kind, math.prod(shape), style)
        subsets = covering(cover, shape, least)
        cuts = [one(shape)[0], cell(shape), some(shape), none(shape)]
        self.number += 1
        self.asked.append(request(kind, shape, subsets, cells, cuts))
        self.given += answer(self.number, kind, shape, cells, cuts)
        self.differ += content(kind, cells) != content(kind, [rest(kind, c) for c in cells])


def main():
    tables = Tables()
    tables.say(*HEAD)
    for i, kind in enumerate(kinds()):
        tables.say("# " + in_words(kind))
        for j, cover in enumerate(COVERS):
            tables.add(kind, cover, 1 + (i + j) % 4, STYLES[(i + j) % 5], 1)
    for refused in REFUSED:
        tables.refused(*refused)
    tables.say(*PACKED)
    for i, kind in enumerate(packed_kinds()):
        tables.say("# " + in_words(kind))
        # by turns, so that each comes with each; masks of more than one byte where cells are small
        tables.add(kind, COVERS[i % 5], 1 + i % 4, STYLES[i // 5 % 5], 9)
    out = os.path.join(os.path.dirname(os.path.abspath(__file__)), "..", "..", "crates", "whole_way")
    for name, lines in (("stdin", tables.asked), ("stdout", tables.given)):
        with open(os.path.join(out, name), "w") as file:
            file.write("\n".join(lines) + "\n")
    print(tables.number, "tables,", tables.differ, "of them not in rest form")


main()
