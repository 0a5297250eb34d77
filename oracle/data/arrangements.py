"""Every small arrangement, by the rule alone (S15.1 and S15.2 of docs/SPEC.md): python3 arrangements.py > arrangements.txt

A cell of depth d is null at level 1 up to level d, or set with 0, 1, 2 or 3 bytes. The arrangements of n cells are all lists of n such
states in the order in which they are counted, the first cell weighing most; so the number of one is its place in this order.
"""

from itertools import product


def states(depth):
    """Of each state the mask byte of each level, outermost first, and the length."""
    nulls = [([1] * level + [0] * (depth - level), 0) for level in range(depth)]
    return nulls + [([1] * depth, length) for length in range(4)]


def listed(numbers):
    return " ".join(str(number) for number in [len(numbers), *numbers])


def bytes_listed(numbers):
    return f"{len(numbers)} {bytes(numbers).hex()}" if numbers else "0"


def main():
    print("# Every small arrangement: depth, cells, number; masks, plane by plane; the length of each cell. Value bytes are 00.")
    print("# Made by arrangements.py from the rule. The form is told in README.md beside this file.")
    for depth in range(3):
        for cells in range(1, 5):
            for number, arrangement in enumerate(product(states(depth), repeat=cells)):
                masks = [cell[0][level] for level in range(depth) for cell in arrangement]
                lengths = [cell[1] for cell in arrangement]
                print(depth, cells, number, bytes_listed(masks), listed(lengths))


if __name__ == "__main__":
    main()
