#!/usr/bin/env python3
"""Says how near one dump of `render --output` is to another: the peak signal-to-noise ratio of their colours, in dB.

    decibels.py DUMP OTHER

Dumps of the same pixels are `no difference`. Both have to have the same sides.
"""

import math
import sys


def rows_of(name):
    with open(name, encoding="ascii") as file:
        sides = next(file)
        return sides, [bytes.fromhex(line) for line in file]


def main():
    (sides, rows), (other_sides, other_rows) = rows_of(sys.argv[1]), rows_of(sys.argv[2])
    if sides != other_sides:
        sys.exit(f"other sides: {sides.strip()} and {other_sides.strip()}")
    squares = colours = 0
    for row, other in zip(rows, other_rows):
        colours += len(row) // 4 * 3
        if row != other:
            squares += sum((a - b) ** 2 for a, b in zip(row, other))
    print(f"{10 * math.log10(255 ** 2 * colours / squares):.1f} dB" if squares else "no difference")


if __name__ == "__main__":
    main()
