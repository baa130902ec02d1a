#!/usr/bin/env python3
"""Writes a window dump (xwd) that looks like a photograph, for xwud to show.

    photograph.py WIDTH HEIGHT > DUMP
"""

import math
import random
import struct
import sys

NAME = b"photograph\0"


def main():
    width, height = map(int, sys.argv[1:])
    chance = random.Random(1)
    pixels = bytearray()
    for y in range(height):
        for x in range(width):
            grain = chance.randrange(-6, 7)
            waves = math.sin(x / 37 + y / 91), math.sin(y / 53 - x / 200), math.cos(x / 71 + y / 29)
            pixels += bytes(max(0, min(255, round(128 + 90 * wave) + grain)) for wave in waves) + b"\0"
    front = struct.pack(">25I", 100 + len(NAME), 7, 2, 24, width, height, 0, 0, 32, 0, 32, 32, 4 * width, 4, 0xFF0000,
                        0xFF00, 0xFF, 8, 256, 0, width, height, 0, 0, 0)
    sys.stdout.buffer.write(front + NAME + pixels)


if __name__ == "__main__":
    main()
