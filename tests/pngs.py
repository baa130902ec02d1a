#!/usr/bin/env python3
"""Reads PNGs of each kind that tools/gfxtools/png_reader.py takes, made by an encoder of this file's own: each colour
type, depth and filter, interlaced and not, with and without a clear colour; and some that are cut, or have a bit changed.

    tests/pngs.py TOOLS

TOOLS is the folder of the tools. It writes a line for each PNG that is read otherwise than it was made, and for each
broken one that is taken, and then how many were made.
"""

import itertools
import random
import struct
import sys
import zlib

sys.path.insert(0, sys.argv[1])
from gfxtools import png_reader as reader

SIDES = ((1, 1), (3, 2), (13, 9), (8, 8), (2, 11))
CHANCE = random.Random(7)


def chunk(name, data):
    return struct.pack(">I", len(data)) + name + data + struct.pack(">I", zlib.crc32(name + data))


def paeth(a, b, c):
    p = a + b - c
    return min((abs(p - a), 0, a), (abs(p - b), 1, b), (abs(p - c), 2, c))[2]


def filtered(kind, row, above, step):
    """A row by a filter, behind its kind."""
    out = bytearray([kind])
    for at, byte in enumerate(row):
        left = row[at - step] if at >= step else 0
        corner = above[at - step] if at >= step else 0
        guess = (0, left, above[at], (left + above[at]) // 2, paeth(left, above[at], corner))[kind]
        out.append(byte - guess & 255)
    return bytes(out)


def packed(samples, depth):
    """Samples of so many bits each, as bytes."""
    bits = "".join(format(each, f"0{depth}b") for each in samples)
    bits += "0" * (-len(bits) % 8)
    return bytes(int(bits[at:at + 8], 2) for at in range(0, len(bits), 8))


class Made:
    """A picture of chance: the samples of its pixels, its palette, and what is clear."""

    def __init__(self, colour, depth, interlaced, sides, has_clear):
        self.colour, self.depth, self.interlaced, self.sides = colour, depth, interlaced, sides
        self.count, self.most = reader.SAMPLES[colour], (1 << depth) - 1
        self.pixels = [[tuple(self.sample() for _ in range(self.count)) for _ in range(sides[0])]
                       for _ in range(sides[1])]
        size = 3 * min(256, self.most + 1) if colour == reader.PALETTE else 0
        self.palette, self.clear = CHANCE.randbytes(size), None
        if has_clear and colour in (reader.GREY, reader.COLOUR):
            self.clear = struct.pack(f">{self.count}H", *self.pixels[0][0])
        elif has_clear and colour == reader.PALETTE:
            self.clear = CHANCE.randbytes(size // 6)

    def sample(self):
        return CHANCE.choice((0, self.most, CHANCE.randint(0, self.most)))

    def eight(self, value):
        """A sample in eight bits."""
        return value >> 8 if self.depth == 16 else value * 255 // self.most

    def wanted(self, pixel):
        """A pixel as B, G, R, A."""
        if self.colour == reader.PALETTE:
            red, green, blue = self.palette[3 * pixel[0]:3 * pixel[0] + 3]
            clear = self.clear or b""
            return bytes((blue, green, red, clear[pixel[0]] if pixel[0] < len(clear) else 255))
        values = [self.eight(value) for value in pixel]
        alpha = values.pop() if self.colour in (reader.GREY_ALPHA, reader.COLOUR_ALPHA) else 255
        red, green, blue = values * (3 // len(values))
        return bytes((blue, green, red, 0 if self.clear and pixel == self.pixels[0][0] else alpha))

    def rows(self):
        """The rows of all passes, each behind its filter."""
        step = max(1, self.depth * self.count // 8)
        for left, top, across, down in reader.ADAM7 if self.interlaced else reader.WHOLE:
            above = bytes(step * self.sides[0])
            for line in self.pixels[top::down]:
                if not line[left::across]:
                    continue
                row = packed(itertools.chain(*line[left::across]), self.depth)
                yield filtered(CHANCE.randrange(5), row, above, step)
                above = row

    def png(self):
        head = struct.pack(">IIBBBBB", *self.sides, self.depth, self.colour, 0, 0, self.interlaced)
        body = zlib.compress(b"".join(self.rows()))
        return (reader.SIGNATURE + chunk(b"IHDR", head) + (chunk(b"PLTE", self.palette) if self.palette else b"")
                + (b"" if self.clear is None else chunk(b"tRNS", self.clear)) + chunk(b"tEXt", b"Comment\0x")
                + chunk(b"IDAT", body[:9]) + chunk(b"IDAT", body[9:]) + chunk(b"IEND", b""))


def broken(data):
    """A PNG that is cut somewhere, and one of which a bit is changed there."""
    at = CHANCE.randrange(len(data))
    yield data[:at]
    yield data[:at] + bytes([data[at] ^ 1 << CHANCE.randrange(8)]) + data[at + 1:]


def try_one(*kind):
    made = Made(*kind)
    data = made.png()
    pixels = b"".join(made.wanted(pixel) for line in made.pixels for pixel in line)
    if reader.read(data) != (*made.sides, pixels):
        print("is read otherwise:", *kind)
    for other in itertools.chain.from_iterable(broken(data) for _ in range(4)):
        try:
            reader.read(other)
            print("is taken, and broken:", *kind)
        except reader.Fault:
            pass


KINDS = [(colour, depth) for colour, depths in reader.DEPTHS.items() for depth in depths]
count = 0
for (colour, depth), interlaced, sides, has_clear in itertools.product(KINDS, (0, 1), SIDES, (False, True)):
    try_one(colour, depth, interlaced, sides, has_clear)
    count += 1
print(count)
