"""Reads a screenshot as xwd makes it, and writes it as `render --output` writes a picture.

    python3 -m gfxtools.screenshot SHOT [X Y WIDTH HEIGHT] > DUMP

Without numbers the whole of it is written. Only pixels of 24 bits of colour in 32 are read, as Xvfb has them.
"""

import struct
import sys

FRONT = struct.Struct(">25I")


def rows(data):
    """The sides of a screenshot, and its rows of B, G, R and a byte."""
    front = FRONT.unpack_from(data)
    header, colours = front[0], front[19]
    width, height, order, bits, line = front[4], front[5], front[7], front[11], front[12]
    if bits != 32 or order != 0:
        raise ValueError("its pixels aren't 32 bits with the lowest byte first")
    at = header + 12 * colours
    return width, height, [data[at + line * y:at + line * y + 4 * width] for y in range(height)]


def dump(data, part=None):
    """The lines of a dump of a part: its place and its sides."""
    width, height, lines = rows(data)
    x, y, width, height = part or (0, 0, width, height)
    yield f"output {width}x{height}\n"
    for line in lines[y:y + height]:
        pixels = bytearray(line[4 * x:4 * (x + width)])
        pixels[3::4] = b"\xff" * width
        yield pixels.hex() + "\n"


if __name__ == "__main__":
    with open(sys.argv[1], "rb") as file:
        sys.stdout.writelines(dump(file.read(), tuple(map(int, sys.argv[2:6])) or None))
