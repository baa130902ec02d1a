"""What the program takes at most (docs/PROFILE.md), and a tool: pixels of a picture, bytes of an input."""

import argparse
import typing

from . import entry

# A surface's sides, and those of the output, in pixels.
MOST_SIDE, MOST_OUTPUT_SIDE = 8192, 32766

# How many surfaces there are at most, and of how many cells together, each of which has these sides.
MOST_SURFACES, MOST_CELLS, CELL_SIDE = 1024, 16384, 64


class Store(typing.NamedTuple):
    """How much a client's cache of bitmaps has room for: slots, and bytes of all bitmaps together."""

    slots: int
    bytes: int


LARGE, SMALL = Store(25600, 104857600), Store(4096, 16777216)

# The versions of this profile, ascending, by the names that scripts have for them ([MS-RDPEGFX] 2.2.3).
VERSIONS = {"8": 0x00080004, "8.1": 0x00080105, "10": 0x000A0002}

# A surface of the largest sides, 8,192 by 8,192; an output may have sixteen times as many pixels.
MOST_PIXELS = 67108864

# The program's limits of a stream and of a script (docs/PROFILE.md, "Limits").
MOST_STREAM, MOST_SCRIPT = 1073741824, 67108864


Sides = typing.Tuple[int, int]  # width, height


def cells(width: int, height: int) -> int:
    """How many cells a surface of these sides has, a part cell counted whole."""
    return -(-width // CELL_SIDE) * -(-height // CELL_SIDE)


def lies_in(sides: Sides, rectangle: typing.Sequence[int]) -> bool:
    """Whether a rectangle, of left, top, right and bottom, is one, and lies in a picture of these sides."""
    left, top, right, bottom = rectangle
    return left <= right <= sides[0] and top <= bottom <= sides[1]


def add_word(parser: argparse.ArgumentParser) -> None:
    """The word that lets a tool draw larger pictures."""
    parser.add_argument("--most-pixels", metavar="N", type=entry.number_of(1), default=MOST_PIXELS,
                        help=f"draws pictures of up to N pixels, {MOST_PIXELS:,} if it isn't said")


def check(name: str, sides: Sides, most: int, scale: int = 1) -> None:
    """Refuses to draw a picture of more pixels than these."""
    pixels = sides[0] * sides[1] * scale * scale
    if pixels > most:
        scaled = f", {scale} times as large," if scale > 1 else ""
        raise entry.Wrong(f"{name}, {sides[0]}x{sides[1]},{scaled} has {pixels:,} pixels, and no more than {most:,} "
                          "are drawn unless --most-pixels says so")
