"""The blocks of a message of RemoteFX Progressive (docs/PROGRESSIVE.md), as far as they say what is drawn."""

import struct

SYNC, FRAME_BEGIN, FRAME_END, CONTEXT, REGION = 0xCCC0, 0xCCC1, 0xCCC2, 0xCCC3, 0xCCC4
SIMPLE, FIRST, UPGRADE = 0xCCC5, 0xCCC6, 0xCCC7
BLOCK = 6
TILE_SIDE = 64

# How many bytes stand in the bodies of blocks of one size.
SIZES = {SYNC: 6, FRAME_BEGIN: 6, FRAME_END: 0, CONTEXT: 4}
# The head of a tile, and where in it the lengths of its data stand.
TILES = {SIMPLE: ("<3B2HB4H", 6), FIRST: ("<3B2HBB4H", 7), UPGRADE: ("<3B2HB6H", 6)}


class Fault(Exception):
    """The refusal of some blocks."""


class Blocks:
    """What the blocks of a message hold: how many tiles there are of each kind, the kind and the cell of each, and the
    rectangle around its regions' rectangles. Where they are refused, `refusal` says so."""

    def __init__(self):
        self.tiles = {"simple": 0, "first": 0, "difference": 0, "upgrade": 0}
        self.placed = []
        self.levels = 0
        self.rectangle = None
        self.refusal = None

    def add_rectangle(self, left, top, width, height):
        right, bottom = left + width, top + height
        if self.rectangle:
            a, b, c, d = self.rectangle
            left, top, right, bottom = min(a, left), min(b, top), max(c, right), max(d, bottom)
        self.rectangle = [left, top, right, bottom]

    def add_tile(self, kind, head):
        difference = kind != UPGRADE and head[5] & 1
        name = "upgrade" if kind == UPGRADE else "difference" if difference else "simple" if kind == SIMPLE else "first"
        self.tiles[name] += 1
        self.placed.append((name, head[3:5]))


def block_at(data, at):
    """The block that stands at a place: its kind, and its body."""
    kind, length = struct.unpack_from("<HI", data, at) if len(data) - at >= BLOCK else (0, 0)
    if not BLOCK <= length <= len(data) - at:
        raise Fault("BlockLength")
    return kind, data[at + BLOCK:at + length]


def read_tiles(data, count, found):
    """The tiles of a region, which has to have so many."""
    at = 0
    for _ in range(count):
        if at == len(data):
            raise Fault("TileCount")
        kind, body = block_at(data, at)
        if kind not in TILES:
            raise Fault("BlockUnknown")
        form, lengths = TILES[kind]
        head = struct.unpack_from(form, body) if len(body) >= struct.calcsize(form) else None
        if head is None or len(body) != struct.calcsize(form) + sum(head[lengths:]):
            raise Fault("BlockLength")
        found.add_tile(kind, head)
        at += BLOCK + len(body)
    if at != len(data):
        raise Fault("TileCount")


def read_region(body, found):
    if len(body) < 12:
        raise Fault("BlockLength")
    side, rects, quants, levels, _, tiles, size = struct.unpack_from("<BHBBBHI", body)
    tables = 12 + 8 * rects + 5 * quants + 16 * levels
    if len(body) != tables + size:
        raise Fault("BlockLength")
    if side != TILE_SIDE:
        raise Fault("BlockUnknown")
    for rect in struct.iter_unpack("<4H", body[12:12 + 8 * rects]):
        found.add_rectangle(*rect)
    found.levels = max(found.levels, levels)
    read_tiles(body[tables:], tiles, found)


def read(data: bytes) -> Blocks:
    """What the blocks of a message hold, up to the first that is refused."""
    found, at = Blocks(), 0
    try:
        while at < len(data):
            kind, body = block_at(data, at)
            if kind == REGION:
                read_region(body, found)
            elif kind not in SIZES:
                raise Fault("BlockUnknown")
            elif len(body) != SIZES[kind]:
                raise Fault("BlockLength")
            elif kind == CONTEXT and struct.unpack_from("<H", body, 1)[0] != TILE_SIDE:
                raise Fault("BlockUnknown")
            at += BLOCK + len(body)
    except Fault as fault:
        found.refusal = str(fault)
    return found
