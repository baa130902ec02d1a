"""Streams and scripts that cost as much as they can for their bytes: what docs/SPEED.md has of the worst costs."""

import struct

FORMAT = 0x20
MOST_LIST = 65535
CELLS = 128


def message(number, body):
    """A message of the server, alone in a channel message of as many blocks as it takes (docs/FORMATS.md)."""
    return wrapped(pdu(number, body))


def pdu(number, body):
    return struct.pack("<HHI", number, 0, 8 + len(body)) + body


def wrapped(payload):
    if len(payload) <= 65535:
        return struct.pack("<IBB", 2 + len(payload), 0xE0, 0x04) + payload
    parts = [payload[at:at + 65535] for at in range(0, len(payload), 65535)]
    inside = struct.pack("<BHI", 0xE1, len(parts), len(payload))
    inside += b"".join(struct.pack("<IB", 1 + len(part), 0x04) + part for part in parts)
    return struct.pack("<I", len(inside)) + inside


def surface(width, height, number=1):
    return message(0x09, struct.pack("<HHHB", number, width, height, FORMAT))


def deleted(number):
    return message(0x0A, struct.pack("<H", number))


def fill(rects, number=1):
    body = struct.pack("<HBBBBH", number, 1, 2, 3, 255, len(rects))
    return message(0x04, body + b"".join(struct.pack("<HHHH", *rect) for rect in rects))


# RemoteFX Progressive


def block(number, body):
    return struct.pack("<HI", number, 6 + len(body)) + body


def region(rects, tiles, levels=b""):
    """A region of these rectangles (x, y, width, height), one quant, and tiles."""
    inside = b"".join(tiles)
    head = struct.pack("<BHBBBHI", 64, len(rects), 1, len(levels) // 16, 1, len(tiles), len(inside))
    return block(0xCCC4, head + b"".join(struct.pack("<HHHH", *rect) for rect in rects) + b"\x66" * 5 + levels + inside)


def progressive(data, number=1, context=1):
    return message(0x02, struct.pack("<HHIBI", number, 9, context, FORMAT, len(data)) + data)


def simple(x, y, codes=(b"\0", b"\0", b"\0")):
    head = struct.pack("<BBBHHBHHHH", 0, 0, 0, x, y, 0, *map(len, codes), 0)
    return block(0xCCC5, head + b"".join(codes))


def first(x, y):
    return block(0xCCC6, struct.pack("<BBBHHBBHHHH", 0, 0, 0, x, y, 0, 0, 1, 0, 0, 0) + b"\0")


def upgrade(x, y, quality):
    return block(0xCCC7, struct.pack("<BBBHHBHHHHHH", 0, 0, 0, x, y, quality, 0, 1, 0, 0, 0, 0) + b"\0")


def cell_of(number):
    return number % CELLS, number // CELLS % CELLS


WHOLE = [(0, 0, 8192, 8192)]


def tiles(count):
    """Tiles of no code, one in each cell, in one message."""
    yield surface(8192, 8192)
    yield progressive(region(WHOLE, [simple(*cell_of(n), (b"", b"", b"")) for n in range(count)]))


def again(count):
    """The same twice in one message, the second time by its own region."""
    yield surface(8192, 8192)
    once = region(WHOLE, [simple(*cell_of(n), (b"", b"", b"")) for n in range(count)])
    yield progressive(once + once)


def onecell(count):
    """As many tiles, all in one cell."""
    yield surface(64, 64)
    yield progressive(region([(0, 0, 64, 64)], [simple(0, 0, (b"", b"", b"")) for _ in range(count)]))


def upgrades(count):
    """First tiles, and their upgrades of a byte each."""
    level = bytes([50]) + (b"\x22" * 5) * 3
    yield surface(8192, 8192)
    yield progressive(region(WHOLE, [first(*cell_of(n)) for n in range(count)], level))
    yield progressive(region(WHOLE, [upgrade(*cell_of(n), 0xFF) for n in range(count)], level))


def areas(count):
    """A region of so many rectangles of one cell each, and as many tiles, in as few cells as there are."""
    yield surface(8192, 8192)
    rects = [(64 * x, 64 * y, 64, 64) for x, y in map(cell_of, range(count))]
    yield progressive(region(rects, [simple(*cell_of(n), (b"", b"", b"")) for n in range(count)]))


def parts(count):
    """A region of so many rectangles of nearly a whole cell, the same cell, and as many tiles there."""
    yield surface(64, 64)
    yield progressive(region([(0, 0, 64, 63)] * count, [simple(0, 0, (b"", b"", b""))] * count))


def ends(count):
    """A surface is made and deleted, so many times, while another has 16,384 records of tiles."""
    yield surface(8192, 8128)
    yield progressive(region(WHOLE, [simple(*cell_of(n), (b"", b"", b"")) for n in range(128 * 127)]))
    for _ in range(count):
        yield surface(1, 1, 2)
        yield deleted(2)


def contexts(count):
    """An encoding context without records is deleted so many times."""
    yield surface(8192, 8192)
    yield progressive(region(WHOLE, [simple(*cell_of(n), (b"", b"", b"")) for n in range(CELLS * CELLS)]))
    for _ in range(count):
        yield message(0x03, struct.pack("<HI", 1, 7))


# RemoteFX video


def video(data, width, height):
    head = struct.pack("<HHBHHHHI", 1, 3, FORMAT, 0, 0, width, height, len(data))
    return message(0x01, head + data)


def video_region(rects):
    return block(0xCCC6, struct.pack("<BBBH", 1, 0, 1, len(rects)) + b"".join(struct.pack("<HHHH", *rect) for rect in rects) + struct.pack("<HH", 0xCAC1, 1))


def video_tile(x, y, codes=(b"", b"", b"")):
    return block(0xCAC3, struct.pack("<BBBHHHHH", 0, 0, 0, x, y, *map(len, codes)) + b"".join(codes))


def video_set(inside):
    data = b"".join(inside)
    head = struct.pack("<BBHHHBBHI", 1, 0, 0xCAC2, 0, 0x4455, 1, 64, len(inside), len(data))
    return block(0xCCC7, head + b"\x66" * 5 + data)


def videotiles(count):
    """Tiles of no code, one in each cell, in one message."""
    yield surface(8192, 8192)
    yield video(video_set([video_tile(*cell_of(n)) for n in range(count)]), 8192, 8192)


def videoareas(count):
    """A region of so many rectangles of one cell each, and as many tiles."""
    yield surface(8192, 8192)
    rects = [(64 * x, 64 * y, 64, 64) for x, y in map(cell_of, range(count))]
    yield video(video_region(rects) + video_set([video_tile(*cell_of(n)) for n in range(count)]), 8192, 8192)


def videoparts(count):
    """A region of so many rectangles of nearly a whole cell, the same cell, and as many tiles there."""
    yield surface(64, 64)
    yield video(video_region([(0, 0, 64, 63)] * count) + video_set([video_tile(0, 0)] * count), 64, 64)


# ClearCodec


def clear(data, width, height, left=0, top=0):
    head = struct.pack("<HHBHHHHI", 1, 8, FORMAT, left, top, left + width, top + height, len(data))
    return pdu(0x01, head + data)


def glyph(sequence, index):
    residual = struct.pack("<BBBBH", 1, 2, 3, 255, 1024)
    return struct.pack("<BBHIII", 1, sequence % 256, index, len(residual), 0, 0) + residual


def hit(sequence, index):
    return struct.pack("<BBH", 3, sequence % 256, index)


def glyphs(count):
    """Hits of a glyph of 32 by 32, in one channel message."""
    yield surface(64, 64)
    yield wrapped(clear(glyph(0, 0), 32, 32) + b"".join(clear(hit(n, 0), 32, 32) for n in range(1, count + 1)))


def glyphsalone(count):
    """The same, each in a channel message of its own."""
    yield surface(64, 64)
    yield wrapped(clear(glyph(0, 0), 32, 32))
    for n in range(1, count + 1):
        yield wrapped(clear(hit(n, 0), 32, 32))


def residuals(count):
    """Streams of one run over 1,024 by 1,024."""
    yield surface(1024, 1024)
    for n in range(count):
        residual = struct.pack("<BBBBHI", n % 256, 2, 3, 255, 65535, 1024 * 1024)
        yield wrapped(clear(struct.pack("<BBIII", 0, n % 256, len(residual), 0, 0) + residual, 1024, 1024))


def subcodecs(count):
    """One stream of so many parts by RLEX, each of them one run over the whole rectangle of 1,024 by 1,024."""
    yield surface(1024, 1024)
    # One colour; a run of all pixels but the last, and a suite of that one.
    rlex = struct.pack("<BBBB", 1, 1, 2, 3) + struct.pack("<BBHI", 0, 255, 65535, 1024 * 1024 - 1)
    part = struct.pack("<HHHHIB", 0, 0, 1024, 1024, len(rlex), 2) + rlex
    inside = part * count
    yield wrapped(clear(struct.pack("<BBIII", 0, 0, 0, 0, len(inside)) + inside, 1024, 1024))


# Fills, copies, the cache


def cells(count):
    """Fills of 65,535 rectangles of one pixel."""
    yield surface(64, 64)
    for _ in range(count):
        yield fill([(n % 64, n // 64 % 64, n % 64 + 1, n // 64 % 64 + 1) for n in range(MOST_LIST)])


def wholes(count):
    """One fill of so many rectangles of 1,024 by 1,024."""
    yield surface(1024, 1024)
    yield fill([(0, 0, 1024, 1024)] * count)


def points(count):
    """Copies of one pixel to 65,535 points."""
    yield surface(64, 64)
    for _ in range(count):
        body = struct.pack("<HHHHHHH", 1, 1, 0, 0, 1, 1, MOST_LIST)
        yield message(0x05, body + b"".join(struct.pack("<HH", n % 64, n // 64 % 64) for n in range(MOST_LIST)))


def wholecopies(count):
    """One copy of 1,023 by 1,023 to so many points."""
    yield surface(1024, 1024)
    body = struct.pack("<HHHHHHH", 1, 1, 0, 0, 1023, 1023, count)
    yield message(0x05, body + struct.pack("<HH", 1, 1) * count)


def stores(count):
    """A pixel is kept in one slot after another, so many times."""
    yield surface(64, 64)
    for n in range(count):
        yield message(0x06, struct.pack("<HQHHHHH", 1, n, n % 25600 + 1, 0, 0, 1, 1))


def evictions(count):
    """All slots are filled, and evicted so many times."""
    yield from stores(25600)
    for n in range(count):
        yield message(0x08, struct.pack("<H", n % 25600 + 1))


def shows(count):
    """A bitmap of one pixel is shown at 65,535 points, so many times."""
    yield surface(64, 64)
    yield message(0x06, struct.pack("<HQHHHHH", 1, 7, 1, 0, 0, 1, 1))
    for _ in range(count):
        body = struct.pack("<HHH", 1, 1, MOST_LIST)
        yield message(0x07, body + b"".join(struct.pack("<HH", n % 64, n // 64 % 64) for n in range(MOST_LIST)))


def maps(count):
    """1,024 surfaces, mapped to the output again and again."""
    for n in range(1024):
        yield surface(1, 1, n)
    for n in range(count):
        yield message(0x0F, struct.pack("<HHII", n % 1024, 0, n % 100, 0))


# Scripts


def script(steps):
    yield "step = [\n"
    yield '{ do = "surface", id = 1, width = 1920, height = 1080 },\n'
    for step in steps:
        yield "{ do = " + step + " },\n"
    yield '{ do = "frame" },\n]\n'


def rect_fill(left, top, right, bottom):
    return f'"fill", id = 1, colour = "000000ff", rects = [[{left}, {top}, {right}, {bottom}]]'


def apart(count):
    """Fills of 5 by 5 in one frame, none of which covers another, row by row."""
    return script(rect_fill(n % 380 * 5, n // 380 * 5, n % 380 * 5 + 5, n // 380 * 5 + 5) for n in range(count))


def scattered(count):
    """The same at random places, of random sides."""
    import random
    chance = random.Random(1)
    def one():
        left, top = chance.randrange(1900), chance.randrange(1060)
        return rect_fill(left, top, left + 1 + chance.randrange(20), top + 1 + chance.randrange(20))
    return script(one() for _ in range(count))


def crossed(count):
    """Fills of 60 by 60 in one frame, each a pixel beside the one before."""
    return script(rect_fill(n % 200, n // 200, n % 200 + 60, n // 200 + 60) for n in range(count))


# An input of `import`


def imports(count):
    """Two files of so many bitmaps of one pixel, in opposite orders, and a script that shows one of them."""
    entries = [struct.pack("<QHHI", n, 1, 1, n) for n in range(count)]
    for held in (entries, entries[::-1]):
        yield struct.pack("<I4sH", 6 + sum(map(len, held)), b"KEPT", count)
        yield from held
    yield 'step = [\n{ do = "surface", id = 1, width = 8, height = 8 },\n{ do = "show", key = 0, to = 1, points = [[0, 0]] },\n{ do = "frame" },\n]\n'


STREAMS = {
    "tiles": 16384, "again": 16384, "onecell": 65535, "upgrades": 16384, "areas": 16384, "parts": 1000, "ends": 10000,
    "contexts": 10000, "videotiles": 16384, "videoareas": 16384, "videoparts": 1000, "glyphs": 4000,
    "glyphsalone": 4000, "residuals": 100, "subcodecs": 1000, "cells": 20, "wholes": 1000, "points": 20,
    "wholecopies": 1000, "stores": 100000, "evictions": 100000, "shows": 20, "maps": 100000,
}
SCRIPTS = {"apart": 40000, "scattered": 40000, "crossed": 40000}
IMPORTS = {"imports": 5461}
