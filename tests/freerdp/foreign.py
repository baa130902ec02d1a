#!/usr/bin/env python3
"""Writes a stream as another server might send it, always the same for the same words.

    foreign.py SEED

Its ClearCodec streams are good ones, but not of the kinds that this project's server makes: all three parts
together, bands anywhere in the rectangle and over each other, bars and shorts that are hit by chance,
shorts that a bar cuts off, resets of the cursors, several subcodecs, segments with a depth, run lengths in
long forms, flags without meaning. Nothing is in it of which docs/INTEROP.md says that FreeRDP departs
there. Messages share channel messages, in one or several blocks.
"""
import random
import sys

sys.dont_write_bytecode = True

from messages import *

BARS, SHORTS = 32768, 16384


class Server:
    def __init__(self, seed, counts=(20, 60, 60, 300)):
        """It sends one of these counts of paints."""
        self.counts = counts
        self.chance = random.Random(seed)
        self.sizes = {}      # surface: width, height
        self.sequence = self.below(256)
        self.bars = {}       # place: rows
        self.shorts = set()  # places that are written
        self.bar_cursor = self.short_cursor = 0
        self.glyphs = {}     # index: width, height
        self.colours = [self.any_colour() for _ in range(40)]

    def below(self, number):
        return self.chance.randrange(number)

    def any_colour(self):
        return tuple(self.chance.choice((0, 255, self.below(256))) for _ in range(3))

    def colour(self):
        return self.chance.choice(self.colours)

    def length(self, count):
        return run_length(count, self.chance.choice((0, 0, 0, 1, 2)))

    def residual(self, area):
        text = b""
        while area:
            count = min(area, self.chance.choice((0, 1, 1, 2, 7, 300, 5000)))
            text += bytes(self.colour()) + self.length(count)
            area -= count
        return text

    def rlex(self, area):
        palette = self.chance.sample(self.colours, self.chance.choice((1, 2, 3, 4, 5, 16, 17, 33)))
        bits = max(1, (len(palette) - 1).bit_length())
        segments = []
        while area:
            stop = self.below(len(palette))
            # The depth has the bits that the stop leaves.
            depth = min(self.below(stop + 1), area - 1, 255 >> bits)
            count = min(area - depth - 1, self.chance.choice((0, 0, 1, 2, 7, 300, 5000)))
            segments.append((stop, depth, self.length(count)))
            area -= depth + 1 + count
        return rlex(palette, *segments)

    def side(self, most):
        """Where something begins and ends, within so many pixels; the end isn't included."""
        size = 1 + self.below(most)
        begin = self.below(most - size + 1)
        return begin, begin + size

    def column(self, rows):
        hits = [place for place in sorted(self.bars) if self.bars[place] == rows]
        way = self.below(4)
        if way == 0 and hits:
            return hit(self.chance.choice(hits))
        if way == 1 and self.shorts:
            text = short_hit(self.chance.choice(sorted(self.shorts)), self.below(60))
        else:
            row = self.below(40)
            text = miss(row, [self.colour() for _ in range(self.below(min(52, 63 - row) + 1))])
            self.shorts.add(self.short_cursor)
            self.short_cursor = (self.short_cursor + 1) % SHORTS
        self.bars[self.bar_cursor] = rows
        self.bar_cursor = (self.bar_cursor + 1) % BARS
        return text

    def bands(self, width, height):
        text = b""
        for _ in range(1 + self.below(3)):
            left, right = self.side(min(width, 40))
            # Few heights, so that bars are hit.
            top, bottom = self.side(min(height, self.chance.choice((3, 11, 52))))
            top, bottom = (0, min(height, 11)) if self.below(2) else (top, bottom)
            columns = [self.column(bottom - top) for _ in range(right - left)]
            text += band(left, right - 1, top, bottom - 1, self.colour(), *columns)
        return text

    def subcodecs(self, width, height):
        text = b""
        for _ in range(1 + self.below(3)):
            (left, right), (top, bottom) = self.side(width), self.side(height)
            area = (right - left) * (bottom - top)
            codec = self.chance.choice((0, 2))
            data = self.rlex(area) if codec else b"".join(bytes(self.colour()) for _ in range(area))
            text += subcodec(left, top, right - left, bottom - top, codec, data)
        return text

    def paint(self):
        number = self.chance.choice(sorted(self.sizes))
        across, down = self.sizes[number]
        shows = self.glyphs and not self.below(5)
        stores = not shows and not self.below(3)
        if shows:
            index = self.chance.choice(sorted(self.glyphs))
            width, height = self.glyphs[index]
        else:
            most = 32 if stores else 120
            width, height = 1 + self.below(min(most, across)), 1 + self.below(min(most, down))
        left, top = self.below(across - width + 1), self.below(down - height + 1)
        unused = self.chance.choice((0, 0, 8, 0xF8))
        if shows:
            text = shown(self.sequence, index)
            text = bytes([text[0] | unused]) + text[1:]
        else:
            index = self.chance.choice((0, 7, 3999)) if stores else None
            if stores:
                self.glyphs[index] = width, height
            flags = unused
            if not self.below(20):
                flags |= RESET
                self.bar_cursor = self.short_cursor = 0
            # A glyph is drawn whole: docs/INTEROP.md, "Alpha of a glyph".
            residual = self.residual(width * height) if stores or self.below(2) else b""
            bands = self.bands(width, height) if self.below(2) else b""
            subcodecs = self.subcodecs(width, height) if self.below(2) else b""
            text = stream(self.sequence, residual, bands, subcodecs, index, flags)
        self.sequence = (self.sequence + 1) % 256
        return paint(number, (left, top, left + width, top + height), text)

    def messages(self):
        for number in range(2):
            self.sizes[number] = 64 + self.below(100), 64 + self.below(100)
            yield surface(number, *self.sizes[number], self.chance.choice((XRGB, ARGB)))
        for _ in range(self.chance.choice(self.counts)):
            yield self.paint()
            if not self.below(30):
                yield reset(1 + self.below(500), 1 + self.below(500))
                self.sequence = self.below(256)
            if not self.below(10):
                yield fill(self.chance.choice(sorted(self.sizes)), (*self.colour(), self.below(256)),
                           (0, 0, 1 + self.below(64), 1 + self.below(64)))

    def whole(self):
        text = payload = b""
        for one in self.messages():
            payload += one
            if self.below(3):
                text += channel(payload, self.chance.choice((65535, 65535, 100, 1000)))
                payload = b""
        return text + (channel(payload) if payload else b"")


if __name__ == "__main__":
    if len(sys.argv) != 2 or not sys.argv[1].isdigit():
        sys.exit(__doc__)
    sys.stdout.buffer.write(Server(int(sys.argv[1])).whole())
