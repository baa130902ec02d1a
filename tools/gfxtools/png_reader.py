"""Reads a PNG: its sides, and its pixels as B, G, R, A (PNG, third edition, 4 and 5)."""

import itertools
import operator
import struct
import typing
import zlib

from . import entry

SIGNATURE = b"\x89PNG\r\n\x1a\n"
GREY, COLOUR, PALETTE, GREY_ALPHA, COLOUR_ALPHA = 0, 2, 3, 4, 6
SAMPLES = {GREY: 1, COLOUR: 3, PALETTE: 1, GREY_ALPHA: 2, COLOUR_ALPHA: 4}
DEPTHS = {GREY: (1, 2, 4, 8, 16), COLOUR: (8, 16), PALETTE: (1, 2, 4, 8), GREY_ALPHA: (8, 16), COLOUR_ALPHA: (8, 16)}
# The passes of an interlaced picture: the first column and row, and the steps from one to the next.
WHOLE = ((0, 0, 1, 1),)
ADAM7 = ((0, 0, 8, 8), (4, 0, 8, 8), (0, 4, 4, 8), (2, 0, 4, 4), (0, 2, 2, 4), (1, 0, 2, 2), (0, 1, 1, 2))
MOST_PIXELS = 8388608  # as many as a picture of a script may have
OPAQUE = 255


class Fault(Exception):
    """Why a file is no PNG that is read."""


class Head(typing.NamedTuple):
    """The chunk IHDR."""

    width: int
    height: int
    depth: int
    colour: int
    compression: int
    filter: int
    interlaced: int

    @property
    def bits(self) -> int:
        """How many bits a pixel has."""
        return self.depth * SAMPLES[self.colour]

    def row_bytes(self, width: int) -> int:
        """How many bytes a row of so many pixels has, without that of its filter."""
        return -(-width * self.bits // 8)


class Picture(typing.NamedTuple):
    """The sides of a picture, and its pixels, rows from the top, as B, G, R, A."""

    width: int
    height: int
    pixels: bytes


# ---- Chunks


def chunks(data: bytes) -> typing.Iterator[typing.Tuple[bytes, bytes]]:
    """The chunks of a PNG up to IEND, each by its name and its data."""
    if not data.startswith(SIGNATURE):
        raise Fault("it is no PNG")
    at = len(SIGNATURE)
    while len(data) - at >= 12:
        size, name = struct.unpack_from(">I4s", data, at)
        if size > len(data) - at - 12:
            break
        body = data[at + 8:at + 8 + size]
        if zlib.crc32(name + body) != struct.unpack_from(">I", data, at + 8 + size)[0]:
            raise Fault(f"the checksum of its chunk {name.decode('ascii', 'replace')} is wrong")
        yield name, body
        if name == b"IEND":
            return
        at += 12 + size
    raise Fault("it is cut")


def head_of(body: bytes) -> Head:
    if len(body) != 13:
        raise Fault("its chunk IHDR has another length than 13")
    head = Head(*struct.unpack(">IIBBBBB", body))
    if head.depth not in DEPTHS.get(head.colour, ()) or (head.compression, head.filter) != (0, 0) or head.interlaced > 1:
        raise Fault("its chunk IHDR says what no PNG has")
    if not 1 <= head.width * head.height <= MOST_PIXELS:
        raise Fault(f"it has {head.width:,} by {head.height:,} pixels, and a picture may have {MOST_PIXELS:,}")
    return head


class Parts:
    """What the chunks of a PNG say."""

    def __init__(self, data):
        self.head, self.palette, self.clear, packed = None, b"", None, []
        for name, body in chunks(data):
            if self.head is None:
                if name != b"IHDR":
                    raise Fault("its first chunk isn't IHDR")
                self.head = head_of(body)
            elif name == b"PLTE":
                self.palette = body
            elif name == b"tRNS":
                self.clear = body
            elif name == b"IDAT":
                packed.append(body)
        if self.head.colour == PALETTE and not self.palette:
            raise Fault("its palette is missing")
        self.packed = b"".join(packed)


# ---- Rows


def unpacked(parts: Parts, due: int) -> bytes:
    """The bytes of all rows, of which so many are due."""
    packer = zlib.decompressobj()
    try:
        data = packer.decompress(parts.packed, due + 1)
    except zlib.error:
        raise Fault("its pixels can't be unpacked") from None
    if len(data) != due:
        raise Fault("it has other pixels than its sides say")
    return data


def paeth(left: int, above: int, corner: int) -> int:
    """Which of three bytes is nearest to left + above - corner."""
    a, b, c = abs(above - corner), abs(left - corner), abs(left + above - 2 * corner)
    return left if a <= b and a <= c else above if b <= c else corner


def unfiltered(kind: int, row: bytes, above: bytes, step: int) -> bytes:
    """A row without its filter; `step` bytes before one is its neighbour on the left."""
    if kind == 0:
        return row
    if kind == 1:
        out = bytearray(len(row))
        for at in range(min(step, len(row))):
            out[at::step] = bytes(each & 255 for each in itertools.accumulate(row[at::step]))
        return bytes(out)
    if kind == 2:
        return bytes(each & 255 for each in map(operator.add, row, above))
    if kind > 4:
        raise Fault(f"a row has the filter {kind}")
    out = bytearray(step) + row  # a pixel of zeros stands on the left
    before = bytes(step) + above
    for at in range(step, len(out)):
        left, up = out[at - step], before[at]
        guess = left + up >> 1 if kind == 3 else paeth(left, up, before[at - step])
        out[at] = out[at] + guess & 255
    return bytes(out[step:])


def samples_of(head: Head, row: bytes, width: int) -> bytes:
    """The samples of a row, a byte each; of 16 bits the upper eight. Those of a palette, and of a grey that is compared
    with the clear one, stay as they are."""
    if head.depth == 16:
        return row[::2]
    if head.depth == 8:
        return row
    count, most = 8 // head.depth, (1 << head.depth) - 1
    shifts = [head.depth * at for at in reversed(range(count))]
    return bytes(byte >> shift & most for byte in row for shift in shifts)[:width]


def clear_of(parts: Parts, row: bytes, width: int) -> typing.Optional[bytes]:
    """Of a picture without alpha, the alpha of a row's pixels where one colour is clear; else None."""
    head, clear = parts.head, parts.clear
    count = SAMPLES[head.colour]
    if head.colour not in (GREY, COLOUR) or not clear or len(clear) != 2 * count:
        return None
    wanted = struct.unpack(f">{count}H", clear)
    if head.depth == 16:
        values = struct.unpack(f">{count * width}H", row)
    else:
        values = samples_of(head, row, width)
    pixels = zip(*(values[at::count] for at in range(count)))
    return bytes(0 if pixel == wanted else OPAQUE for pixel in pixels)


def coloured(parts: Parts, row: bytes, width: int) -> bytes:
    """A row's pixels as B, G, R, A."""
    head, out = parts.head, bytearray([OPAQUE]) * (4 * width)
    samples = samples_of(head, row, width)
    if head.colour == PALETTE:
        count = len(parts.palette) // 3
        if max(samples) >= count:
            raise Fault("a pixel is none of its palette")
        table = [parts.palette[at::3] + bytes(256 - count) for at in (2, 1, 0)]
        alphas = (parts.clear or b"")[:count]
        table.append(alphas + bytes([OPAQUE]) * (256 - len(alphas)))
        for place in range(4):
            out[place::4] = samples.translate(table[place])
        return bytes(out)
    if head.depth < 8:
        scale = 255 // ((1 << head.depth) - 1)
        samples = bytes(scale * each for each in samples)
    count = SAMPLES[head.colour]
    is_grey = head.colour in (GREY, GREY_ALPHA)
    for place in range(3):
        out[place::4] = samples[0 if is_grey else 2 - place::count]
    if head.colour in (GREY_ALPHA, COLOUR_ALPHA):
        out[3::4] = samples[count - 1::count]
    elif alpha := clear_of(parts, row, width):
        out[3::4] = alpha
    return bytes(out)


def passes(head: Head) -> typing.Iterator[typing.Tuple[int, int, int, int, int, int]]:
    """The passes that have pixels: their sides, their first column and row, and their steps."""
    for left, top, across, down in ADAM7 if head.interlaced else WHOLE:
        width, height = -(-(head.width - left) // across), -(-(head.height - top) // down)
        if width > 0 and height > 0:
            yield width, height, left, top, across, down


def read(data: bytes) -> Picture:
    """The picture of a PNG, or a Fault."""
    parts = Parts(data)
    head = parts.head
    all_passes = list(passes(head))
    rows = unpacked(parts, sum(height * (1 + head.row_bytes(width)) for width, height, *_ in all_passes))
    out, at, step = bytearray(4 * head.width * head.height), 0, max(1, head.bits // 8)
    for width, height, left, top, across, down in all_passes:
        size = head.row_bytes(width)
        above = bytes(size)
        for y in range(height):
            above = unfiltered(rows[at], rows[at + 1:at + 1 + size], above, step)
            at += 1 + size
            begin = 4 * head.width * (top + y * down)
            pixels = coloured(parts, above, width)
            if across == 1:
                out[begin:begin + 4 * head.width] = pixels
                continue
            for place in range(4):
                out[begin + 4 * left + place:begin + 4 * head.width:4 * across] = pixels[place::4]
    return Picture(head.width, head.height, bytes(out))


def from_file(name: str) -> Picture:
    """The picture of the file of this name, or a Fault, which doesn't name it."""
    try:
        return read(entry.whole_of(name, 8 * MOST_PIXELS))
    except entry.Wrong as wrong:
        raise Fault(str(wrong)) from None
