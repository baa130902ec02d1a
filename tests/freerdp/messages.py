"""Bytes of the server's messages (docs/FORMATS.md), of ClearCodec streams (docs/CLEAR.md and the pages that
it names), of RemoteFX Progressive (docs/PROGRESSIVE.md) and of RemoteFX video (docs/VIDEO.md), for streams
that this project's own server wouldn't send. A colour is three bytes B, G, R."""
import struct

XRGB, ARGB = 0x20, 0x21
INDEX, SHOW, RESET = 1, 2, 4  # flags of a ClearCodec stream


def channel(payload, block=65535):
    """A channel message, behind its length: one block, or several where the payload is longer than one."""
    if len(payload) <= block:
        text = b"\xe0\x04" + payload
    else:
        parts = [payload[at:at + block] for at in range(0, len(payload), block)]
        text = struct.pack("<BHI", 0xE1, len(parts), len(payload))
        for part in parts:
            text += struct.pack("<IB", 1 + len(part), 4) + part
    return struct.pack("<I", len(text)) + text


def message(number, body):
    return struct.pack("<HHI", number, 0, 8 + len(body)) + body


def surface(number, width, height, form=XRGB):
    return message(9, struct.pack("<HHHB", number, width, height, form))


def fill(number, colour_and_alpha, *rectangles):
    return message(4, struct.pack("<H4sH", number, bytes(colour_and_alpha), len(rectangles))
                   + b"".join(struct.pack("<4H", *rectangle) for rectangle in rectangles))


def reset(width, height):
    return message(14, struct.pack("<III", width, height, 0).ljust(332, b"\0"))


def paint(number, rectangle, stream):
    """A ClearCodec stream for a rectangle: left, top, right, bottom."""
    return message(1, struct.pack("<HHB4HI", number, 8, XRGB, *rectangle, len(stream)) + stream)


def stream(sequence, residual=b"", bands=b"", subcodecs=b"", index=None, flags=0):
    head = struct.pack("<BB", flags | (INDEX if index is not None else 0), sequence)
    if index is not None:
        head += struct.pack("<H", index)
    sizes = struct.pack("<III", len(residual), len(bands), len(subcodecs))
    return head + sizes + residual + bands + subcodecs


def shown(sequence, index, more=b""):
    """A stream that shows the glyph of an index."""
    return struct.pack("<BBH", INDEX | SHOW, sequence, index) + more


def run_length(count, form=0):
    """A length in its shortest form, or in a longer one: form 1 has three bytes, form 2 seven."""
    if count < 255 and form == 0:
        return struct.pack("<B", count)
    if count < 65535 and form <= 1:
        return struct.pack("<BH", 255, count)
    return struct.pack("<BHI", 255, 65535, count)


def run(colour, count, form=0):
    return bytes(colour) + run_length(count, form)


def band(left, right, top, bottom, background, *columns):
    """Both ends are included. The columns are those of the next three functions."""
    return struct.pack("<4H3s", left, right, top, bottom, bytes(background)) + b"".join(columns)


def hit(place):
    return struct.pack("<H", 0x8000 | place)


def short_hit(place, row):
    return struct.pack("<HB", 0x4000 | place, row)


def miss(row, pixels):
    return struct.pack("<H", (row + len(pixels)) << 8 | row) + b"".join(map(bytes, pixels))


def subcodec(left, top, width, height, codec, data):
    return struct.pack("<4HIB", left, top, width, height, len(data), codec) + data


def rlex(palette, *segments):
    """A segment is its last place in the palette, its depth, and its run length as bytes."""
    bits = max(1, (len(palette) - 1).bit_length())
    text = bytes([len(palette)]) + b"".join(map(bytes, palette))
    for stop, depth, length in segments:
        text += bytes([depth << bits | stop]) + length
    return text


# ---- RemoteFX Progressive: docs/PROGRESSIVE.md

REDUCED = 1      # flag of a region
ALL_BITS = 0xFF  # a quality
BASE = b"\x66" * 5


def passes(number, *blocks):
    data = b"".join(blocks)
    return message(2, struct.pack("<HHIBI", number, 9, 1, XRGB, len(data)) + data)


def block(kind, body=b""):
    return struct.pack("<HI", kind, 6 + len(body)) + body


def sync(magic=0xCACCACCA):
    return block(0xCCC0, struct.pack("<IH", magic, 0x0100))


FRAME_BEGIN = block(0xCCC1, struct.pack("<IH", 0, 1))
FRAME_END = block(0xCCC2)


def region(rectangles, *tiles, flags=0, bases=(BASE,), levels=(), count=None):
    """The rectangles are x, y, width, height. A level is the five bytes of its Y; Cb and Cr leave nothing
    out."""
    data = b"".join(tiles)
    head = struct.pack("<BHBBBHI", 64, len(rectangles), len(bases), len(levels), flags,
                       len(tiles) if count is None else count, len(data))
    return block(0xCCC4, head + b"".join(struct.pack("<4H", *rectangle) for rectangle in rectangles)
                 + b"".join(bases) + b"".join(b"\0" + level + bytes(10) for level in levels) + data)


def simple(y, cell=(0, 0), base=0):
    """A tile whose Y has these RLGR data; Cb and Cr are zeros."""
    return block(0xCCC5, struct.pack("<3B2HB4H", base, 0, 0, *cell, 0, len(y), 1, 1, 0) + y + b"\0\0")


def first(y, quality):
    return block(0xCCC6, struct.pack("<3B2H2B4H", 0, 0, 0, 0, 0, 0, quality, len(y), 1, 1, 0) + y + b"\0\0")


def upgrade(quality, srl, raw):
    """A tile whose Y has these data; Cb and Cr gain nothing."""
    head = struct.pack("<3B2HB6H", 0, 0, 0, 0, 0, quality, len(srl), len(raw), 0, 0, 0, 0)
    return block(0xCCC7, head + srl + raw)


def rlgr(*places):
    """RLGR1 (docs/RLGR.md) of a component that is zero but for these places and their values. They stand so
    far apart that runs lie between them."""
    bits, kp, krp, at = "", 8, 8, 0
    for place, value in places:
        while place - at >= 1 << kp // 8:
            bits += "0"
            at += 1 << kp // 8
            kp = min(80, kp + 4)
        number, k, kr = abs(value) - 1, kp // 8, krp // 8
        ones = number >> kr
        bits += f"1{place - at:0{k}b}{int(value < 0)}" + "1" * ones + "0"
        bits += f"{number % (1 << kr):0{kr}b}" if kr else ""
        krp = min(80, krp + ones) if ones > 1 else krp if ones else max(0, krp - 2)
        kp -= 6
        at = place + 1
    bits += "0" * (-len(bits) % 8)
    return bytes(int(bits[i:i + 8], 2) for i in range(0, len(bits), 8))


# ---- RemoteFX video: docs/VIDEO.md; `sync` and `block` are those above


def video(rectangle, *blocks, number=1, form=XRGB):
    """For a rectangle: left, top, right, bottom."""
    data = b"".join(blocks)
    return message(1, struct.pack("<HHB4HI", number, 3, form, *rectangle, len(data)) + data)


def headers(width, height):
    """Versions, one channel and context; with sync what a server has to send once."""
    return (block(0xCCC1, struct.pack("<BBH", 1, 1, 0x0100)) + block(0xCCC2, struct.pack("<BBHH", 1, 0, width, height))
            + block(0xCCC3, struct.pack("<BBBHH", 1, 0xFF, 0, 64, 0x222A)))


VIDEO_BEGIN = block(0xCCC4, struct.pack("<BBIH", 1, 0, 0, 1))
VIDEO_END = block(0xCCC5, b"\1\0")


def video_region(*rectangles):
    """The rectangles are x, y, width, height, from the message's corner."""
    return block(0xCCC6, struct.pack("<BBBH", 1, 0, 1, len(rectangles))
                 + b"".join(struct.pack("<4H", *rectangle) for rectangle in rectangles) + struct.pack("<HH", 0xCAC1, 1))


def tile_set(*tiles, properties=0x4455, bases=(BASE,), count=None):
    data = b"".join(tiles)
    return block(0xCCC7, struct.pack("<BBHHHBBHI", 1, 0, 0xCAC2, 0, properties, len(bases), 64,
                                     len(tiles) if count is None else count, len(data)) + b"".join(bases) + data)


def whole(y, cell=(0, 0), base=0):
    """A tile whose Y has these data; Cb and Cr are zeros."""
    return block(0xCAC3, struct.pack("<3B5H", base, 0, 0, *cell, len(y), 1, 1) + y + b"\0\0")
