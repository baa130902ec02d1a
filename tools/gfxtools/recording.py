"""Recordings: channel messages, their payloads, and the server's messages in them (docs/FORMATS.md)."""

import functools
import struct
import typing

from . import progressive

# The numbers of docs/PROFILE.md.
MOST_MESSAGE = 67108864
MOST_BLOCK = 65535
MOST_MONITORS = 16
HEADER = 8
SINGLE, SEVERAL = 0xE0, 0xE1
RDP8, COMPRESSED = 4, 0x20

CODECS = {
    0x0: "uncompressed", 0x3: "rfx-video", 0x8: "clear", 0x9: "progressive", 0xA: "planar", 0xB: "avc420",
    0xC: "alpha", 0xD: "progressive-v2", 0xE: "avc444", 0xF: "avc444v2",
}
FORMATS = {0x20: "xrgb", 0x21: "argb"}
VERSIONS = {
    0x00080004: "8", 0x00080105: "8.1", 0x000A0002: "10", 0x000A0100: "10.1", 0x000A0200: "10.2", 0x000A0301: "10.3",
    0x000A0400: "10.4", 0x000A0502: "10.5", 0x000A0600: "10.6", 0x000A0701: "10.7",
}
# Messages that are in the standard, and not in the profile.
LEFT_OUT = {
    0x0D: "FrameAcknowledge", 0x10: "CacheImportOffer", 0x11: "CacheImportReply", 0x12: "CapsAdvertise",
    0x15: "MapSurfaceToWindow", 0x16: "QoeFrameAcknowledge", 0x17: "MapSurfaceToScaledOutput",
    0x18: "MapSurfaceToScaledWindow",
}


class Refused(Exception):
    """Bytes that the program refuses, by the name of the refusal."""

    def __init__(self, refusal):
        super().__init__(refusal)
        self.refusal = refusal


class Broken(Refused):
    """A recording breaks off at this place."""

    def __init__(self, refusal, offset, front=b""):
        super().__init__(refusal)
        self.offset, self.front = offset, front


class Channel:
    """A channel message: where its length stands, its bytes, and of its payload the pieces of content, each with
    the place in the recording at which it begins."""

    def __init__(self, offset: int, data: bytes) -> None:
        self.offset, self.data = offset, data
        self.pieces = []
        self.refusal = None
        try:
            self.pieces = list(blocks(data, offset + 4))
        except Refused as refused:
            self.refusal = refused.refusal

    @property
    def end(self) -> int:
        """Where the next channel message stands."""
        return self.offset + 4 + len(self.data)

    @functools.cached_property
    def payload(self):
        return self.pieces[0][1] if len(self.pieces) == 1 else b"".join(content for _, content in self.pieces)

    def place(self, at: int) -> int:
        """Where a byte of the payload stands in the recording."""
        for begin, content in self.pieces:
            if at < len(content):
                return begin + at
            at -= len(content)
        return self.end


def content_of(block, begin):
    """A block's content, without its header byte, and where it begins."""
    if not block:
        raise Refused("SegmentSize")
    if block[0] % 16 != RDP8:
        raise Refused("Descriptor")
    if block[0] & COMPRESSED:
        raise Refused("BulkCompressed")
    if len(block) - 1 > MOST_BLOCK:
        raise Refused("SegmentSize")
    return begin + 1, block[1:]


def blocks(data, begin):
    """The contents of a channel message's blocks; `begin` is the place of its first byte."""
    if data[0] == SINGLE:
        yield content_of(data[1:], begin + 1)
        return
    if data[0] != SEVERAL:
        raise Refused("Descriptor")
    if len(data) < 7:
        raise Refused("SegmentSize")
    count, size = struct.unpack_from("<HI", data, 1)
    at, found = 7, 0
    for _ in range(count):
        length = struct.unpack_from("<I", data, at)[0] if len(data) - at >= 4 else None
        if length is None or length > len(data) - at - 4:
            raise Refused("SegmentSize")
        place, content = content_of(data[at + 4:at + 4 + length], begin + at + 4)
        found += len(content)
        at += 4 + length
        yield place, content
    if at != len(data) or found != size:
        raise Refused("SegmentSize")


def is_length(front: bytes) -> bool:
    """Whether four bytes are the length of a channel message."""
    return len(front) == 4 and 1 <= struct.unpack("<I", front)[0] <= MOST_MESSAGE


def channels(file: typing.BinaryIO) -> typing.Iterator[Channel]:
    """The channel messages of a recording. Where it breaks off there is a last refusal, with where that is."""
    offset = 0
    while front := file.read(4):
        if len(front) < 4:
            raise Broken("ChannelTruncated", offset)
        if not is_length(front):
            raise Broken("ChannelLength", offset, front)
        length = struct.unpack("<I", front)[0]
        data = file.read(length)
        if len(data) < length:
            raise Broken("ChannelTruncated", offset)
        yield Channel(offset, data)
        offset += 4 + length


def is_script(data):
    """Whether bytes are a script and no recording. The fourth sign of a text is above that of all lengths of channel
    messages, so no recording begins as a text does."""
    front = data[:4]
    return len(front) == 4 and front[3] >= 9 and front[0] < 127 and all(byte in b"\t\n\r" or byte >= 32
                                                                        for byte in front)


def wrap(payload: bytes) -> bytes:
    """A channel message of this payload, behind its length."""
    if len(payload) <= MOST_BLOCK:
        data = struct.pack("<BB", SINGLE, RDP8) + payload
    else:
        parts = [payload[at:at + MOST_BLOCK] for at in range(0, len(payload), MOST_BLOCK)]
        data = struct.pack("<BHI", SEVERAL, len(parts), len(payload))
        data += b"".join(struct.pack("<IB", 1 + len(part), RDP8) + part for part in parts)
    return struct.pack("<I", len(data)) + data


# ---- The server's messages


class Message:
    """A message of the server: where it stands, its name, its length, and what its body says by name. Where its
    bytes are refused, `refusal` says so."""

    def __init__(self, channel, at, size, name, says=None, refusal=None):
        self.channel, self.at, self.size, self.name = channel, at, size, name
        self.says, self.refusal = says or {}, refusal
        self.offset = channel.place(at) if channel.pieces else channel.offset
        self.number = self.frame = None

    def get(self, key: str) -> typing.Any:
        """What the body says of this name, or None."""
        return self.says.get(key)


class Body:
    """Reads a body from its front."""

    def __init__(self, data):
        self.data, self.at = data, 0

    def take(self, form):
        form = "<" + form
        if struct.calcsize(form) > len(self.data) - self.at:
            raise Refused("CountMismatch")
        values = struct.unpack_from(form, self.data, self.at)
        self.at += struct.calcsize(form)
        return values

    def number(self, form):
        return self.take(form)[0]

    def items(self, form, count):
        """So many lists of numbers; all of them are there, or it is no list."""
        size = struct.calcsize("<" + form)
        if count * size > len(self.data) - self.at:
            raise Refused("CountMismatch")
        part = self.data[self.at:self.at + count * size]
        self.at += count * size
        return [list(item) for item in struct.iter_unpack("<" + form, part)]

    def some(self, count):
        if count > len(self.data) - self.at:
            raise Refused("CountMismatch")
        self.at += count
        return self.data[self.at - count:self.at]

    def end(self):
        if self.at != len(self.data):
            raise Refused("CountMismatch")


def rectangle(body):
    return list(body.take("4H"))


def wire_to_surface_1(body):
    surface, codec, form = body.take("HHB")
    area = rectangle(body)
    data = body.some(body.number("I"))
    return {"surface": surface, "codec": codec, "format": form, "rectangle": area, "data": data}


def wire_to_surface_2(body):
    surface, codec, context, form = body.take("HHIB")
    data = body.some(body.number("I"))
    return {"surface": surface, "codec": codec, "context": context, "format": form, "data": data}


def delete_encoding_context(body):
    return dict(zip(("surface", "context"), body.take("HI")))


def solid_fill(body):
    surface = body.number("H")
    colour = bytes(body.take("4B")).hex()
    return {"surface": surface, "colour": colour, "rectangles": body.items("4H", body.number("H"))}


def surface_to_surface(body):
    source, destination = body.take("HH")
    return {"source": source, "surface": destination, "rectangle": rectangle(body),
            "points": body.items("2H", body.number("H"))}


def surface_to_cache(body):
    surface, key, slot = body.take("HQH")
    return {"surface": surface, "key": key, "slot": slot, "rectangle": rectangle(body)}


def cache_to_surface(body):
    slot, surface = body.take("HH")
    return {"slot": slot, "surface": surface, "points": body.items("2H", body.number("H"))}


def evict_cache_entry(body):
    return {"slot": body.number("H")}


def create_surface(body):
    return dict(zip(("surface", "width", "height", "format"), body.take("HHHB")))


def delete_surface(body):
    return {"surface": body.number("H")}


def start_frame(body):
    return dict(zip(("timestamp", "frame"), body.take("II")))


def end_frame(body):
    return {"frame": body.number("I")}


def reset_graphics(body):
    width, height, count = body.take("3I")
    if len(body.data) - body.at < 20 * count:
        raise Refused("CountMismatch")
    if count > MOST_MONITORS:
        raise Refused("MonitorCount")
    if len(body.data) != 340 - HEADER:
        raise Refused("CountMismatch")
    monitors = body.items("5I", count)
    body.some(len(body.data) - body.at)
    return {"width": width, "height": height, "monitors": monitors}


def map_surface_to_output(body):
    surface, _, x, y = body.take("HHII")
    return {"surface": surface, "x": x, "y": y}


def caps_confirm(body):
    version = body.number("I")
    data = body.some(body.number("I"))
    flags = struct.unpack("<I", data)[0] if len(data) == 4 else None
    return {"version": version, "flags": flags}


READERS = {
    0x01: ("WireToSurface1", wire_to_surface_1),
    0x02: ("WireToSurface2", wire_to_surface_2),
    0x03: ("DeleteEncodingContext", delete_encoding_context),
    0x04: ("SolidFill", solid_fill),
    0x05: ("SurfaceToSurface", surface_to_surface),
    0x06: ("SurfaceToCache", surface_to_cache),
    0x07: ("CacheToSurface", cache_to_surface),
    0x08: ("EvictCacheEntry", evict_cache_entry),
    0x09: ("CreateSurface", create_surface),
    0x0A: ("DeleteSurface", delete_surface),
    0x0B: ("StartFrame", start_frame),
    0x0C: ("EndFrame", end_frame),
    0x0E: ("ResetGraphics", reset_graphics),
    0x0F: ("MapSurfaceToOutput", map_surface_to_output),
    0x13: ("CapsConfirm", caps_confirm),
}


def read_body(data, reader):
    """What a body says, with what its progressive data hold, and its refusal or None."""
    body = Body(data)
    try:
        says = reader(body)
        body.end()
    except Refused as refused:
        return {}, refused.refusal
    if says.get("codec") == 0x9 and "context" in says:
        says["blocks"] = progressive.read(says["data"])
    return says, None


def messages_of(channel):
    """The messages of a channel message. What isn't read to its end is a last one without a name."""
    if channel.refusal:
        yield Message(channel, 0, 4 + len(channel.data), "channel-message", refusal=channel.refusal)
        return
    payload = channel.payload
    at = 0
    while at < len(payload):
        left = len(payload) - at
        kind, _, size = struct.unpack_from("<HHI", payload, at) if left >= HEADER else (None, 0, 0)
        if kind is None or size < HEADER or size > left:
            refusal = "PduLength" if kind is not None and size < HEADER else "PduTruncated"
            yield Message(channel, at, left, READERS[kind][0] if kind in READERS else "bytes", refusal=refusal)
            return
        if kind in READERS:
            name, reader = READERS[kind]
            says, refusal = read_body(payload[at + HEADER:at + size], reader)
        else:
            name, says, refusal = LEFT_OUT.get(kind, f"message-0x{kind:02x}"), {}, "PduUnknown"
        yield Message(channel, at, size, name, says, refusal)
        at += size


def messages(channels: typing.Iterable[Channel]) -> typing.Iterator[Message]:
    """All messages of channel messages, numbered from 1, each with the frame that is open."""
    number, frame = 0, None
    for channel in channels:
        for message in messages_of(channel):
            number += 1
            message.number = number
            if message.name == "StartFrame" and message.refusal is None and frame is None:
                frame = message.get("frame")
            message.frame = frame
            if message.name == "EndFrame" and message.get("frame") == frame:
                frame = None
            yield message
