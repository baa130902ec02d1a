"""What a recording leaves, as the program draws it: the pixels of its surfaces, and of the bitmaps in its slots; and
messages that bring the same about."""

import collections
import struct
import typing

from . import dump, entry, judge, kept, recording

WIRE_1, CREATE, DELETE, SURFACE_TO_CACHE, CACHE_TO_SURFACE, MAP = 0x01, 0x09, 0x0A, 0x06, 0x07, 0x0F
ARGB = 0x21
UNCOMPRESSED = 0
PIXEL = 4  # bytes
# How many surfaces show slots in one run of the program; those of the recording are deleted before.
MOST_SHOWN = judge.MOST_SURFACES
# So many bytes of pixels go in a message.
PART = 1 << 20

Sides = typing.Tuple[int, int]


# ---- Messages of the server


def message(kind: int, form: str, *values: int, data: bytes = b"") -> bytes:
    """A message: its header, its fields, and its data."""
    body = struct.pack("<" + form, *values) + data
    return struct.pack("<HHI", kind, 0, recording.HEADER + len(body)) + body


def create(id: int, sides: Sides, form: int) -> bytes:
    return message(CREATE, "3HB", id, *sides, form)


def delete(id: int) -> bytes:
    return message(DELETE, "H", id)


def map_to(id: int, x: int, y: int) -> bytes:
    return message(MAP, "HHII", id, 0, x, y)


def paint(id: int, form: int, rect: typing.Sequence[int], pixels: bytes) -> bytes:
    """Pixels as they are, B, G, R, A."""
    return message(WIRE_1, "HHB4HI", id, UNCOMPRESSED, form, *rect, len(pixels), data=pixels)


def store(id: int, key: int, slot: int, sides: Sides) -> bytes:
    """Puts the left top of a surface into a slot."""
    return message(SURFACE_TO_CACHE, "HQH4H", id, key, slot, 0, 0, *sides)


def show(slot: int, id: int) -> bytes:
    """Puts a slot's bitmap at the left top of a surface."""
    return message(CACHE_TO_SURFACE, "HHH2H", slot, id, 1, 0, 0)


def whole_paint(id: int, form: int, sides: Sides, rows: typing.Iterable[bytes]) -> typing.Iterator[bytes]:
    """Messages that paint all of a surface, row by row as they come."""
    width, top, held = sides[0], 0, []
    for y, row in enumerate(rows, 1):
        held.append(row)
        if len(held) * PIXEL * width >= PART or y == sides[1]:
            yield paint(id, form, (0, top, width, y), b"".join(held))
            top, held = y, []


def bytes_of(message: recording.Message) -> bytes:
    """A message as it stands in a recording."""
    return message.channel.payload[message.at:message.at + message.size]


# ---- What messages leave


class State:
    """What the accepted messages so far leave, beside what judge keeps: the key of each slot, the places of surfaces on
    the output, in the order of first mapping, and the last CapsConfirm and ResetGraphics."""

    def __init__(self):
        self.keys, self.places = {}, {}
        self.version = self.reset = b""

    def follow(self, message: recording.Message) -> None:
        """Takes an accepted message."""
        get = message.get
        if message.name == "SurfaceToCache":
            self.keys.pop(get("slot"), None)
            self.keys[get("slot")] = get("key")
        elif message.name == "EvictCacheEntry":
            self.keys.pop(get("slot"), None)
        elif message.name == "MapSurfaceToOutput":
            self.places[get("surface")] = get("x"), get("y")
        elif message.name == "DeleteSurface":
            self.places.pop(get("surface"), None)
        elif message.name == "CapsConfirm":
            self.version = bytes_of(message)
        elif message.name == "ResetGraphics":
            self.reset = bytes_of(message)


# ---- Pixels


def surfaces(gfxpipe, pieces: typing.List[bytes], name: str) -> typing.Iterator[dump.Picture]:
    """The surfaces that a recording in these pieces leaves; the rows of each are to be read before the next comes."""
    running = gfxpipe.start(["render"], pieces, name)
    try:
        yield from dump.pictures(running, name)
    finally:
        running.stop()


def groups(slots: typing.Dict[int, Sides]) -> typing.Iterator[typing.Dict[int, Sides]]:
    """Slots whose bitmaps have pixels, in groups that surfaces may show together."""
    group, cells = {}, 0
    for slot, sides in slots.items():
        if 0 in sides:
            continue
        more = judge.cells(*sides)
        if len(group) == MOST_SHOWN or cells + more > judge.MOST_CELLS:
            yield group
            group, cells = {}, 0
        group[slot] = sides
        cells += more
    if group:
        yield group


def bitmaps(gfxpipe, pieces: typing.List[bytes], name: str, state: State,
            left: judge.Judge) -> typing.Iterator[typing.Tuple[int, kept.Bitmap]]:
    """The bitmaps in the slots that a recording in these pieces leaves, each with its slot: the program shows each on a
    surface of its own."""
    for slot, sides in left.slots.items():
        if 0 in sides:
            yield slot, kept.Bitmap(state.keys[slot], *sides, b"")
    for group in groups(left.slots):
        more = [delete(id) for id in left.surfaces]
        for id, (slot, sides) in enumerate(group.items()):
            more += [create(id, sides, ARGB), show(slot, id)]
        more = [recording.wrap(b"".join(more[at:at + 1024])) for at in range(0, len(more), 1024)]
        for picture, slot in zip(surfaces(gfxpipe, [*pieces, *more], name), group):
            yield slot, kept.Bitmap(state.keys[slot], *picture.sides, b"".join(picture.rows()))


def rows_of(one: kept.Bitmap) -> typing.Iterator[bytes]:
    """The rows of a bitmap."""
    for at in range(0, len(one.pixels), PIXEL * one.width):
        yield one.pixels[at:at + PIXEL * one.width]


def followed(messages: typing.Iterable[typing.Tuple[recording.Message, judge.Judge]], name: str,
             state: State) -> judge.Judge:
    """Goes through messages to their end, with what they leave. A refused one ends it with a line."""
    left = judge.Judge()
    for one, left in messages:
        if one.refusal:
            raise entry.Wrong(f"{name}: message {one.number} is refused: {one.refusal}: what it leaves isn't drawn")
        state.follow(one)
    return left


def keys_once(found: typing.Iterable[typing.Tuple[int, kept.Bitmap]]) -> typing.List[kept.Bitmap]:
    """Bitmaps in the order of their slots; of those under one key the last."""
    by_key = collections.OrderedDict()
    for _, one in sorted(found, key=lambda each: each[0]):
        by_key.pop(one.key, None)
        by_key[one.key] = one
    return list(by_key.values())
