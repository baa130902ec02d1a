"""Cuts frames out of a recording, whole and drawable: what they need of what was before stands in front of them, outside
of any frame.

What is needed is what was there already, as long as that is shorter; else it is made anew: the surfaces with the pixels
that they have there, the bitmaps of the cache that are read, and of the messages before those that a later one goes on:
all of ClearCodec where a later one is, since it keeps bars and glyphs, and those of RemoteFX Progressive whose tiles are
improved later (docs/CLEAR.md, "What a decoder keeps"; docs/PROGRESSIVE.md, "Applied")."""

import itertools
import struct
import typing

from . import entry, judge, progressive, recording, refusals, snapshot

CLEAR = 0x8
# The flags of a ClearCodec stream: an index follows, and the glyph there is shown.
HAS_INDEX, IS_HIT = 1, 2
MOST_WRAPPED = 1 << 20
PIXEL = 4  # bytes
# About so many bytes go to make a surface or a bitmap, beside its pixels.
OVERHEAD = 64
# So many messages of tiles before a cut are looked through, and so many tiles in it; with more all is kept that was.
MOST_PASSES, MOST_TILES = 1 << 18, 1 << 20
# Tiles that begin anew, whatever was in their cells.
ANEW = ("simple", "first")

Key = typing.Tuple[int, int, typing.Tuple[int, int]]  # surface, context, cell


class Place(typing.NamedTuple):
    """Where a message stands: its channel message, and its bytes in the payload of that."""

    begin: int
    end: int
    at: int
    behind: int
    number: int


class Pass(typing.NamedTuple):
    """A message that leaves records of tiles, or takes them away: those of a surface, or of one context of it."""

    place: Place
    name: str
    surface: int
    context: typing.Optional[int]


def place_of(message: recording.Message) -> Place:
    channel = message.channel
    return Place(channel.offset, channel.end, message.at, message.at + message.size, message.number)


def is_clear(message: recording.Message) -> bool:
    """Whether a message is one of ClearCodec."""
    return message.name == "WireToSurface1" and message.get("codec") == CLEAR


def keeps_what_shows(message: recording.Message) -> bool:
    """Whether a ClearCodec message puts into a glyph what it doesn't draw itself."""
    data = message.get("data")
    return len(data) >= 8 and data[0] & (HAS_INDEX | IS_HIT) == HAS_INDEX and struct.unpack_from("<I", data, 4)[0] == 0


class Needs:
    """What the messages of a range read of what was before them."""

    def __init__(self):
        self.slots, self.stored = set(), set()
        self.tiles, self.begun, self.ended = set(), set(), set()
        self.has_clear = self.has_too_many = False

    def follow(self, message):
        get = message.get
        if message.name == "CacheToSurface" and get("slot") not in self.stored:
            self.slots.add(get("slot"))
        elif message.name in ("SurfaceToCache", "EvictCacheEntry"):
            self.stored.add(get("slot"))
        elif message.name == "DeleteSurface":
            self.ended.add((get("surface"), None))
        elif message.name == "DeleteEncodingContext":
            self.ended.add((get("surface"), get("context")))
        self.has_clear |= is_clear(message)
        for kind, cell in (get("blocks").placed if get("blocks") else ()):
            self.tile(kind, (get("surface"), get("context"), cell))

    def tile(self, kind, key):
        surface, context, _ = key
        if self.ended & {(surface, None), (surface, context)} or self.has_too_many:
            return
        if kind in ANEW:
            self.begun.add(key)
        elif key not in self.begun:
            self.tiles.add(key)
        self.has_too_many = len(self.begun) + len(self.tiles) > MOST_TILES


class Before:
    """What the messages before a range leave, and how many bytes those have on which a range may go on."""

    def __init__(self):
        self.state = snapshot.State()
        self.surfaces, self.formats, self.slots = {}, {}, {}
        self.passes, self.is_exact = [], True
        self.size = self.chain_size = 0
        self.corner = (1, 1)  # the right bottom of all rectangles of ClearCodec

    def follow(self, message):
        self.state.follow(message)
        get = message.get
        if message.name not in ("StartFrame", "EndFrame"):
            self.size += message.size
        if is_clear(message):
            right, bottom = get("rectangle")[2:]
            self.corner = max(self.corner[0], right), max(self.corner[1], bottom)
            self.is_exact &= not keeps_what_shows(message)
        if is_clear(message) or message.name == "ResetGraphics":
            self.chain_size += message.size
        if get("blocks") or message.name in ("DeleteSurface", "DeleteEncodingContext"):
            self.passes.append(Pass(place_of(message), message.name, get("surface"), get("context")))
            if len(self.passes) > MOST_PASSES:
                self.passes, self.is_exact = [], False

    def end(self, left):
        """Keeps what there is at the cut."""
        self.surfaces, self.formats, self.slots = dict(left.surfaces), dict(left.formats), dict(left.slots)


class Range:
    """Frames of a recording, and what is before them. Frames are numbered by their ends, from 1."""

    def __init__(self, data: bytes, name: str, first: int, last: int) -> None:
        self.data, self.name, self.first, self.last = data, name, first, last
        self.before, self.needs = Before(), Needs()
        self.begin = self.end = None
        self.frames = 0
        self.opened = None
        self.go_through()

    def messages(self):
        return recording.messages(recording.channels(entry.as_file(self.data)))

    def go_through(self):
        is_within = self.first == 1
        try:
            for message, left in judge.judged(self.messages()):
                if message.refusal:
                    raise self.stopped(message.number, message.refusal)
                (self.needs if is_within else self.before).follow(message)
                if message.name != "EndFrame":
                    continue
                self.frames += 1
                if self.frames == self.last:
                    self.end = place_of(message)
                    return
                if self.frames == self.first - 1:
                    is_within, self.begin = True, place_of(message)
                    self.before.end(left)
        except recording.Broken as broken:
            raise entry.Wrong(f"{self.name}: at byte {broken.offset}: {broken.refusal}: {self.has()} before it") from None
        raise entry.Wrong(f"{self.name} has {entry.counted(self.frames, 'frame')}")

    def has(self):
        return entry.counted(self.frames, "frame") + (" ends" if self.frames == 1 else " end")

    def stopped(self, number, refusal):
        return entry.Wrong(f"{self.name}: message {number} is refused: {refusals.told(refusal)}: "
                           f"{refusals.why(refusal)}; {self.has()} before it")

    def messages_before(self):
        return itertools.islice(self.messages(), self.begin.number)

    def payload(self, place):
        """The payload of the channel message in which a place is; the last one is kept."""
        if self.opened is None or self.opened.offset != place.begin:
            self.opened = recording.Channel(place.begin, self.data[place.begin + 4:place.end])
        return self.opened.payload

    # What is before, as it was.

    def as_it_was(self) -> typing.Iterator[bytes]:
        """The messages before, but for those that begin and end frames."""
        for message in self.messages_before():
            if message.name not in ("StartFrame", "EndFrame"):
                yield snapshot.bytes_of(message)

    # What is before, made anew.

    def passes(self) -> typing.List[Place]:
        """The messages of RemoteFX Progressive on which later ones go on, in order."""
        needed, found = set(self.needs.tiles), []
        for each in reversed(self.before.passes):
            if not needed:
                break
            if each.name != "WireToSurface2":
                needed = {key for key in needed if key[0] != each.surface or each.context not in (None, key[1])}
                continue
            placed = [(kind, (each.surface, each.context, cell)) for kind, cell in self.placed(each.place)]
            if any(key in needed for _, key in placed):
                found.append(each.place)
                for kind, key in reversed(placed):
                    (needed.discard if kind in ANEW else needed.add)(key)
        return found[::-1]

    def placed(self, place):
        """The tiles of a message, each with its kind and its cell. Its data stand behind 13 bytes of its body."""
        return progressive.read(self.payload(place)[place.at + recording.HEADER + 13:place.behind]).placed

    def slots(self):
        return {slot: sides for slot, sides in self.before.slots.items() if slot in self.needs.slots}

    def is_shorter_anew(self) -> bool:
        """Whether what is before can be made anew, and has fewer bytes then."""
        before = self.before
        if not before.is_exact or self.needs.has_too_many:
            return False
        drawn = [*before.surfaces.values(), *self.slots().values()]
        size = sum(PIXEL * width * height + OVERHEAD for width, height in drawn)
        size += len(before.state.version) + (before.chain_size if self.needs.has_clear else len(before.state.reset))
        return size < before.size and size + sum(each.behind - each.at for each in self.passes()) < before.size

    def anew(self, gfxpipe: typing.Any) -> typing.Iterator[bytes]:
        """Messages that bring about what there is at the cut. The program draws it."""
        before, pieces = self.before, list(self.pieces_before())
        yield before.state.version
        yield from self.replayed() if self.needs.has_clear else (before.state.reset,)
        yield from self.cached(gfxpipe, pieces)
        for id, sides in before.surfaces.items():
            yield snapshot.create(id, sides, before.formats[id])
        for id, place in before.state.places.items():
            yield snapshot.map_to(id, *place)
        for place in self.passes():
            yield self.payload(place)[place.at:place.behind]
        for picture in snapshot.surfaces(gfxpipe, pieces, self.name) if before.surfaces else ():
            id = int(picture.name)
            yield from snapshot.whole_paint(id, before.formats[id], picture.sides, picture.rows())

    def replayed(self):
        """The messages of ClearCodec, on a surface of their own, and those that let their numbers begin anew."""
        yield snapshot.create(0, self.before.corner, snapshot.ARGB)
        for message in self.messages_before():
            if is_clear(message):
                whole = snapshot.bytes_of(message)
                yield whole[:recording.HEADER] + struct.pack("<H", 0) + whole[recording.HEADER + 2:]
            elif message.name == "ResetGraphics":
                yield snapshot.bytes_of(message)
        yield snapshot.delete(0)

    def cached(self, gfxpipe, pieces):
        """What is read of the cache."""
        left = judge.Judge()
        left.surfaces, left.slots = self.before.surfaces, self.slots()
        for slot, one in snapshot.bitmaps(gfxpipe, pieces, self.name, self.before.state, left):
            sides = tuple(max(1, side) for side in one.sides)
            yield snapshot.create(0, sides, snapshot.ARGB)
            if one.pixels:
                yield from snapshot.whole_paint(0, snapshot.ARGB, sides, snapshot.rows_of(one))
            yield snapshot.store(0, one.key, slot, one.sides)
            yield snapshot.delete(0)

    # Pieces of the recording.

    def pieces_before(self):
        """The recording up to the cut."""
        yield memoryview(self.data)[:self.begin.begin]
        yield recording.wrap(self.payload(self.begin)[:self.begin.behind])

    def within(self) -> typing.Iterator[bytes]:
        """The range itself, channel message by channel message."""
        begin = self.begin.begin if self.begin else 0
        for channel in recording.channels(entry.as_file(self.data[begin:self.end.end])):
            at = self.begin.behind if self.begin and channel.offset == 0 else 0
            is_last = begin + channel.end == self.end.end
            to = self.end.behind if is_last else len(channel.payload)
            if at == 0 and to == len(channel.payload):
                yield struct.pack("<I", len(channel.data)) + channel.data
            elif at < to:
                yield recording.wrap(channel.payload[at:to])


def wrapped(messages: typing.Iterable[bytes]) -> typing.Iterator[bytes]:
    """Messages in channel messages, several in one where they are short."""
    held, size = [], 0
    for message in messages:
        held.append(message)
        size += len(message)
        if size >= MOST_WRAPPED:
            yield recording.wrap(b"".join(held))
            held, size = [], 0
    if size:
        yield recording.wrap(b"".join(held))


def pieces(found: Range, start: typing.Callable[[], typing.Any]) -> typing.Iterator[bytes]:
    """The recording of a range. `start` gives the program, where it is wanted, or None where there is none."""
    if found.begin:
        gfxpipe = start() if found.is_shorter_anew() else None
        yield from wrapped(found.anew(gfxpipe) if gfxpipe else found.as_it_was())
    yield from found.within()
