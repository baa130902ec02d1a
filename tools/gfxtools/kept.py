"""Files of kept bitmaps, and which bitmaps a session begins with by them (docs/IMPORT.md)."""

import struct
import typing

from . import entry
from .held import LARGE, SMALL

START = b"KEPT"
FRONT, HEAD = struct.Struct("<4sH"), struct.Struct("<QHH")
PIXEL = 4  # bytes
MOST_ENTRIES = 5461
MOST_FILE = 67108864


class Bitmap(typing.NamedTuple):
    """A bitmap under a key: its sides, and its pixels as B, G, R, A, rows from the top."""

    key: int
    width: int
    height: int
    pixels: bytes

    @property
    def sides(self) -> typing.Tuple[int, int]:
        return self.width, self.height


class Fault(Exception):
    """Why bytes are no file of kept bitmaps."""


class Chosen(typing.NamedTuple):
    """What is imported: the server's bitmaps of the client's first keys; and why no more are, in words, or None where
    all are."""

    bitmaps: typing.List[Bitmap]
    ended: typing.Optional[str]


def size_of(bitmap: Bitmap) -> int:
    """The bytes of its pixels."""
    return len(bitmap.pixels)


def entry_at(data: bytes, at: int, number: int) -> Bitmap:
    """The entry that begins at a place, of this number from 1."""
    if len(data) - at < HEAD.size:
        raise Fault(f"it ends within entry {number:,}")
    key, width, height = HEAD.unpack_from(data, at)
    at += HEAD.size
    size = PIXEL * width * height
    if len(data) - at < size:
        raise Fault(f"it ends within the pixels of entry {number:,}, key {key}, {width} by {height}")
    return Bitmap(key, width, height, data[at:at + size])


def read(data: bytes) -> typing.List[Bitmap]:
    """The bitmaps of a file, in its order, or a Fault."""
    if len(data) > MOST_FILE:
        raise Fault(f"it has {len(data):,} bytes, and the limit is {MOST_FILE:,}")
    if len(data) < FRONT.size or data[:4] != START:
        raise Fault("it doesn't begin with KEPT and a count; an end that kept nothing has KEPT and two bytes of 0")
    count, at, found = FRONT.unpack_from(data)[1], FRONT.size, {}
    if count > MOST_ENTRIES:
        raise Fault(f"it says {count:,} entries, and there may be {MOST_ENTRIES:,}")
    for number in range(1, count + 1):
        one = entry_at(data, at, number)
        if one.key in found:
            raise Fault(f"entry {number:,} has the key {one.key}, as one before it")
        found[one.key] = one
        at += HEAD.size + size_of(one)
    if at != len(data):
        raise Fault(f"{entry.counted(len(data) - at, 'byte')} are left over behind its {count:,} entries")
    return list(found.values())


def written(bitmaps: typing.Iterable[Bitmap]) -> bytes:
    """The file of bitmaps, whose keys differ."""
    bitmaps = list(bitmaps)
    parts = [FRONT.pack(START, len(bitmaps))]
    for one in bitmaps:
        parts += [HEAD.pack(one.key, one.width, one.height), one.pixels]
    return b"".join(parts)


def from_file(name: str) -> typing.List[Bitmap]:
    """The bitmaps of the file of this name."""
    data = entry.whole_of(name, MOST_FILE)
    try:
        return read(data)
    except Fault as fault:
        raise entry.Wrong(f"{entry.name_of(name)}: KeptShape: this is no file of kept bitmaps: {fault}") from None


def why_not(one: Bitmap, held: typing.Optional[Bitmap], slots: int, room: int) -> typing.Optional[str]:
    """Why an entry of the client isn't taken, where so many slots and bytes are left; or None."""
    if held is None:
        return "the server's file hasn't it"
    if size_of(held) != size_of(one):
        return f"the server's file has it with {size_of(held):,} bytes, and the client's with {size_of(one):,}"
    if slots == 0:
        return "no slot is left"
    return f"it has {size_of(one):,} bytes, and the cache has room for {room:,}" if size_of(one) > room else None


def imported(server: typing.List[Bitmap], client: typing.List[Bitmap], is_small: bool) -> Chosen:
    """What is imported of two files, by the limits of the cache or of a small one."""
    by_key = {one.key: one for one in server}
    slots, room = SMALL if is_small else LARGE
    chosen = []
    for one in client:
        held = by_key.get(one.key)
        why = why_not(one, held, slots - len(chosen), room)
        if why:
            behind = "" if one is client[-1] else ", nor is any behind it"
            return Chosen(chosen, f"key {one.key} isn't imported{behind}: {why}")
        chosen.append(held)
        room -= size_of(held)
    return Chosen(chosen, None)


def differing(server: typing.List[Bitmap], client: typing.List[Bitmap]) -> typing.Optional[int]:
    """A key under which both files have as many bytes, and other sides or pixels; or None."""
    by_key = {one.key: one for one in server}
    for one in client:
        held = by_key.get(one.key)
        if held and size_of(held) == size_of(one) and held != one:
            return one.key
    return None


def check_agree(server: typing.List[Bitmap], client: typing.List[Bitmap], names: typing.Tuple[str, str]) -> None:
    """Refuses two files that differ under a key."""
    key = differing(server, client)
    if key is not None:
        raise entry.Wrong(f"{names[0]} and {names[1]}: KeptDiffers: under key {key} they have other bitmaps of as many "
                          "bytes: they aren't of one session, or one was changed")
